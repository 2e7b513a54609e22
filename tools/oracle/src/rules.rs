//! What is refused: the numbers 1 to 7 of the table of R143, written down once.
//!
//! The crate has no numbers: it panics or is undefined where a call is refused here. So this module
//! alone says what is expected of a refused case, and it stands apart from every proof and every
//! program that is judged by it. The seven tests below are the table's seven lines, in its order.
//! Each gives the place where its condition holds, and nothing where it does not. A test looks only
//! at buffers of a role that the call has, so each call tests only what it takes.

use crate::call::{BLOCK, Call, Role};
use crate::stream::{A, Answer, B, C, Question};

/// The tests of the numbers 1 to 7.
const TESTS: [fn(&Question) -> Option<usize>; 7] = [
    width_above_t,
    block_not_1024_long,
    packed_not_lanes_times_width_long,
    base_not_lanes_long,
    list_and_outputs_differ,
    index_1024_or_more,
    run_number_beyond_dictionary,
];

/// The answer of a refused case: the lowest number that applies, with its place, no value and no
/// count, and the lent buffers as they were. Nothing where no number applies.
pub fn refusal(q: &Question) -> Option<Answer> {
    let mut numbered = (1..).zip(TESTS);
    let (number, place) = numbered.find_map(|(number, test)| Some((number, test(q)?)))?;
    Some(Answer {
        number,
        place: place as u64,
        value: 0,
        words: None,
        c: q.buffers[C].clone(),
    })
}

/// Place 0 where the condition holds.
fn at_0(condition: bool) -> Option<usize> {
    condition.then_some(0)
}

/// 1: the width is above T.
fn width_above_t(q: &Question) -> Option<usize> {
    at_0(q.call.takes_width() && q.width > q.t.into())
}

/// 2: a buffer for a block (values, run numbers) is not 1,024 long.
fn block_not_1024_long(q: &Question) -> Option<usize> {
    at_0(
        q.roles()
            .any(|(role, buffer)| role.is_block() && buffer.len() != BLOCK),
    )
}

/// 3: the packed length is not LANES times the width. (Asked only where the width is at most T.)
fn packed_not_lanes_times_width_long(q: &Question) -> Option<usize> {
    let right = q.lanes() * q.width as usize;
    at_0(q.lengths(Role::Packed).any(|length| length != right))
}

/// 4: the base length is not LANES.
fn base_not_lanes_long(q: &Question) -> Option<usize> {
    at_0(q.lengths(Role::Base).any(|length| length != q.lanes()))
}

/// 5: the index list and its output differ in length.
fn list_and_outputs_differ(q: &Question) -> Option<usize> {
    at_0(q.lengths(Role::Places).ne(q.lengths(Role::Outputs)))
}

/// 6: an index is 1024 or more. Of a list, the lowest such place; of a single access, 0. The crate
/// does not look at an index at width 0; R38 asks for it at every width, and R47 for the whole
/// list, whatever the budget is.
fn index_1024_or_more(q: &Question) -> Option<usize> {
    let indices = match q.call {
        Call::Single => std::slice::from_ref(&q.index),
        Call::List | Call::Budget => &q.buffers[B],
        _ => &[],
    };
    indices.iter().position(|&index| index >= BLOCK as u64)
}

/// 7: a run number is at or beyond the dictionary's length; the lowest such place.
fn run_number_beyond_dictionary(q: &Question) -> Option<usize> {
    if q.call != Call::Decode {
        return None;
    }
    let dictionary = q.buffers[A].len() as u64;
    q.buffers[B].iter().position(|&number| number >= dictionary)
}
