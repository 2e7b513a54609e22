//! Questions: one that no rule refuses, and the faults that can be put into it.
//!
//! A fault is a change for one of the numbers 1 to 7, and several can be put into one question.
//! What is then expected is not said here: the rules say it.

use crate::call::{BLOCK, Call, Role};
use crate::random::Random;
use crate::stream::{A, B, C, LIMIT, Question};
use crate::values::{ENDS, End, KINDS, Kind, end, filler, values};
use crate::words;

/// What can vary between two questions of the same call, size and width.
#[derive(Clone, Copy)]
pub struct Shape {
    /// Of the values or words that are read.
    pub kind: Kind,
    /// Of the base or the reference.
    pub end: End,
    /// Length of the index list.
    pub list: usize,
    /// Length of decode's dictionary.
    pub dictionary: usize,
}

/// Random values, a short list, a short dictionary.
pub const PLAIN: Shape = Shape {
    kind: Kind::Full,
    end: End::Random,
    list: 5,
    dictionary: 7,
};

impl Shape {
    pub fn random(random: &mut Random) -> Self {
        let any_list = random.between(0, 2048);
        let any_dictionary = random.between(1, 2 * BLOCK);
        Shape {
            kind: random.pick(&KINDS),
            end: random.pick(&ENDS),
            list: random.pick(&[0, 1, 2, 3, 8, 40, 100, any_list]),
            dictionary: random.pick(&[1, 2, 3, 50, 256, BLOCK, BLOCK + 1, any_dictionary]),
        }
    }
}

/// A question that no rule refuses. What is read has the shape's kind; what is written holds random
/// filler, so that a place which must stay is seen to stay.
pub fn accepted(call: Call, t: u32, width: u64, shape: Shape, random: &mut Random) -> Question {
    let mut q = Question {
        call,
        t,
        width,
        reference: 0,
        index: 0,
        buffers: Default::default(),
    };
    for (buffer, role) in call.roles().into_iter().enumerate() {
        let length = right_length(&q, role, shape);
        q.buffers[buffer] = if buffer < C {
            read(&q, role, length, shape, random)
        } else {
            filler(role.element_bits(t), length, random)
        };
    }
    if call.takes_reference() {
        q.reference = end(shape.end, t, random);
    }
    if call == Call::Single {
        q.index = random.below(BLOCK as u64);
    }
    if call == Call::Budget {
        let cut = random.between(0, q.buffers[B].len());
        q.reference = random.pick(&budgets(&q, cut));
    }
    q
}

/// The budgets that matter for a list: none, the least, the most; near the sum of the list's first
/// `cut` lookups; near the sum of all; twice the list's length, which always is enough; and one
/// that would be none if its high half were lost.
pub fn budgets(q: &Question, cut: usize) -> Vec<u64> {
    let mut budgets = near(words::sums(q)[cut]);
    budgets.extend(near(words::sums(q)[q.buffers[B].len()]));
    budgets.extend([0, 1, 2 * q.buffers[B].len() as u64, 1 << 32, u64::MAX]);
    budgets.sort();
    budgets.dedup();
    budgets
}

/// One less than a sum of words, the sum, and one more.
pub fn near(sum: u64) -> Vec<u64> {
    let mut near = vec![sum.saturating_sub(1), sum, sum + 1];
    near.dedup();
    near
}

/// The place at which the list of `for_a_budget` has an index in two words.
pub const CUT: usize = 7;

/// A list of twelve indices for a budget. The one at `CUT` stands in two words where the width has
/// such rows, so that a budget can be one word short of it.
pub fn for_a_budget(t: u32, width: u64, random: &mut Random) -> Question {
    let shape = Shape { list: 12, ..PLAIN };
    let mut q = accepted(Call::Budget, t, width, shape, random);
    if let Some(&index) = places_in_two(t, width, random).first() {
        q.buffers[B][CUT] = index;
    }
    q
}

/// The question with that budget.
pub fn with_budget(q: &Question, budget: u64) -> Question {
    Question {
        reference: budget,
        ..q.clone()
    }
}

/// The length at which no rule refuses a buffer of that role.
fn right_length(q: &Question, role: Role, shape: Shape) -> usize {
    match role {
        Role::Absent => 0,
        Role::Block | Role::RunNumbers => BLOCK,
        Role::Packed => q.lanes() * q.width as usize,
        Role::Base => q.lanes(),
        Role::Places | Role::Outputs => shape.list,
        Role::Dictionary => shape.dictionary,
        Role::Bits => 16,
    }
}

/// What a buffer that is read holds.
fn read(q: &Question, role: Role, length: usize, shape: Shape, random: &mut Random) -> Vec<u64> {
    let bits = role.element_bits(q.t);
    match role {
        Role::Places => below(BLOCK, length, random),
        Role::RunNumbers => below(shape.dictionary, length, random),
        Role::Base if shape.end == End::Random => filler(bits, length, random),
        Role::Base => vec![end(shape.end, bits, random); length],
        _ => values(shape.kind, bits, q.width, length, random),
    }
}

fn below(bound: usize, length: usize, random: &mut Random) -> Vec<u64> {
    let one = |_| random.below(bound as u64);
    (0..length).map(one).collect()
}

/// A place, in a random lane, of the first and of the last row that stands in two words.
pub fn places_in_two(t: u32, width: u64, random: &mut Random) -> Vec<u64> {
    let lanes = BLOCK as u64 / u64::from(t);
    let rows = words::rows_in_two(t, width).into_iter();
    rows.map(|row| words::place(row, random.below(lanes)))
        .collect()
}

/// A change that gives a question one of the numbers 1 to 7.
#[derive(Clone)]
pub enum Fault {
    /// Another width; the packed length follows it as far as the stream allows.
    Width(u64),
    /// Another length for the buffer with that number.
    Length(usize, usize),
    /// Another index for a single access.
    Index(u64),
    /// Other entries, each at its place, in the list that stands in the buffer b.
    Entries(Vec<(usize, u64)>),
}

/// The numbers that a call can give.
pub fn reasons(call: Call) -> Vec<u8> {
    let can_give = |number: &u8| match number {
        1 | 3 => call.takes_width(),
        2 => call.roles().into_iter().any(Role::is_block),
        4 => call.has(Role::Base),
        5 => call.has(Role::Outputs),
        6 => matches!(call, Call::Single | Call::List | Call::Budget),
        _ => call == Call::Decode,
    };
    (1..=7).filter(can_give).collect()
}

/// The faults for a number, made from an accepted question of a call that can give it.
pub fn faults(number: u8, q: &Question) -> Vec<Fault> {
    match number {
        1 => wide(q),
        2 => wrong_lengths(q, Role::is_block),
        3 => wrong_lengths(q, |role| role == Role::Packed),
        4 => wrong_lengths(q, |role| role == Role::Base),
        5 => wrong_lengths(q, |role| role == Role::Outputs),
        6 => bad_indices(q),
        _ => bad_run_numbers(q),
    }
}

/// Widths above T: the next one, twice T, one whose low byte is the right width, the greatest.
fn wide(q: &Question) -> Vec<Fault> {
    let t = u64::from(q.t);
    [t + 1, 2 * t, 256 + q.width, u16::MAX.into()]
        .map(Fault::Width)
        .to_vec()
}

/// For each buffer of such a role: one short, one long, empty, double.
fn wrong_lengths(q: &Question, wanted: impl Fn(Role) -> bool) -> Vec<Fault> {
    let mut out = vec![];
    for (buffer, role) in q.call.roles().into_iter().enumerate() {
        if !wanted(role) {
            continue;
        }
        let right = q.buffers[buffer].len();
        let mut lengths = vec![right + 1];
        if right > 0 {
            lengths.extend([right - 1, 0, 2 * right]);
        }
        lengths.sort();
        lengths.dedup();
        out.extend(lengths.iter().map(|&length| Fault::Length(buffer, length)));
    }
    out
}

/// Indices of 1024 or more: alone, in a list first, last, at several places. Some of them would be
/// right if their high half were lost.
fn bad_indices(q: &Question) -> Vec<Fault> {
    if q.call == Call::Single {
        return [1024, 1025, 1 << 16, (1 << 32) + 5, 1 << 32, u64::MAX]
            .map(Fault::Index)
            .to_vec();
    }
    bad_entries(&q.buffers[B], [1024, 1 << 32, u64::MAX, (1 << 32) + 5])
}

/// Run numbers at or beyond the dictionary's length, and an empty dictionary.
fn bad_run_numbers(q: &Question) -> Vec<Fault> {
    let length = q.buffers[A].len() as u64;
    let mut out = bad_entries(&q.buffers[B], [length, length, u16::MAX.into(), length + 1]);
    out.push(Fault::Length(A, 0));
    out
}

/// Bad entries in a list: the only one first, the only one last, several, all.
fn bad_entries(list: &[u64], bad: [u64; 4]) -> Vec<Fault> {
    let Some(last) = list.len().checked_sub(1) else {
        return vec![];
    };
    let all = (0..=last).map(|place| (place, bad[place % 4]));
    let places = [
        vec![(0, bad[0])],
        vec![(last, bad[1])],
        vec![(last / 3, bad[2]), (last / 2, bad[3]), (last, bad[0])],
        all.collect(),
    ];
    places.map(Fault::Entries).to_vec()
}

/// Puts the fault into the question.
pub fn put(fault: &Fault, q: &mut Question, random: &mut Random) {
    match fault {
        Fault::Width(width) => widen(q, *width, random),
        Fault::Length(buffer, length) => resize(q, *buffer, *length, random),
        Fault::Index(index) => q.index = *index,
        Fault::Entries(entries) => {
            for &(place, entry) in entries {
                if let Some(old) = q.buffers[B].get_mut(place) {
                    *old = entry;
                }
            }
        }
    }
}

/// Gives a call its new width, and the packed words that this width asks for where the stream may
/// have so many.
fn widen(q: &mut Question, width: u64, random: &mut Random) {
    q.width = width;
    let length = q.lanes() * width as usize;
    let packed = q.call.roles().iter().position(|&role| role == Role::Packed);
    if let (Some(packed), true) = (packed, length <= LIMIT) {
        resize(q, packed, length, random);
    }
}

/// Cuts the buffer short, or fills it up with random elements.
fn resize(q: &mut Question, buffer: usize, length: usize, random: &mut Random) {
    let bits = q.element_bits(buffer);
    let kept = q.buffers[buffer].len().min(length);
    q.buffers[buffer].truncate(kept);
    q.buffers[buffer].extend(filler(bits, length - kept, random));
}
