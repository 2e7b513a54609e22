//! How many packed words a lookup reads (R39), and how much of a list a budget allows (R46),
//! written down once.
//!
//! The crate counts no words, so this module alone says what is expected of a count. It takes the
//! row of an index from the place formula (R16), by trying the rows, and the count of a row from
//! the sentence of R39. The self-check holds both to the crate's own packing.

use crate::call::{BLOCK, Call};
use crate::stream::{B, Question};

/// The order list (R15).
const ORDER: [u64; 8] = [0, 4, 2, 6, 1, 5, 3, 7];

/// The words that an accepted question reads: of a single access its count, of a list access the
/// sum, under a budget that of the part which is answered. Nothing for the calls that say no count.
pub fn read(q: &Question) -> Option<u64> {
    match q.call {
        Call::Single => Some(count(q.t, q.width, q.index)),
        Call::List => sums(q).last().copied(),
        Call::Budget => Some(affordable(q).1),
        _ => None,
    }
}

/// What a budget allows (R46): the length of the longest front part of the list whose counts sum to
/// at most the budget, and that sum. The part of no lookup costs nothing, so there always is one.
pub fn affordable(q: &Question) -> (usize, u64) {
    let sums = sums(q);
    let longest = sums.iter().rposition(|&sum| sum <= q.reference);
    let longest = longest.expect("the part of no lookup is affordable");
    (longest, sums[longest])
}

/// The sum of the counts of each front part of the list, from that of no lookup to the entire list.
/// It is held at 2^64 - 1; no list of the stream is long enough to come near that.
pub fn sums(q: &Question) -> Vec<u64> {
    let mut sums = vec![0u64];
    for &index in &q.buffers[B] {
        let before = sums[sums.len() - 1];
        sums.push(before.saturating_add(count(q.t, q.width, index)));
    }
    sums
}

/// The words in which the bits of the value at that index stand.
pub fn count(t: u32, width: u64, index: u64) -> u64 {
    of_row(t, width, row(t, index))
}

/// The sentence of R39: 0 at width 0; 1 if (row * W mod T) + W is at most T; else 2.
pub fn of_row(t: u32, width: u64, row: u64) -> u64 {
    let t = u64::from(t);
    if width == 0 {
        0
    } else if row * width % t + width <= t {
        1
    } else {
        2
    }
}

/// The row in which a place stands: the one whose lanes, by the place formula, reach that place.
pub fn row(t: u32, index: u64) -> u64 {
    let lanes = BLOCK as u64 / u64::from(t);
    let reaches = |&row: &u64| (place(row, 0)..place(row, 0) + lanes).contains(&index);
    let found = (0..u64::from(t)).find(reaches);
    found.unwrap_or_else(|| panic!("place {index} has no row at size {t}"))
}

/// The place formula (R16).
pub fn place(row: u64, lane: u64) -> u64 {
    ORDER[row as usize / 8] * 16 + row % 8 * 128 + lane
}

/// The first and the last row whose bits stand in two words; none at a width that divides T.
pub fn rows_in_two(t: u32, width: u64) -> Vec<u64> {
    let in_two = |&row: &u64| of_row(t, width, row) == 2;
    let first = (0..u64::from(t)).find(in_two);
    let last = (0..u64::from(t)).rfind(in_two);
    let mut rows: Vec<u64> = first.into_iter().chain(last).collect();
    rows.dedup();
    rows
}
