//! The part of the self-check that holds the count of words to what it counts, and the part of a
//! list that a budget allows to what R46 and R48 say of it.
//!
//! The sentence of R39 is a formula. Here words are counted: once by going through a row's bits one
//! at a time, and once by having the crate pack a value of ones among zeros and looking at its
//! words.

use crate::call::{BLOCK, Call, SIZES};
use crate::judge::Size;
use crate::questions::{PLAIN, accepted, for_a_budget, with_budget};
use crate::random::Random;
use crate::selfcheck::Line;
use crate::stream::B;
use crate::words;

pub fn lines() -> Vec<Line> {
    let mut lines: Vec<Line> = SIZES.map(counted_bit_by_bit).to_vec();
    lines.extend([
        counted_in_the_crate::<u8>(),
        counted_in_the_crate::<u16>(),
        counted_in_the_crate::<u32>(),
        counted_in_the_crate::<u64>(),
    ]);
    lines.extend(worked());
    lines.push(worked_budgets());
    lines.extend(SIZES.map(budgets_of_random_lists));
    lines
}

/// Bit b of row r is bit W * r + b of the lane's number, so it stands in word (W * r + b) / T.
fn counted_bit_by_bit(t: u32) -> Line {
    let t_wide = u64::from(t);
    let holds = |width: u64, row: u64| {
        let mut of_bits: Vec<u64> = (0..width).map(|b| (width * row + b) / t_wide).collect();
        of_bits.dedup();
        of_bits.len() as u64 == words::of_row(t, width, row)
    };
    let all = (0..=t_wide).all(|width| (0..t_wide).all(|row| holds(width, row)));
    let what = format!("T {t}: at each width and row the count is that of the words of its bits");
    (all, what)
}

/// The same at each width and place, by the crate's packing. At width T a row is a word of its own,
/// which tells the row of the place.
fn counted_in_the_crate<E: Size>() -> Line {
    let t = E::T as u32;
    let places = || 0..BLOCK as u64;
    let counts = (0..=u64::from(t)).all(|width| {
        let held = |place| words_of_ones::<E>(width, place).len() as u64;
        places().all(|place| held(place) == words::count(t, width, place))
    });
    let rows = places().all(|place| {
        let found = words_of_ones::<E>(t.into(), place)[0] / E::LANES;
        found as u64 == words::row(t, place)
    });
    let what = format!("T {t}: at each width and place the crate packs a value into so many words");
    (counts && rows, what)
}

/// The packed words that are not zero, where only the value at one place is not: 2^T - 1.
fn words_of_ones<E: Size>(width: u64, place: u64) -> Vec<usize> {
    let number = |x: u64| E::try_from(x).unwrap_or_else(|_| unreachable!("{x} fits"));
    let mut values = [number(0); BLOCK];
    values[place as usize] = number(u64::MAX >> (64 - E::T));
    let mut packed = vec![number(0); E::LANES * width as usize];
    // SAFETY: both lengths are right.
    unsafe { E::unchecked_pack(width as usize, &values, &mut packed) };
    let marked = |&word: &usize| packed[word].into() != 0;
    (0..packed.len()).filter(marked).collect()
}

/// Counts that were worked out by hand.
fn worked() -> Vec<Line> {
    let last_rows = SIZES.into_iter().all(|t| {
        let last = words::place(u64::from(t) - 1, 0);
        (1..=u64::from(t)).all(|width| words::count(t, width, last) == 1)
    });
    let at_width_0 = SIZES.map(|t| words::count(t, 0, 1023)) == [0; 4];
    let rows: Vec<u64> = (0..8).map(|row| words::of_row(8, 3, row)).collect();
    let lines = [
        (words::count(8, 3, 256) == 2, "P7 reads two words"),
        (
            rows == [1, 1, 2, 1, 1, 2, 1, 1],
            "T 8, W 3: rows 2 and 5 stand in two words, the other rows in one",
        ),
        (
            last_rows,
            "each T: the last row stands in one word at each width from 1",
        ),
        (at_width_0, "each T: at width 0 a lookup reads no word"),
        (
            sum_of_all_places() == Some(1280),
            "T 8, W 3: a list of all places reads 10 words in each of the 128 lanes",
        ),
    ];
    lines
        .map(|(holds, what)| (holds, what.to_string()))
        .to_vec()
}

fn sum_of_all_places() -> Option<u64> {
    let mut q = accepted(Call::List, 8, 3, PLAIN, &mut Random::new(0));
    q.buffers[B] = (0..BLOCK as u64).collect();
    words::read(&q)
}

/// How many of the rows of lane 0 are answered at T 8, W 3, whose counts are 1, 1, 2, 1, 1, 2, 1,
/// 1, and how many words these read.
fn worked_budgets() -> Line {
    let mut q = accepted(Call::Budget, 8, 3, PLAIN, &mut Random::new(0));
    q.buffers[B] = (0..8).map(|row| words::place(row, 0)).collect();
    let worked = [
        (0, (0, 0)),
        (1, (1, 1)),
        (2, (2, 2)),
        (3, (2, 2)),
        (4, (3, 4)),
        (5, (4, 5)),
        (7, (5, 6)),
        (9, (7, 9)),
        (10, (8, 10)),
        (11, (8, 10)),
        (u64::MAX, (8, 10)),
    ];
    let as_worked =
        |&(budget, part): &(u64, (usize, u64))| words::affordable(&with_budget(&q, budget)) == part;
    let what = "T 8, W 3: the rows of a lane under budgets of 0 to 11 words and of 2^64 - 1";
    (worked.iter().all(as_worked), what.to_string())
}

/// The facts of R46 and R48 at each width, for a list with indices in one word and in two: what is
/// answered costs at most the budget, and at most two words for each lookup; one lookup more would
/// cost more than the budget; and a budget of twice the list's length answers all.
fn budgets_of_random_lists(t: u32) -> Line {
    let mut random = Random::new(t.into());
    let mut holds = |width: u64| {
        let q = for_a_budget(t, width, &mut random);
        let enough = 2 * q.buffers[B].len() as u64;
        (0..=enough + 1).all(|budget| {
            let (answered, sum) = words::affordable(&with_budget(&q, budget));
            let rest = &q.buffers[B][answered..];
            let next = rest.first().map(|&index| words::count(t, width, index));
            sum <= budget
                && sum <= 2 * answered as u64
                && next.is_none_or(|next| sum + next > budget)
                && (budget < enough || rest.is_empty())
        })
    };
    let all = (0..=u64::from(t)).all(&mut holds);
    let what = format!("T {t}: at each width a budget allows the longest front part, and no more");
    (all, what)
}
