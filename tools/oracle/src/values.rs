//! The kinds of values that a buffer is filled with: those at which packing, differences and runs
//! have their edges, and random ones.

use crate::random::Random;
use crate::stream::top;

#[derive(Clone, Copy, PartialEq, Eq, Debug)]
pub enum Kind {
    Zeros,
    /// One random number everywhere.
    Equal,
    /// Every bit set.
    Ones,
    /// Random numbers of a few bits.
    Small,
    /// Random numbers that the width holds.
    Fits,
    /// 2^W - 1, the greatest number that the width holds.
    WidthTop,
    /// 2^W, the least that it does not hold.
    WidthOver,
    /// Random over the full range.
    Full,
    /// Two numbers in turn.
    Alternating,
    /// Random numbers, each repeated for a while.
    Runs,
    /// A rising or falling ramp that wraps.
    Ramp,
    /// Numbers near 0, near 2^T and near the middle, whose differences wrap.
    Wrapping,
}

pub const KINDS: [Kind; 12] = [
    Kind::Zeros,
    Kind::Equal,
    Kind::Ones,
    Kind::Small,
    Kind::Fits,
    Kind::WidthTop,
    Kind::WidthOver,
    Kind::Full,
    Kind::Alternating,
    Kind::Runs,
    Kind::Ramp,
    Kind::Wrapping,
];

/// The bases and references that matter.
#[derive(Clone, Copy, PartialEq, Eq, Debug)]
pub enum End {
    Zero,
    One,
    /// 2^T - 1.
    Top,
    Random,
}

pub const ENDS: [End; 4] = [End::Zero, End::One, End::Top, End::Random];

/// A number of so many bits at that end.
pub fn end(end: End, bits: u32, random: &mut Random) -> u64 {
    match end {
        End::Zero => 0,
        End::One => 1,
        End::Top => top(bits),
        End::Random => random.next() & top(bits),
    }
}

/// Random numbers of so many bits.
pub fn filler(bits: u32, length: usize, random: &mut Random) -> Vec<u64> {
    (0..length).map(|_| random.next() & top(bits)).collect()
}

/// So many numbers of that kind, each of so many bits, for a call at that width.
pub fn values(kind: Kind, bits: u32, width: u64, length: usize, random: &mut Random) -> Vec<u64> {
    let first = random.next();
    let second = random.next();
    let over = 1u64.checked_shl(width as u32).unwrap_or(0);
    let few = random.below(u64::from(bits) / 2) as u32;
    let step = random.pick(&[1, 1, 3, 100, u64::MAX, second]);
    let middle = 1 << (bits - 1);
    let near_ends = [0, 1, u64::MAX, u64::MAX - 1, middle, middle - 1];
    let mut run = first;
    let mut one = |i: u64| match kind {
        Kind::Zeros => 0,
        Kind::Equal => first,
        Kind::Ones => u64::MAX,
        Kind::Small => random.next() & top(few),
        Kind::Fits => random.next() & over.wrapping_sub(1),
        Kind::WidthTop => over.wrapping_sub(1),
        Kind::WidthOver => over,
        Kind::Full => random.next(),
        Kind::Alternating => [first, !first][i as usize % 2],
        Kind::Runs => {
            if random.once_in(9) {
                run = random.next();
            }
            run
        }
        Kind::Ramp => first.wrapping_add(step.wrapping_mul(i)),
        Kind::Wrapping => random.pick(&near_ends),
    };
    (0..length as u64).map(|i| one(i) & top(bits)).collect()
}
