//! Fascjoldi's calls for Rust: blocks of 1,024 unsigned integers packed, unpacked and looked up, and column files of them.
//!
//! [`Blocks`] has the calls on slices of any length: what cannot be done is [`Refused`], with a number and a place, and leaves every
//! buffer as it was. [`BitPacking`], [`Delta`], [`FoR`], [`Transpose`] and [`RLE`] have the names and, but for the indices of
//! `decode_unchecked`, the signatures of the crate fastlanes 0.7.2 over the same calls, so that a program written against that crate
//! changes its `use` line. [`files`] has the calls on column files, and [`chunks`] a packed body that comes in parts. [`listing`]
//! says what two column files differ in, and [`text`] has numbers in decimal and what is said of a block to a person.
//!
//! Each call is a function of the archive `libexports.a`, which is proved to answer as its definition says, for any input. What
//! that proof takes for granted of pointers, lengths and overlapping is what Rust sees to for slices and references, so the calls here are
//! safe. That the declarations in `sys` fit the archive is not proved: they are written from its text by `tools/header`.

mod blocks;
pub mod chunks;
pub mod files;
mod lanes;
pub mod listing;
#[rustfmt::skip]
mod sys;
pub mod text;

pub use blocks::{Blocks, Front, Single};
pub use lanes::{transpose_bits, untranspose_bits, BitPacking, Delta, FastLanes, FoR, Transpose, FL_ORDER, RLE};

/// Why a call was refused: the number, and the place that goes with it. `include/fascjoldi.h` lists the numbers. Nothing was written.
#[derive(Clone, Copy, Debug, PartialEq, Eq)]
pub struct Refused {
    pub number: usize,
    pub place: usize,
}

impl std::fmt::Display for Refused {
    fn fmt(&self, out: &mut std::fmt::Formatter<'_>) -> std::fmt::Result {
        write!(out, "refused with number {} at place {}", self.number, self.place)
    }
}

impl std::error::Error for Refused {}

/// What was handed over: what the call gives where its number is 0, and else the refusal.
fn answer<G>(number: usize, place: usize, gives: G) -> Result<G, Refused> {
    if number == 0 {
        Ok(gives)
    } else {
        Err(Refused { number, place })
    }
}

/// A count of packed words, which 2^64 - 1 stands for where there is none.
fn counted(words: u64) -> Option<u64> {
    (words != u64::MAX).then_some(words)
}
