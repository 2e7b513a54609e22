//! The names and, but for the indices of `decode_unchecked`, the signatures of the crate fastlanes 0.7.2, over the calls of this one.
//!
//! Where the width and the lengths are in the types, they are tested when the program is compiled, and no such call is ever refused. Where
//! the crate's signature has no room for a refusal that can come about while the program runs, the call panics with its number and place.
use crate::{sys, Blocks, Refused};
use std::mem::{size_of, MaybeUninit};

/// The order of the groups of eight rows.
pub const FL_ORDER: [usize; 8] = [0, 4, 2, 6, 1, 5, 3, 7];

/// The four element types: T bits, and LANES values side by side.
pub trait FastLanes: Sized + Copy {
    const T: usize = size_of::<Self>() * 8;
    const LANES: usize = 1024 / Self::T;
}

impl FastLanes for u8 {}
impl FastLanes for u16 {}
impl FastLanes for u32 {}
impl FastLanes for u64 {}

/// What the call gives, or a panic that has the refusal's number and place.
fn done<G>(outcome: Result<G, Refused>) -> G {
    match outcome {
        Ok(gives) => gives,
        Err(refused) => panic!("{refused}"),
    }
}

/// Tests, when the program is compiled, that there is such a width and that a packed block of it has this length.
macro_rules! fits {
    ($element:ty, $width:expr, $length:expr) => {
        const {
            assert!($width <= <$element>::T, "the width is above the bits of the element");
            assert!(
                $length == <$element>::LANES * $width,
                "the packed length is not LANES times the width"
            );
        }
    };
}

/// Packing at a width that is in the type, or, by the names that begin with `unchecked`, at one that is given. Those test what they are given too.
pub trait BitPacking: FastLanes {
    /// Packs 1,024 values at `W` bits each.
    fn pack<const W: usize, const B: usize>(input: &[Self; 1024], output: &mut [Self; B]);

    /// Packs 1,024 values at `width` bits each; panics where the call is refused.
    ///
    /// # Safety
    /// Nothing is asked of the caller. The name and the keyword are the crate's.
    unsafe fn unchecked_pack(width: usize, input: &[Self], output: &mut [Self]);

    /// Unpacks 1,024 values of `W` bits each.
    fn unpack<const W: usize, const B: usize>(input: &[Self; B], output: &mut [Self; 1024]);

    /// Unpacks 1,024 values of `width` bits each; panics where the call is refused.
    ///
    /// # Safety
    /// Nothing is asked of the caller. The name and the keyword are the crate's.
    unsafe fn unchecked_unpack(width: usize, input: &[Self], output: &mut [Self]);

    /// The value at one place; panics where the index is 1,024 or more, at every width.
    fn unpack_single<const W: usize, const B: usize>(packed: &[Self; B], index: usize) -> Self;

    /// The value at one place; panics where the call is refused.
    ///
    /// # Safety
    /// Nothing is asked of the caller. The name and the keyword are the crate's.
    unsafe fn unchecked_unpack_single(width: usize, input: &[Self], index: usize) -> Self;

    /// The values at a list of places; panics where the lengths differ or an index is 1,024 or more, at every width.
    fn unpack_indices<const W: usize, const B: usize>(packed: &[Self; B], indices: &[usize], output: &mut [MaybeUninit<Self>]);

    /// The values at a list of places; panics where the call is refused.
    ///
    /// # Safety
    /// Nothing is asked of the caller. The name and the keyword are the crate's.
    unsafe fn unchecked_unpack_indices(width: usize, input: &[Self], indices: &[usize], output: &mut [MaybeUninit<Self>]);
}

/// The output as written elements. The archive is proved for buffers that were written before, so a value is put everywhere first.
fn written<T: Copy>(output: &mut [MaybeUninit<T>], value: T) -> &mut [T] {
    for element in output.iter_mut() {
        element.write(value);
    }
    // SAFETY: every element was written just now, and MaybeUninit<T> has the layout of T.
    unsafe { std::slice::from_raw_parts_mut(output.as_mut_ptr().cast(), output.len()) }
}

impl<T: FastLanes + Blocks + Default> BitPacking for T {
    fn pack<const W: usize, const B: usize>(input: &[Self; 1024], output: &mut [Self; B]) {
        fits!(T, W, B);
        done(Blocks::pack(W, input, output));
    }

    unsafe fn unchecked_pack(width: usize, input: &[Self], output: &mut [Self]) {
        done(Blocks::pack(width, input, output));
    }

    fn unpack<const W: usize, const B: usize>(input: &[Self; B], output: &mut [Self; 1024]) {
        fits!(T, W, B);
        done(Blocks::unpack(W, input, output));
    }

    unsafe fn unchecked_unpack(width: usize, input: &[Self], output: &mut [Self]) {
        done(Blocks::unpack(width, input, output));
    }

    fn unpack_single<const W: usize, const B: usize>(packed: &[Self; B], index: usize) -> Self {
        fits!(T, W, B);
        done(Blocks::unpack_single(W, packed, index)).value
    }

    unsafe fn unchecked_unpack_single(width: usize, input: &[Self], index: usize) -> Self {
        done(Blocks::unpack_single(width, input, index)).value
    }

    fn unpack_indices<const W: usize, const B: usize>(packed: &[Self; B], indices: &[usize], output: &mut [MaybeUninit<Self>]) {
        fits!(T, W, B);
        done(Blocks::unpack_indices(W, packed, indices, written(output, T::default())));
    }

    unsafe fn unchecked_unpack_indices(width: usize, input: &[Self], indices: &[usize], output: &mut [MaybeUninit<Self>]) {
        done(Blocks::unpack_indices(width, input, indices, written(output, T::default())));
    }
}

/// Differences along the lanes, by rows. The base has LANES values.
pub trait Delta: BitPacking {
    fn delta<const LANES: usize>(input: &[Self; 1024], base: &[Self; LANES], output: &mut [Self; 1024]);

    fn undelta<const LANES: usize>(input: &[Self; 1024], base: &[Self; LANES], output: &mut [Self; 1024]);

    fn undelta_pack<const LANES: usize, const W: usize, const B: usize>(input: &[Self; B], base: &[Self; LANES], output: &mut [Self; 1024]);
}

impl<T: BitPacking + Blocks> Delta for T {
    fn delta<const LANES: usize>(input: &[Self; 1024], base: &[Self; LANES], output: &mut [Self; 1024]) {
        const { assert!(LANES == T::LANES, "the base is not LANES long") };
        done(Blocks::delta(input, base, output));
    }

    fn undelta<const LANES: usize>(input: &[Self; 1024], base: &[Self; LANES], output: &mut [Self; 1024]) {
        const { assert!(LANES == T::LANES, "the base is not LANES long") };
        done(Blocks::undelta(input, base, output));
    }

    fn undelta_pack<const LANES: usize, const W: usize, const B: usize>(
        input: &[Self; B],
        base: &[Self; LANES],
        output: &mut [Self; 1024],
    ) {
        const { assert!(LANES == T::LANES, "the base is not LANES long") };
        fits!(T, W, B);
        done(Blocks::undelta_pack(W, input, base, output));
    }
}

/// Frames: each value minus a reference, packed.
pub trait FoR: BitPacking {
    fn for_pack<const W: usize, const B: usize>(input: &[Self; 1024], reference: Self, output: &mut [Self; B]);

    fn unfor_pack<const W: usize, const B: usize>(input: &[Self; B], reference: Self, output: &mut [Self; 1024]);

    /// Unpacks at a width that is given; panics where the call is refused.
    ///
    /// # Safety
    /// Nothing is asked of the caller. The name and the keyword are the crate's.
    unsafe fn unchecked_unfor_pack(width: usize, input: &[Self], reference: Self, output: &mut [Self]);
}

impl<T: BitPacking + Blocks> FoR for T {
    fn for_pack<const W: usize, const B: usize>(input: &[Self; 1024], reference: Self, output: &mut [Self; B]) {
        fits!(T, W, B);
        done(Blocks::for_pack(W, input, reference, output));
    }

    fn unfor_pack<const W: usize, const B: usize>(input: &[Self; B], reference: Self, output: &mut [Self; 1024]) {
        fits!(T, W, B);
        done(Blocks::unfor_pack(W, input, reference, output));
    }

    unsafe fn unchecked_unfor_pack(width: usize, input: &[Self], reference: Self, output: &mut [Self]) {
        done(Blocks::unfor_pack(width, input, reference, output));
    }
}

/// The value transpose.
pub trait Transpose: FastLanes {
    fn transpose(input: &[Self; 1024], output: &mut [Self; 1024]);

    fn untranspose(input: &[Self; 1024], output: &mut [Self; 1024]);
}

impl<T: FastLanes + Blocks> Transpose for T {
    fn transpose(input: &[Self; 1024], output: &mut [Self; 1024]) {
        done(Blocks::transpose(input, output));
    }

    fn untranspose(input: &[Self; 1024], output: &mut [Self; 1024]) {
        done(Blocks::untranspose(input, output));
    }
}

/// Run decoding, with indices of one or two bytes. There is no encoding.
pub trait RLE: Sized {
    /// Writes at each place the value at its index; panics where an index is at or beyond the end of the values.
    ///
    /// # Safety
    /// Nothing is asked of the caller. The name and the keyword are the crate's.
    unsafe fn decode_unchecked<I: Copy + Into<u16>>(rle_vals: &[Self], rle_idxs: &[I; 1024], output: &mut [Self; 1024]);
}

impl<T: Blocks> RLE for T {
    unsafe fn decode_unchecked<I: Copy + Into<u16>>(rle_vals: &[Self], rle_idxs: &[I; 1024], output: &mut [Self; 1024]) {
        let indices = rle_idxs.map(Into::into);
        done(Blocks::decode(rle_vals, &indices, output));
    }
}

/// Moves 1,024 bits as the rows of the lanes of this size lie.
pub fn transpose_bits<T: FastLanes>(input: &[u64; 16], output: &mut [u64; 16]) {
    *output = match T::T {
        8 => <u8 as Blocks>::transpose_bits(input),
        16 => <u16 as Blocks>::transpose_bits(input),
        32 => <u32 as Blocks>::transpose_bits(input),
        _ => <u64 as Blocks>::transpose_bits(input),
    };
}

/// Undoes `transpose_bits::<u64>`.
pub fn untranspose_bits(input: &[u64; 16], output: &mut [u64; 16]) {
    // SAFETY: both are blocks of sixteen numbers, and Rust sees to it that they do not overlap.
    unsafe { sys::bits::untranspose_bits_u64(input, output) };
}
