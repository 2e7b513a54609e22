//! The calls on blocks, over slices.
use crate::{answer, counted, sys, Refused};

/// A value that was looked up, and in how many packed words its bits stand.
#[derive(Clone, Copy, Debug, PartialEq, Eq)]
pub struct Single<T> {
    pub value: T,
    pub words: u64,
}

/// How many lookups of a list's front a budget was enough for, and how many packed words these stand in.
#[derive(Clone, Copy, Debug, PartialEq, Eq)]
pub struct Front {
    pub answered: usize,
    pub words: u64,
}

/// The calls on blocks of 1,024 values, over slices of any length, for `u8`, `u16`, `u32` and `u64`.
///
/// T is the number of bits of an element, and LANES is 1024 / T. A packed block of a width has LANES times the width elements.
/// A call that is refused writes nothing.
pub trait Blocks: Sized + Copy {
    /// Packs 1,024 values at `width` bits each.
    fn pack(width: usize, values: &[Self], packed: &mut [Self]) -> Result<(), Refused>;

    /// Unpacks 1,024 values of `width` bits each.
    fn unpack(width: usize, packed: &[Self], values: &mut [Self]) -> Result<(), Refused>;

    /// Unpacks the value at one place of a packed block.
    fn unpack_single(width: usize, packed: &[Self], index: usize) -> Result<Single<Self>, Refused>;

    /// In how many packed words the value at a place stands; none where there is no such width or no such place.
    fn words_at(width: usize, index: usize) -> Option<u64>;

    /// Unpacks the values at a list of places, and gives how many packed words they stand in, counted for each.
    fn unpack_indices(width: usize, packed: &[Self], indices: &[usize], output: &mut [Self]) -> Result<u64, Refused>;

    /// The same for the longest front of the list that a budget of words is enough for.
    fn unpack_within(width: usize, packed: &[Self], indices: &[usize], budget: u64, output: &mut [Self]) -> Result<Front, Refused>;

    /// Stores at each place its value minus the value of the row before in its lane, at row 0 minus the lane's base.
    fn delta(input: &[Self], base: &[Self], output: &mut [Self]) -> Result<(), Refused>;

    /// Undoes `delta`: sums along each lane by rows, from the lane's base.
    fn undelta(input: &[Self], base: &[Self], output: &mut [Self]) -> Result<(), Refused>;

    /// Unpacks differences of `width` bits each, and sums them as `undelta` does.
    fn undelta_pack(width: usize, packed: &[Self], base: &[Self], values: &mut [Self]) -> Result<(), Refused>;

    /// Packs each value minus the reference at `width` bits.
    fn for_pack(width: usize, values: &[Self], reference: Self, packed: &mut [Self]) -> Result<(), Refused>;

    /// Unpacks 1,024 values of `width` bits each, and adds the reference to each.
    fn unfor_pack(width: usize, packed: &[Self], reference: Self, values: &mut [Self]) -> Result<(), Refused>;

    /// Unpacks so many blocks of one width that stand one after another.
    fn unpack_blocks(width: usize, blocks: usize, packed: &[Self], values: &mut [Self]) -> Result<(), Refused>;

    /// Packs so many blocks, each value minus the one reference, at one width.
    fn for_pack_blocks(width: usize, blocks: usize, values: &[Self], reference: Self, packed: &mut [Self]) -> Result<(), Refused>;

    /// Writes at each place the dictionary's value at that place's index.
    fn decode(dictionary: &[Self], indices: &[u16], output: &mut [Self]) -> Result<(), Refused>;

    /// Puts at each place the value found at its source in the plain order.
    fn transpose(input: &[Self], output: &mut [Self]) -> Result<(), Refused>;

    /// Undoes `transpose`.
    fn untranspose(input: &[Self], output: &mut [Self]) -> Result<(), Refused>;

    /// Moves 1,024 bits as the rows of the lanes of this size lie.
    fn transpose_bits(block: &[u64; 16]) -> [u64; 16];
}

/// A call that gives its number, and its place through the last parameter.
macro_rules! asked {
    ($calls:ident :: $call:ident ( $($argument:expr),* ) gives $gives:expr) => {{
        let mut place = 0;
        // SAFETY: each pointer and length is that of one slice, so what they name is there, aligned and written, and nothing
        // that is written overlaps what else is lent.
        let number = unsafe { sys::$calls::$call($($argument),*, &mut place) };
        answer(number, place, $gives)
    }};
}
pub(crate) use asked;

macro_rules! blocks {
    ($element:ty, $calls:ident) => {
        impl Blocks for $element {
            fn pack(width: usize, values: &[Self], packed: &mut [Self]) -> Result<(), Refused> {
                asked!($calls::pack(width, values.as_ptr(), values.len(), packed.as_mut_ptr(), packed.len()) gives ())
            }

            fn unpack(width: usize, packed: &[Self], values: &mut [Self]) -> Result<(), Refused> {
                asked!($calls::unpack(width, packed.as_ptr(), packed.len(), values.as_mut_ptr(), values.len()) gives ())
            }

            fn unpack_single(width: usize, packed: &[Self], index: usize) -> Result<Single<Self>, Refused> {
                let (mut value, mut words) = (0, 0);
                asked!($calls::unpack_single(width, packed.as_ptr(), packed.len(), index, &mut value, &mut words) gives Single { value, words })
            }

            fn words_at(width: usize, index: usize) -> Option<u64> {
                // SAFETY: the call takes numbers alone.
                counted(unsafe { sys::$calls::words_at(width, index) })
            }

            fn unpack_indices(width: usize, packed: &[Self], indices: &[usize], output: &mut [Self]) -> Result<u64, Refused> {
                let mut words = 0;
                asked!($calls::unpack_indices(width, packed.as_ptr(), packed.len(), indices.as_ptr(), indices.len(),
                    output.as_mut_ptr(), output.len(), &mut words) gives words)
            }

            fn unpack_within(width: usize, packed: &[Self], indices: &[usize], budget: u64, output: &mut [Self]) -> Result<Front, Refused> {
                let (mut answered, mut words) = (0, 0);
                asked!($calls::unpack_within(width, packed.as_ptr(), packed.len(), indices.as_ptr(), indices.len(), budget,
                    output.as_mut_ptr(), output.len(), &mut answered, &mut words) gives Front { answered, words })
            }

            fn delta(input: &[Self], base: &[Self], output: &mut [Self]) -> Result<(), Refused> {
                asked!($calls::delta(input.as_ptr(), input.len(), base.as_ptr(), base.len(), output.as_mut_ptr(), output.len()) gives ())
            }

            fn undelta(input: &[Self], base: &[Self], output: &mut [Self]) -> Result<(), Refused> {
                asked!($calls::undelta(input.as_ptr(), input.len(), base.as_ptr(), base.len(), output.as_mut_ptr(), output.len()) gives ())
            }

            fn undelta_pack(width: usize, packed: &[Self], base: &[Self], values: &mut [Self]) -> Result<(), Refused> {
                asked!($calls::undelta_pack(width, packed.as_ptr(), packed.len(), base.as_ptr(), base.len(),
                    values.as_mut_ptr(), values.len()) gives ())
            }

            fn for_pack(width: usize, values: &[Self], reference: Self, packed: &mut [Self]) -> Result<(), Refused> {
                asked!($calls::for_pack(width, values.as_ptr(), values.len(), reference, packed.as_mut_ptr(), packed.len()) gives ())
            }

            fn unfor_pack(width: usize, packed: &[Self], reference: Self, values: &mut [Self]) -> Result<(), Refused> {
                asked!($calls::unfor_pack(width, packed.as_ptr(), packed.len(), reference, values.as_mut_ptr(), values.len()) gives ())
            }

            fn unpack_blocks(width: usize, blocks: usize, packed: &[Self], values: &mut [Self]) -> Result<(), Refused> {
                asked!($calls::unpack_blocks(width, blocks, packed.as_ptr(), packed.len(), values.as_mut_ptr(), values.len()) gives ())
            }

            fn for_pack_blocks(width: usize, blocks: usize, values: &[Self], reference: Self, packed: &mut [Self]) -> Result<(), Refused> {
                asked!($calls::for_pack_blocks(width, blocks, values.as_ptr(), values.len(), reference,
                    packed.as_mut_ptr(), packed.len()) gives ())
            }

            fn decode(dictionary: &[Self], indices: &[u16], output: &mut [Self]) -> Result<(), Refused> {
                asked!($calls::decode(dictionary.as_ptr(), dictionary.len(), indices.as_ptr(), indices.len(),
                    output.as_mut_ptr(), output.len()) gives ())
            }

            fn transpose(input: &[Self], output: &mut [Self]) -> Result<(), Refused> {
                asked!($calls::transpose(input.as_ptr(), input.len(), output.as_mut_ptr(), output.len()) gives ())
            }

            fn untranspose(input: &[Self], output: &mut [Self]) -> Result<(), Refused> {
                asked!($calls::untranspose(input.as_ptr(), input.len(), output.as_mut_ptr(), output.len()) gives ())
            }

            fn transpose_bits(block: &[u64; 16]) -> [u64; 16] {
                let mut output = [0; 16];
                // SAFETY: both are blocks of sixteen numbers, and the second is a local.
                unsafe { sys::$calls::transpose_bits(block, &mut output) };
                output
            }
        }
    };
}

blocks!(u8, of_u8);
blocks!(u16, of_u16);
blocks!(u32, of_u32);
blocks!(u64, of_u64);
