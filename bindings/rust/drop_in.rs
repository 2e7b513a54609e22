//! A program as it is written against fastlanes 0.7.2. Its text is compiled twice: with the crate fastlanes as `lanes`, and with this crate as
//! `lanes`. Both print the same lines.
use lanes::{transpose_bits, untranspose_bits, BitPacking, Delta, FastLanes, FoR, Transpose, RLE};
use std::mem::MaybeUninit;
use std::panic::{catch_unwind, set_hook};

/// The next number of a series that repeats late.
fn next(seed: &mut u64) -> u64 {
    *seed = seed.wrapping_mul(6364136223846793005).wrapping_add(1442695040888963407);
    *seed >> 29 ^ *seed << 31
}

fn mixed(sum: u64, x: u64) -> u64 {
    (sum ^ x).wrapping_mul(1099511628211)
}

/// A function over all types, by the crate's bound.
fn there_and_back<T: BitPacking, const W: usize, const B: usize>(values: &[T; 1024], zero: T) -> [T; 1024] {
    let (mut packed, mut back) = ([zero; B], [zero; 1024]);
    T::pack::<W, B>(values, &mut packed);
    T::unpack::<W, B>(&packed, &mut back);
    back
}

macro_rules! all_calls {
    ($element:ty, $name:literal, $width:literal) => {{
        const W: usize = $width;
        const LANES: usize = <$element as FastLanes>::LANES;
        const B: usize = 1024 * W / <$element as FastLanes>::T;
        let mut seed = 28;
        let values: [$element; 1024] = std::array::from_fn(|_| next(&mut seed) as $element);
        let base: [$element; LANES] = std::array::from_fn(|_| next(&mut seed) as $element);
        let reference = next(&mut seed) as $element;
        let (mut packed, mut output) = ([0; B], [0; 1024]);
        let mut sums = Vec::new();
        let sum = |list: &[$element]| list.iter().fold(14695981039346656037, |sum, &x| mixed(sum, x as u64));
        BitPacking::pack::<W, B>(&values, &mut packed);
        sums.push(sum(&packed));
        BitPacking::unpack::<W, B>(&packed, &mut output);
        sums.push(sum(&output));
        sums.push(sum(&there_and_back::<$element, W, B>(&values, 0)));
        let singles: Vec<$element> = (0..1024).map(|i| BitPacking::unpack_single::<W, B>(&packed, i)).collect();
        sums.push(sum(&singles));
        let indices: Vec<usize> = (0..300).map(|_| next(&mut seed) as usize % 1024).collect();
        let mut found = [MaybeUninit::new(0); 300];
        <$element>::unpack_indices::<W, B>(&packed, &indices, &mut found);
        sums.push(sum(&found.map(|x| unsafe { x.assume_init() })));
        unsafe { <$element>::unchecked_pack(W, &values, &mut packed) };
        sums.push(sum(&packed));
        unsafe { <$element>::unchecked_unpack(W, &packed, &mut output) };
        sums.push(sum(&output));
        sums.push(unsafe { <$element>::unchecked_unpack_single(W, &packed, 517) } as u64);
        Delta::delta::<LANES>(&values, &base, &mut output);
        sums.push(sum(&output));
        Delta::undelta::<LANES>(&values, &base, &mut output);
        sums.push(sum(&output));
        Delta::undelta_pack::<LANES, W, B>(&packed, &base, &mut output);
        sums.push(sum(&output));
        FoR::for_pack::<W, B>(&values, reference, &mut packed);
        sums.push(sum(&packed));
        FoR::unfor_pack::<W, B>(&packed, reference, &mut output);
        sums.push(sum(&output));
        unsafe { <$element>::unchecked_unfor_pack(W, &packed, reference, &mut output) };
        sums.push(sum(&output));
        Transpose::transpose(&values, &mut output);
        sums.push(sum(&output));
        Transpose::untranspose(&values, &mut output);
        sums.push(sum(&output));
        let runs: [u16; 1024] = std::array::from_fn(|i| (i / 5) as u16);
        unsafe { RLE::decode_unchecked(&values[..205], &runs, &mut output) };
        sums.push(sum(&output));
        let (bits, mut moved): ([u64; 16], _) = (std::array::from_fn(|_| next(&mut seed)), [0; 16]);
        transpose_bits::<$element>(&bits, &mut moved);
        sums.push(moved.iter().fold(0, |sum, &x| mixed(sum, x)));
        untranspose_bits(&bits, &mut moved);
        sums.push(moved.iter().fold(0, |sum, &x| mixed(sum, x)));
        let beyond = catch_unwind(|| BitPacking::unpack_single::<W, B>(&packed, 1024)).is_err();
        println!("{} at {}: {sums:x?}, panics beyond the block: {beyond}", $name, W);
    }};
}

fn main() {
    set_hook(Box::new(|_| {}));
    all_calls!(u8, "u8", 3);
    all_calls!(u8, "u8", 8);
    all_calls!(u16, "u16", 1);
    all_calls!(u16, "u16", 11);
    all_calls!(u32, "u32", 17);
    all_calls!(u32, "u32", 31);
    all_calls!(u64, "u64", 5);
    all_calls!(u64, "u64", 63);
    all_calls!(u64, "u64", 64);
}
