//! The judge: what the crate answers to an accepted question.
//!
//! Nothing is worked out here. Elements are narrowed to the question's size, the crate is called,
//! and what it left is widened again. Its forms with a width at run time are called where it has
//! them; of undelta_pack and for_pack it has only forms with a width fixed when compiled, so these
//! are called by a `match` with an arm for each width. For bits its `scalar` functions are called.
//! What the crate cannot say, how many words are read and how much of a list a budget allows, comes
//! from `words`.
//!
//! The crate's unsafe calls ask their caller for right lengths and for run numbers inside the
//! dictionary. The assertions below ask for just that, so that a question which should have been
//! refused stops the run and is not answered by chance.

use crate::call::{BLOCK, Call};
use crate::stream::{A, Answer, B, C, Question};
use crate::words;
use fastlanes::{BitPacking, Delta, FastLanes, FoR, RLE, Transpose, scalar};
use seq_macro::seq;
use std::mem::MaybeUninit;

/// An element size, with the crate's calls that need the size or the width fixed when compiled.
pub trait Size: BitPacking + Delta + FoR + RLE + Transpose + TryFrom<u64> + Into<u64> {
    fn delta_at(values: &[Self; BLOCK], base: &[Self], out: &mut [Self; BLOCK]);
    fn undelta_at(values: &[Self; BLOCK], base: &[Self], out: &mut [Self; BLOCK]);
    fn undelta_pack_at(width: usize, packed: &[Self], base: &[Self], out: &mut [Self; BLOCK]);
    fn for_pack_at(width: usize, values: &[Self; BLOCK], reference: Self, packed: &mut [Self]);
}

macro_rules! size {
    ($element:ty, $t:tt) => {
        impl Size for $element {
            fn delta_at(values: &[Self; BLOCK], base: &[Self], out: &mut [Self; BLOCK]) {
                const LANES: usize = <$element>::LANES;
                Self::delta::<LANES>(values, exact(base), out);
            }

            fn undelta_at(values: &[Self; BLOCK], base: &[Self], out: &mut [Self; BLOCK]) {
                const LANES: usize = <$element>::LANES;
                Self::undelta::<LANES>(values, exact(base), out);
            }

            fn undelta_pack_at(
                width: usize,
                packed: &[Self],
                base: &[Self],
                out: &mut [Self; BLOCK],
            ) {
                const LANES: usize = <$element>::LANES;
                seq!(W in 0..=$t {
                    match width {
                        #(W => Self::undelta_pack::<LANES, W, { LANES * W }>(
                            exact(packed), exact(base), out,
                        ),)*
                        _ => panic!("no width {width} at size {}", $t),
                    }
                })
            }

            fn for_pack_at(
                width: usize,
                values: &[Self; BLOCK],
                reference: Self,
                packed: &mut [Self],
            ) {
                const LANES: usize = <$element>::LANES;
                seq!(W in 0..=$t {
                    match width {
                        #(W => Self::for_pack::<W, { LANES * W }>(
                            values, reference, exact_mut(packed),
                        ),)*
                        _ => panic!("no width {width} at size {}", $t),
                    }
                })
            }
        }
    };
}

size!(u8, 8);
size!(u16, 16);
size!(u32, 32);
size!(u64, 64);

/// The slice as an array, or a stop where its length is another.
fn exact<E, const N: usize>(slice: &[E]) -> &[E; N] {
    slice
        .try_into()
        .unwrap_or_else(|_| panic!("{} elements where {N} are due", slice.len()))
}

fn exact_mut<E, const N: usize>(slice: &mut [E]) -> &mut [E; N] {
    let length = slice.len();
    slice
        .try_into()
        .unwrap_or_else(|_| panic!("{length} elements where {N} are due"))
}

fn narrow<E: TryFrom<u64>>(wide: &[u64]) -> Vec<E> {
    let fit = |&x: &u64| E::try_from(x).unwrap_or_else(|_| panic!("{x} does not fit"));
    wide.iter().map(fit).collect()
}

fn widen<E: Into<u64>>(narrow: Vec<E>) -> Vec<u64> {
    narrow.into_iter().map(Into::into).collect()
}

/// The crate's answer to a question that no rule refuses.
pub fn answer(q: &Question) -> Answer {
    match q.t {
        8 => answer_at::<u8>(q),
        16 => answer_at::<u16>(q),
        32 => answer_at::<u32>(q),
        64 => answer_at::<u64>(q),
        t => panic!("no size {t}"),
    }
}

fn answer_at<E: Size>(q: &Question) -> Answer {
    let mut done = Answer {
        number: 0,
        place: 0,
        value: 0,
        words: words::read(q),
        c: q.buffers[C].clone(),
    };
    match q.call {
        Call::Pack | Call::Unpack | Call::ForPack | Call::UnforPack => done.c = pack::<E>(q),
        Call::Single => done.value = single::<E>(q),
        Call::List => done.c = list::<E>(q),
        Call::Budget => (done.value, done.c) = list_within_budget::<E>(q),
        Call::Delta | Call::Undelta | Call::UndeltaPack => done.c = delta::<E>(q),
        Call::Decode => done.c = decode::<E>(q),
        Call::Transpose | Call::Untranspose => done.c = transpose::<E>(q),
        Call::TransposeBits | Call::UntransposeBits => done.c = bits::<E>(q),
    }
    done
}

fn assert_packed<E: Size>(packed: &[E], width: usize) {
    assert!(
        width <= E::T && packed.len() == E::LANES * width,
        "a packed length that is not right"
    );
}

/// Packing and unpacking, with and without a reference: c afterwards.
fn pack<E: Size>(q: &Question) -> Vec<u64> {
    let width = q.width as usize;
    let reference = narrow::<E>(&[q.reference])[0];
    let a: Vec<E> = narrow(&q.buffers[A]);
    let mut c: Vec<E> = narrow(&q.buffers[C]);
    if matches!(q.call, Call::Pack | Call::ForPack) {
        let values: &[E; BLOCK] = exact(&a);
        assert_packed(&c, width);
        match q.call {
            // SAFETY: both lengths are asserted above.
            Call::Pack => unsafe { E::unchecked_pack(width, values, &mut c) },
            _ => E::for_pack_at(width, values, reference, &mut c),
        }
    } else {
        let values: &mut [E; BLOCK] = exact_mut(&mut c);
        assert_packed(&a, width);
        match q.call {
            // SAFETY: both lengths are asserted above.
            Call::Unpack => unsafe { E::unchecked_unpack(width, &a, values) },
            // SAFETY: as for unpacking.
            _ => unsafe { E::unchecked_unfor_pack(width, &a, reference, values) },
        }
    }
    widen(c)
}

/// Single access: the value.
fn single<E: Size>(q: &Question) -> u64 {
    let packed: Vec<E> = narrow(&q.buffers[A]);
    assert_packed(&packed, q.width as usize);
    // SAFETY: the length is asserted above. A bad index is a panic of the crate.
    let value = unsafe {
        E::unchecked_unpack_single(q.width as usize, &packed, usize::try_from(q.index).unwrap())
    };
    value.into()
}

/// List access: the outputs afterwards.
fn list<E: Size>(q: &Question) -> Vec<u64> {
    let packed: Vec<E> = narrow(&q.buffers[A]);
    let indices: Vec<usize> = narrow(&q.buffers[B]);
    let mut outputs: Vec<MaybeUninit<E>> = narrow::<E>(&q.buffers[C])
        .into_iter()
        .map(MaybeUninit::new)
        .collect();
    assert_packed(&packed, q.width as usize);
    // SAFETY: the length is asserted above. A bad index, or a list and outputs of different length,
    // is a panic of the crate.
    unsafe { E::unchecked_unpack_indices(q.width as usize, &packed, &indices, &mut outputs) };
    // SAFETY: each output held filler from the start.
    outputs
        .into_iter()
        .map(|output| unsafe { output.assume_init() }.into())
        .collect()
}

/// List access under a budget: how many are answered, and the outputs afterwards. The crate has no
/// such call. It is asked for the affordable front part, and sees the other outputs no more than
/// the other indices.
fn list_within_budget<E: Size>(q: &Question) -> (u64, Vec<u64>) {
    let (answered, _) = words::affordable(q);
    let mut front = q.clone();
    front.buffers[B].truncate(answered);
    front.buffers[C].truncate(answered);
    let mut outputs = list::<E>(&front);
    outputs.extend(&q.buffers[C][answered..]);
    (answered as u64, outputs)
}

/// delta, undelta and undelta_pack: c afterwards.
fn delta<E: Size>(q: &Question) -> Vec<u64> {
    let a: Vec<E> = narrow(&q.buffers[A]);
    let base: Vec<E> = narrow(&q.buffers[B]);
    let mut c: Vec<E> = narrow(&q.buffers[C]);
    let out = exact_mut(&mut c);
    match q.call {
        Call::Delta => E::delta_at(exact(&a), &base, out),
        Call::Undelta => E::undelta_at(exact(&a), &base, out),
        _ => E::undelta_pack_at(q.width as usize, &a, &base, out),
    }
    widen(c)
}

/// Run decode: the values afterwards.
fn decode<E: Size>(q: &Question) -> Vec<u64> {
    let dictionary: Vec<E> = narrow(&q.buffers[A]);
    let numbers: Vec<u16> = narrow(&q.buffers[B]);
    let mut values: Vec<E> = narrow(&q.buffers[C]);
    let inside = |&number: &u16| usize::from(number) < dictionary.len();
    assert!(
        numbers.iter().all(inside),
        "a run number beyond the dictionary"
    );
    // SAFETY: every run number is inside the dictionary, as asserted above.
    unsafe { E::decode_unchecked(&dictionary, exact(&numbers), exact_mut(&mut values)) };
    widen(values)
}

/// The transposes of 1,024 values: c afterwards.
fn transpose<E: Size>(q: &Question) -> Vec<u64> {
    let a: Vec<E> = narrow(&q.buffers[A]);
    let mut c: Vec<E> = narrow(&q.buffers[C]);
    match q.call {
        Call::Transpose => E::transpose(exact(&a), exact_mut(&mut c)),
        _ => E::untranspose(exact(&a), exact_mut(&mut c)),
    }
    widen(c)
}

/// The transposes of 1,024 bits: c afterwards.
fn bits<E: Size>(q: &Question) -> Vec<u64> {
    let mut c = q.buffers[C].clone();
    match q.call {
        Call::TransposeBits => scalar::transpose_bits::<E>(exact(&q.buffers[A]), exact_mut(&mut c)),
        _ => scalar::untranspose_bits(exact(&q.buffers[A]), exact_mut(&mut c)),
    }
    c
}
