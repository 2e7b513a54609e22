//! The mode `selfcheck`: is the judge the crate that docs/RULES.md speaks of?
//!
//! The crate's order list and lanes, and its answers, are held to R13, to R15 and to the cases P5
//! to P11 of R150 (P1 to P4 are inside its calls), and the crate is shown to panic where R12 says
//! that it does. One line for each, `ok` or `FAILED`. What R12 calls undefined in release is not
//! run in release; where the program was built with debug assertions, the crate's own assertions
//! are seen to catch it. The lines on the count of words, which the crate does not have (R39), come
//! from `check_words`.

use crate::call::{BLOCK, SIZES};
use crate::check_words;
use crate::judge::Size;
use fastlanes::{BitPacking, Delta, FastLanes, FoR, RLE, scalar};
use std::mem::MaybeUninit;
use std::panic::{AssertUnwindSafe, catch_unwind, set_hook, take_hook};

/// Whether something holds, and what.
pub type Line = (bool, String);

/// Prints the lines; true where none failed.
pub fn selfcheck() -> bool {
    let hook = take_hook();
    set_hook(Box::new(|_| {}));
    let mut lines = cases_of_document_01();
    let panics = [
        panics_at::<u8>(),
        panics_at::<u16>(),
        panics_at::<u32>(),
        panics_at::<u64>(),
    ];
    lines.extend(at_each_size(&panics));
    lines.extend(check_words::lines());
    if cfg!(debug_assertions) {
        lines.extend(debug_panics());
    }
    set_hook(hook);
    for (holds, what) in &lines {
        println!("{} {what}", if *holds { "ok    " } else { "FAILED" });
    }
    lines.iter().all(|(holds, _)| *holds)
}

fn line(holds: bool, what: &str) -> Line {
    (holds, what.to_string())
}

/// The same lines at the four sizes as one list, which says where a line does not hold.
fn at_each_size(sizes: &[Vec<Line>; 4]) -> Vec<Line> {
    let joined = |i: usize| {
        let failing = SIZES.iter().zip(sizes).filter(|(_, lines)| !lines[i].0);
        let names: Vec<String> = failing.map(|(t, _)| format!(", not at T {t}")).collect();
        (
            names.is_empty(),
            format!("each T: {}{}", sizes[0][i].1, names.concat()),
        )
    };
    (0..sizes[0].len()).map(joined).collect()
}

fn cases_of_document_01() -> Vec<Line> {
    let lines = [
        (order(), "order list 0, 4, 2, 6, 1, 5, 3, 7"),
        (lanes(), "T 8, 16, 32, 64 have 128, 64, 32, 16 lanes"),
        (
            p5(),
            "P5: transpose sources: 1 has 64, 64 has 8, 197 has 329, 1023 has 1023",
        ),
        (
            p6(),
            "P6: T 8, W 3, lane 0 holding 0 to 7: words 136, 198, 250 at 0, 128, 256",
        ),
        (p7(), "P7: in P6, single access at place 256 gives 2"),
        (
            p8(),
            "P8: T 8, value 3, reference 250: 9; restored at W 4; 251 at W 3",
        ),
        (p9(), "P9: T 8, base 5, rows 5, 7, 6: differences 0, 2, 255"),
        (
            p10::<u8>(3, 4),
            "P10, T 8: a, b, a by 0, 0, 1, 2, 2 .. are decoded to a, a, b, a ..",
        ),
        (p10::<u16>(300, 4), "P10, T 16"),
        (p10::<u32>(0, u32::MAX), "P10, T 32"),
        (p10::<u64>(u64::MAX, 0), "P10, T 64"),
        (
            p11(),
            "P11: T 16, bit 56 moves to 67; T 64, bit 64 moves to 1, and back",
        ),
    ];
    lines.map(|(holds, what)| line(holds, what)).to_vec()
}

fn order() -> bool {
    fastlanes::FL_ORDER == [0, 4, 2, 6, 1, 5, 3, 7]
}

fn lanes() -> bool {
    [u8::T, u16::T, u32::T, u64::T] == [8, 16, 32, 64]
        && [u8::LANES, u16::LANES, u32::LANES, u64::LANES] == [128, 64, 32, 16]
}

fn p5() -> bool {
    [1, 64, 197, 1023].map(fastlanes::transpose) == [64, 8, 329, 1023]
}

/// The packed block of P6. At T 8 row r of lane 0 stands at place 128 r.
fn packed_p6() -> [u8; 384] {
    let mut values = [0; BLOCK];
    for row in 0..8 {
        values[128 * row] = row as u8;
    }
    let mut packed = [0xEE; 384];
    u8::pack::<3, 384>(&values, &mut packed);
    packed
}

fn p6() -> bool {
    let packed = packed_p6();
    let words = [packed[0], packed[128], packed[256]];
    let others = (0..384).filter(|place| place % 128 != 0);
    words == [136, 198, 250] && others.into_iter().all(|place| packed[place] == 0)
}

fn p7() -> bool {
    u8::unpack_single::<3, 384>(&packed_p6(), 256) == 2
}

fn p8() -> bool {
    let values = [3; BLOCK];
    let mut difference = [0; BLOCK];
    u8::for_pack::<8, BLOCK>(&values, 250, &mut difference);
    let (mut packed_4, mut restored_4) = ([0; 512], [0; BLOCK]);
    u8::for_pack::<4, 512>(&values, 250, &mut packed_4);
    u8::unfor_pack::<4, 512>(&packed_4, 250, &mut restored_4);
    let (mut packed_3, mut restored_3) = ([0; 384], [0; BLOCK]);
    u8::for_pack::<3, 384>(&values, 250, &mut packed_3);
    u8::unfor_pack::<3, 384>(&packed_3, 250, &mut restored_3);
    difference == [9; BLOCK] && restored_4 == values && restored_3 == [251; BLOCK]
}

fn p9() -> bool {
    let mut values = [0; BLOCK];
    [values[0], values[128], values[256]] = [5, 7, 6];
    let mut differences = [0; BLOCK];
    u8::delta::<128>(&values, &[5; 128], &mut differences);
    [differences[0], differences[128], differences[256]] == [0, 2, 255]
}

fn p10<E: Size + PartialEq>(a: E, b: E) -> bool {
    let mut numbers = [2u16; BLOCK];
    numbers[..3].copy_from_slice(&[0, 0, 1]);
    let mut values = [b; BLOCK];
    // SAFETY: every run number is below 3, the dictionary's length.
    unsafe { E::decode_unchecked(&[a, b, a], &numbers, &mut values) };
    let mut expected = [a; BLOCK];
    expected[2] = b;
    values == expected
}

fn p11() -> bool {
    let only = |bit: usize| {
        let mut block = [0u64; 16];
        block[bit / 64] = 1 << (bit % 64);
        block
    };
    let (mut at_16, mut at_64, mut back) = ([9; 16], [9; 16], [9; 16]);
    scalar::transpose_bits::<u16>(&only(56), &mut at_16);
    scalar::transpose_bits::<u64>(&only(64), &mut at_64);
    scalar::untranspose_bits(&at_64, &mut back);
    at_16 == only(67) && at_64 == only(1) && back == only(64)
}

fn panics(call: impl FnOnce()) -> bool {
    catch_unwind(AssertUnwindSafe(call)).is_err()
}

/// The panics of R12, at one size. All lengths are right but where a line says otherwise.
fn panics_at<E: Size + PartialEq>() -> Vec<Line> {
    let mut out = vec![];
    for (name, call) in calls_with_a_width::<E>() {
        let holds = panics(|| call(E::T + 1)) && !panics(|| call(E::T));
        out.push((
            holds,
            format!("{name} panics at width T + 1 and not at width T"),
        ));
    }
    for (width, list, outputs) in [(3, 3, 2), (3, 2, 3), (0, 1, 0), (0, 0, 1)] {
        let holds = panics(|| access::<E>(width, &vec![0; list], outputs));
        let what = format!("a list of {list} with outputs of {outputs} panics at width {width}");
        out.push((holds, what));
    }
    for index in [1024, usize::MAX] {
        let holds = panics(|| single::<E>(3, index)) && !panics(|| single::<E>(0, index));
        out.push((
            holds,
            format!("index {index} panics at width 3 and gives 0 at width 0"),
        ));
    }
    let what = "the list 0, 1023, 1024 panics at width T with its first two outputs written";
    out.push(line(earlier_outputs_are_written::<E>(), what));
    out
}

/// A call of the crate at some width, with buffers of the lengths that this width asks for.
type AtWidth = fn(usize);

/// The crate's calls that take a width at run time.
fn calls_with_a_width<E: Size>() -> [(&'static str, AtWidth); 5] {
    [
        ("unchecked_pack", |width| {
            let (values, mut packed) = (block::<E>(), words::<E>(width));
            // SAFETY: the lengths are right; a width above T is said to panic.
            unsafe { E::unchecked_pack(width, &values, &mut packed) }
        }),
        ("unchecked_unpack", |width| {
            let (packed, mut values) = (words::<E>(width), block::<E>());
            // SAFETY: as above.
            unsafe { E::unchecked_unpack(width, &packed, &mut values) }
        }),
        ("unchecked_unpack_single", |width| single::<E>(width, 0)),
        ("unchecked_unpack_indices", |width| {
            access::<E>(width, &[0], 1)
        }),
        ("unchecked_unfor_pack", |width| {
            let (packed, mut values) = (words::<E>(width), block::<E>());
            // SAFETY: as above.
            unsafe { E::unchecked_unfor_pack(width, &packed, one(), &mut values) }
        }),
    ]
}

fn one<E: Size>() -> E {
    E::try_from(1).unwrap_or_else(|_| unreachable!("1 fits in every size"))
}

fn block<E: Size>() -> Vec<E> {
    vec![one(); BLOCK]
}

/// Packed words, as many as the width asks for, above T too.
fn words<E: Size>(width: usize) -> Vec<E> {
    vec![one(); E::LANES * width]
}

fn single<E: Size>(width: usize, index: usize) {
    // SAFETY: the length is right; the other conditions are said to panic.
    let value = unsafe { E::unchecked_unpack_single(width, &words::<E>(width), index) };
    assert!(width > 0 || value.into() == 0);
}

fn access<E: Size>(width: usize, indices: &[usize], outputs: usize) {
    let mut outputs = vec![MaybeUninit::new(one::<E>()); outputs];
    // SAFETY: as for single access.
    unsafe { E::unchecked_unpack_indices(width, &words::<E>(width), indices, &mut outputs) }
}

/// A list of two good indices and a bad one, over ones packed at width T: the outputs held
/// something else, and after the panic the first two hold the ones and the third is as it was.
fn earlier_outputs_are_written<E: Size + PartialEq>() -> bool {
    let packed = words::<E>(E::T);
    let filler = E::try_from(77).unwrap_or_else(|_| unreachable!("77 fits in every size"));
    let mut outputs = [MaybeUninit::new(filler); 3];
    let panicked = panics(|| {
        // SAFETY: the packed length is right.
        unsafe { E::unchecked_unpack_indices(E::T, &packed, &[0, 1023, 1024], &mut outputs) }
    });
    // SAFETY: each output held filler from the start.
    let left = outputs.map(|output| unsafe { output.assume_init() });
    panicked && left == [one(), one(), filler]
}

/// What is undefined in release, seen by the crate's own debug assertions. Only ever called in a
/// build that has them.
fn debug_panics() -> Vec<Line> {
    // SAFETY, of all ten: the crate's debug assertions stop the call before its first access.
    let wrong: [(&str, fn()); 10] = [
        ("pack of 1,023 values", || unsafe {
            u8::unchecked_pack(3, &[1; 1023], &mut [1; 384])
        }),
        ("pack into 383 words", || unsafe {
            u8::unchecked_pack(3, &[1; 1024], &mut [1; 383])
        }),
        ("unpack of 383 words", || unsafe {
            u8::unchecked_unpack(3, &[1; 383], &mut [1; 1024])
        }),
        ("unpack into 1,023 values", || unsafe {
            u8::unchecked_unpack(3, &[1; 384], &mut [1; 1023])
        }),
        ("unfor_pack of 383 words", || unsafe {
            u8::unchecked_unfor_pack(3, &[1; 383], 1, &mut [1; 1024])
        }),
        ("unfor_pack into 1,023 values", || unsafe {
            u8::unchecked_unfor_pack(3, &[1; 384], 1, &mut [1; 1023])
        }),
        ("single access in 383 words", || unsafe {
            u8::unchecked_unpack_single(3, &[1; 383], 0);
        }),
        ("list access in 383 words", || unsafe {
            u8::unchecked_unpack_indices(3, &[1; 383], &[], &mut [])
        }),
        ("decode of run number 7 with 7 values", || unsafe {
            u8::decode_unchecked(&[1; 7], &[7u16; BLOCK], &mut [0; BLOCK])
        }),
        ("decode with no values", || unsafe {
            u8::decode_unchecked(&[], &[0u16; BLOCK], &mut [0; BLOCK])
        }),
    ];
    let seen = |(what, call): (&str, fn())| {
        let what = format!("T 8, W 3, with debug assertions: {what} panics");
        (panics(call), what)
    };
    wrong.into_iter().map(seen).collect()
}
