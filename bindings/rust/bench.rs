//! Times our calls beside those of the crate fastlanes, in one process and in turns, and whole jobs on column files beside a copy of the
//! same rows. tools/bench compiles it with three crates: `ours`, and the crate twice, as `baseline` for any x86-64 processor and as
//! `native` for the one at hand.
//!
//! A time is the least of many turns, since what disturbs a turn only ever adds to it. The three sides take their turns one after another and
//! each begins as often as the others. A ratio is ours over theirs: below 1, ours takes less. Before a call is timed, all three have to leave the
//! same output.
use std::hint::black_box;
use std::mem::MaybeUninit;
use std::time::Instant;

const ROWS: usize = 1024;
/// The blocks of the file of a job.
const BLOCKS: usize = 256;

/// The next number of a series that repeats late.
fn next(seed: &mut u64) -> u64 {
    *seed = seed.wrapping_mul(6364136223846793005).wrapping_add(1442695040888963407);
    *seed >> 29 ^ *seed << 31
}

/// The least nanoseconds of a turn of each side.
fn least(turns: usize, sides: usize, mut turn: impl FnMut(usize)) -> Vec<f64> {
    let mut best = vec![f64::MAX; sides];
    for t in 0..turns {
        for s in 0..sides {
            let side = (s + t) % sides;
            let began = Instant::now();
            turn(side);
            best[side] = best[side].min(began.elapsed().as_nanos() as f64);
        }
    }
    best
}

// ---- the calls on one block

const CALLS: [&str; 14] = [
    "pack", "unpack", "single access", "list access", "delta", "undelta", "undelta_pack", "for_pack", "unfor_pack", "decode", "transpose",
    "untranspose", "transpose_bits", "untranspose_bits",
];

/// Whether a call takes a width. One that takes none is timed at the first width alone.
fn takes_width(call: usize) -> bool {
    matches!(call, 0..=3 | 6..=8)
}

/// How many sides a call has. The crate's own kernels for bits on this processor are not in the build that it is compared by, so `native` has none.
fn sides_of(call: usize) -> usize {
    if call < 12 {
        3
    } else {
        2
    }
}

/// How many calls a turn makes, so that a turn is long beside the clock's own steps.
fn calls_in_a_turn(call: usize) -> usize {
    match call {
        2 => ROWS,
        3 | 10 | 11 => 8,
        _ => 32,
    }
}

/// What the calls on one block take and leave.
struct Room<E, const LANES: usize, const B: usize> {
    values: [E; ROWS],
    base: [E; LANES],
    reference: E,
    packed: [E; B],
    indices: [usize; ROWS],
    runs: [u16; ROWS],
    bits: [u64; 16],
    words_out: [E; B],
    values_out: [E; ROWS],
    listed: [MaybeUninit<E>; ROWS],
    bits_out: [u64; 16],
}

macro_rules! at_width {
    ($element:ty, $width:literal, $first:expr, $turns:expr) => {{
        const W: usize = $width;
        const T: usize = <$element>::BITS as usize;
        const LANES: usize = ROWS / T;
        const B: usize = LANES * W;
        type Here = Room<$element, LANES, B>;

        macro_rules! side {
            ($name:ident, $lanes:ident) => {
                #[inline(never)]
                fn $name(call: usize, room: &mut Here) {
                    use $lanes::{transpose_bits, untranspose_bits, BitPacking, Delta, FoR, Transpose, RLE};
                    for i in 0..calls_in_a_turn(call) {
                        let room = black_box(&mut *room);
                        match call {
                            0 => BitPacking::pack::<W, B>(&room.values, &mut room.words_out),
                            1 => BitPacking::unpack::<W, B>(&room.packed, &mut room.values_out),
                            2 => room.values_out[i] = BitPacking::unpack_single::<W, B>(&room.packed, room.indices[i]),
                            3 => <$element>::unpack_indices::<W, B>(&room.packed, &room.indices, &mut room.listed),
                            4 => Delta::delta::<LANES>(&room.values, &room.base, &mut room.values_out),
                            5 => Delta::undelta::<LANES>(&room.values, &room.base, &mut room.values_out),
                            6 => Delta::undelta_pack::<LANES, W, B>(&room.packed, &room.base, &mut room.values_out),
                            7 => FoR::for_pack::<W, B>(&room.values, room.reference, &mut room.words_out),
                            8 => FoR::unfor_pack::<W, B>(&room.packed, room.reference, &mut room.values_out),
                            // SAFETY: every run index is below the count of values.
                            9 => unsafe { RLE::decode_unchecked(&room.values, &room.runs, &mut room.values_out) },
                            10 => Transpose::transpose(&room.values, &mut room.values_out),
                            11 => Transpose::untranspose(&room.values, &mut room.values_out),
                            12 => transpose_bits::<$element>(&room.bits, &mut room.bits_out),
                            _ => untranspose_bits(&room.bits, &mut room.bits_out),
                        }
                    }
                }
            };
        }
        side!(of_ours, ours);
        side!(of_baseline, baseline);
        side!(of_native, native);
        const SIDES: [fn(usize, &mut Here); 3] = [of_ours, of_baseline, of_native];

        let mut seed = 39 + W as u64;
        let mut room = Here {
            values: std::array::from_fn(|_| next(&mut seed) as $element),
            base: std::array::from_fn(|_| next(&mut seed) as $element),
            reference: next(&mut seed) as $element,
            packed: std::array::from_fn(|_| next(&mut seed) as $element),
            indices: std::array::from_fn(|i| (5 + 389 * i) % ROWS),
            runs: std::array::from_fn(|_| (next(&mut seed) % ROWS as u64) as u16),
            bits: std::array::from_fn(|_| next(&mut seed)),
            words_out: [0; B],
            values_out: [0; ROWS],
            listed: [MaybeUninit::new(0); ROWS],
            bits_out: [0; 16],
        };
        for call in 0..CALLS.len() {
            if !$first && !takes_width(call) {
                continue;
            }
            let sides = &SIDES[..sides_of(call)];
            let left = sides.iter().map(|side| {
                (room.words_out, room.values_out, room.bits_out) = ([0; B], [0; ROWS], [0; 16]);
                room.listed = [MaybeUninit::new(0); ROWS];
                side(call, &mut room);
                // SAFETY: every entry was set before the call, which only writes.
                (room.words_out, room.values_out, room.bits_out, room.listed.map(|x| unsafe { x.assume_init() }))
            });
            let left: Vec<_> = left.collect();
            assert!(left.iter().all(|x| *x == left[0]), "{} of {T} bits at width {W}: the outputs differ", CALLS[call]);
            let best = least($turns, sides.len(), |side| sides[side](call, &mut room));
            let width = if takes_width(call) { W.to_string() } else { String::new() };
            let native = best.get(2).map_or(String::new(), |theirs| format!("{:.2}", best[0] / theirs));
            println!(
                "| {:16} | {T:2} | {width:>2} | {:8.1} | {:8.2} | {native:>8} |",
                CALLS[call],
                best[0] / calls_in_a_turn(call) as f64,
                best[0] / best[1]
            );
        }
    }};
}

fn blocks(turns: usize) {
    println!("| call             |  T |  W |  ours ns | baseline |   native |");
    println!("|---|---|---|---|---|---|");
    at_width!(u64, 17, true, turns);
    at_width!(u64, 1, false, turns);
    at_width!(u64, 8, false, turns);
    at_width!(u64, 33, false, turns);
    at_width!(u64, 63, false, turns);
    at_width!(u64, 64, false, turns);
    at_width!(u32, 11, true, turns);
    at_width!(u32, 3, false, turns);
    at_width!(u32, 31, false, turns);
    at_width!(u32, 32, false, turns);
    at_width!(u16, 5, true, turns);
    at_width!(u16, 13, false, turns);
    at_width!(u16, 16, false, turns);
    at_width!(u8, 3, true, turns);
    at_width!(u8, 5, false, turns);
    at_width!(u8, 7, false, turns);
    at_width!(u8, 8, false, turns);
}

// ---- whole jobs on a file

const JOBS: [&str; 10] = [
    "memcpy of the rows", "check", "night pass", "write", "rewrite", "canonical check", "search, every row", "search, half of the rows",
    "search, no block opened", "recall of one row",
];

/// A file of frames of width 17, the rows that it has, and room for what the jobs leave.
struct Jobs {
    rows: Vec<u64>,
    file: Vec<u8>,
    bounds: (u64, u64),
    rows_out: Vec<u64>,
    file_out: Vec<u8>,
}

impl Jobs {
    fn new() -> Self {
        let mut seed = 39;
        let low = 1 << 40;
        let mut rows: Vec<u64> = (0..BLOCKS * ROWS).map(|_| low + next(&mut seed) % (1 << 17)).collect();
        for block in rows.chunks_exact_mut(ROWS) {
            (block[3], block[77]) = (low, low + (1 << 17) - 1);
        }
        let mut file_out = vec![0; 4 + 8224 * BLOCKS];
        let n = ours::files::write(&rows, &mut file_out).expect("the rows are whole blocks");
        let file = file_out[..n].to_vec();
        let bounds = (low + (1 << 15), low + 3 * (1 << 15) - 1);
        Jobs { rows_out: vec![0; rows.len()], rows, file, bounds, file_out }
    }

    fn night_pass(&mut self) {
        ours::files::check(&self.file).expect("the writer's file is right");
        let mut body = ours::files::first_body(&self.file);
        for block in 0..BLOCKS {
            let bytes = &self.file[body.start..body.start + body.length as usize];
            let output = &mut self.rows_out[block * ROWS..(block + 1) * ROWS];
            ours::files::body_block_out(&self.file, block, bytes, output).expect("the body was checked");
            body = ours::files::next_body(&self.file, body);
        }
    }

    fn search(&mut self, low: u64, high: u64) -> usize {
        ours::files::search(&self.file, low, high, &mut self.rows_out).expect("there is room for every row").rows
    }

    fn job(&mut self, job: usize) {
        match job {
            0 => self.rows_out.copy_from_slice(black_box(&self.rows)),
            1 => ours::files::check(&self.file).expect("the writer's file is right"),
            2 => self.night_pass(),
            3 => assert!(ours::files::write(&self.rows, &mut self.file_out) == Ok(self.file.len())),
            4 => assert!(ours::files::rewrite(&self.file, &mut self.file_out) == Ok(self.file.len())),
            5 => ours::files::check_canonical(&self.file).expect("the writer's file is the writer's"),
            6 => assert!(self.search(0, u64::MAX) == BLOCKS * ROWS),
            7 => assert!(self.search(self.bounds.0, self.bounds.1) > BLOCKS * ROWS / 3),
            8 => assert!(self.search(0, 1) == 0),
            _ => assert!(ours::files::row_at(&self.file, BLOCKS * ROWS / 2).map(|row| row.value) == Ok(self.rows[BLOCKS * ROWS / 2])),
        }
        black_box(&self.rows_out);
        black_box(&self.file_out);
    }
}

fn jobs(turns: usize) {
    let mut jobs = Jobs::new();
    let best = least(turns, JOBS.len(), |job| jobs.job(job));
    println!("| job                      | ns a row | of memcpy |");
    println!("|---|---|---|");
    for (name, ns) in JOBS.iter().zip(&best) {
        println!("| {name:24} | {:8.3} | {:9.2} |", ns / (BLOCKS * ROWS) as f64, ns / best[0]);
    }
}

fn main() {
    let turns = std::env::args().nth(1).map_or(200, |word| word.parse().expect("the turns are a number"));
    println!("One call on a block of {ROWS} values: nanoseconds, and ours over the crate's.\n");
    blocks(turns);
    println!("\nWhole jobs on a file of {BLOCKS} blocks, edition 2, frames of width 17: nanoseconds for each of its rows.\n");
    jobs(turns / 4 + 1);
}
