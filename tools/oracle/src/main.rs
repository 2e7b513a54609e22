//! The oracle: makes questions for the calls of the case stream, has the crate `fastlanes` answer
//! them, and writes the cases to standard output; and checks the judge itself against
//! docs/RULES.md.
//!
//! The modules, from the ground up: `call` says what each call takes, `stream` how a case is
//! written down, `rules` what is refused, `words` how many words are read, `judge` asks the crate,
//! `random`, `values` and `questions` make what is asked, `sweep`, `mixed` and `sample` choose it,
//! `sink` has it answered and written. `selfcheck` and `check_words` hold the judge to
//! docs/RULES.md.

mod call;
mod check_words;
mod judge;
mod mixed;
mod questions;
mod random;
mod rules;
mod sample;
mod selfcheck;
mod sink;
mod stream;
mod sweep;
mod values;
mod words;

use call::{Op, ops};
use sink::Sink;
use std::process::exit;

const USAGE: &str = "\
usage: oracle sweep [SEED]      every call at every size and width, and the edges
       oracle mixed SEED COUNT  so many random cases; the same seed gives the same bytes
       oracle sample            the small stream that the repository keeps
       oracle selfcheck         the crate's answers and panics against docs/RULES.md, and the count
                                of words that a lookup reads against the crate's packing

The first three write a case stream to standard output.
  --ops LIST  only the calls with these numbers, as 0,1,2; all 18 without it
  --tally     say on standard error how many cases were written, for each call and in all

Exit status: 0 done; 1 the stream could not be written, or a line of the self-check failed;
2 bad usage.";

struct Wanted {
    words: Vec<String>,
    ops: Vec<Op>,
    tally: bool,
}

fn main() {
    let wanted = wanted(std::env::args().skip(1));
    let words: Vec<&str> = wanted.words.iter().map(String::as_str).collect();
    let mut sink = Sink::new();
    match words[..] {
        ["sweep"] => sweep_all(&wanted.ops, sweep::SEED, &mut sink),
        ["sweep", seed] => sweep_all(&wanted.ops, number(seed), &mut sink),
        ["sample"] => wanted
            .ops
            .iter()
            .for_each(|&op| sample::sample(op, &mut sink)),
        ["mixed", seed, count] => {
            mixed::mixed(&wanted.ops, number(seed), number(count), &mut sink);
        }
        ["selfcheck"] => exit(if selfcheck::selfcheck() { 0 } else { 1 }),
        _ => bad_usage("a mode is wanted: sweep, mixed SEED COUNT, sample or selfcheck"),
    }
    sink.finish();
    if wanted.tally {
        sink.print_tally();
    }
}

fn sweep_all(ops: &[Op], seed: u64, sink: &mut Sink) {
    for &op in ops {
        sweep::sweep(op, seed, sink);
    }
}

fn wanted(mut arguments: impl Iterator<Item = String>) -> Wanted {
    let mut wanted = Wanted {
        words: vec![],
        ops: ops(),
        tally: false,
    };
    while let Some(argument) = arguments.next() {
        match argument.as_str() {
            "-h" | "--help" => {
                println!("{USAGE}");
                exit(0)
            }
            "--tally" => wanted.tally = true,
            "--ops" => wanted.ops = listed(&arguments.next().unwrap_or_default()),
            _ => wanted.words.push(argument),
        }
    }
    wanted
}

/// The ops of a list of numbers, as `0,1,2`.
fn listed(list: &str) -> Vec<Op> {
    let op = |text: &str| {
        let number = text.trim().parse::<u8>().ok();
        let found = ops().into_iter().find(|op| Some(op.number()) == number);
        let why = "--ops wants numbers of calls, 0 to 14, 23 and 27 to 29, as 0,1,2";
        found.unwrap_or_else(|| bad_usage(why))
    };
    list.split(',').map(op).collect()
}

fn number(text: &str) -> u64 {
    text.parse()
        .unwrap_or_else(|_| bad_usage("SEED and COUNT are whole numbers below 2^64"))
}

fn bad_usage(why: &str) -> ! {
    eprintln!("oracle: {why}\n\n{USAGE}");
    exit(2)
}
