//! Where questions go: each is answered, by the rules or else by the crate, and the case is written
//! to standard output. A tally is kept of what was written.

use crate::call::{Call, Op, ops};
use crate::judge;
use crate::rules;
use crate::stream::Question;
use std::io::{self, BufWriter, Stdout, Write};

pub struct Sink {
    out: BufWriter<Stdout>,
    bytes: u64,
    /// For each op, how many cases were given each of the numbers 0 to 7.
    tally: Vec<[u64; 8]>,
    /// Whether the questions go to the plain engine, and are written under its numbers.
    plain: bool,
}

impl Sink {
    pub fn new() -> Self {
        Sink {
            out: BufWriter::new(io::stdout()),
            bytes: 0,
            tally: vec![[0; 8]; ops().len()],
            plain: false,
        }
    }

    /// The questions that follow are for this op's engine. Gives the call that they are to ask.
    pub fn set(&mut self, op: Op) -> Call {
        self.plain = op.plain;
        op.call
    }

    /// Answers the question and writes the case.
    pub fn put(&mut self, q: &Question) {
        let answer = rules::refusal(q).unwrap_or_else(|| judge::answer(q));
        let op = Op {
            call: q.call,
            plain: self.plain,
        };
        self.tally[op.position()][answer.number as usize] += 1;
        match q.write(op.number(), &answer, &mut self.out) {
            Ok(bytes) => self.bytes += bytes,
            Err(error) => stop(&error),
        }
    }

    /// Writes what is still held back.
    pub fn finish(&mut self) {
        if let Err(error) = self.out.flush() {
            stop(&error);
        }
    }

    /// What was written, for each op and at the end in all, on standard error.
    pub fn print_tally(&self) {
        for (op, counts) in ops().into_iter().zip(&self.tally) {
            self.print_line(op, counts);
        }
        let cases: u64 = self.tally.iter().flatten().sum();
        eprintln!("cases {cases} bytes {}", self.bytes);
    }

    fn print_line(&self, op: Op, counts: &[u64; 8]) {
        if counts.iter().sum::<u64>() == 0 {
            return;
        }
        let refused: Vec<String> = (1..8)
            .filter(|&number| counts[number] > 0)
            .map(|number| format!(", refused with {number}: {}", counts[number]))
            .collect();
        eprintln!(
            "op {} {}{:?}: answered {}{}",
            op.number(),
            if op.plain { "plain " } else { "" },
            op.call,
            counts[0],
            refused.concat()
        );
    }
}

/// A stream that cannot be written, as when its reader has stopped reading, is of no use to anyone.
fn stop(error: &io::Error) -> ! {
    eprintln!("oracle: the stream cannot be written: {error}");
    std::process::exit(1)
}
