//! The mode `mixed`: random cases from a seed, the same seed giving the same bytes. Three in four
//! are accepted; the others have one to three faults.

use crate::call::Op;
use crate::questions::{Shape, accepted, faults, put, reasons};
use crate::random::Random;
use crate::sink::Sink;
use crate::stream::Question;

pub fn mixed(ops: &[Op], seed: u64, count: u64, sink: &mut Sink) {
    let mut random = Random::new(seed);
    for _ in 0..count {
        let mut q = any_accepted(ops, &mut random, sink);
        if random.once_in(4) {
            put_some_faults(&mut q, &mut random);
        }
        sink.put(&q);
    }
}

fn any_accepted(ops: &[Op], random: &mut Random, sink: &mut Sink) -> Question {
    let call = sink.set(random.pick(ops));
    let t = random.pick(call.sizes());
    let greatest = *call.widths(t).end();
    let any = random.below(greatest + 1);
    let width = random.pick(&[
        0,
        1.min(greatest),
        greatest.saturating_sub(1),
        greatest,
        any,
        any,
    ]);
    let shape = Shape::random(random);
    accepted(call, t, width, shape, random)
}

/// Up to three faults. They are put in the order of their numbers: a width brings its own packed
/// length, which a later fault may then change.
fn put_some_faults(q: &mut Question, random: &mut Random) {
    let mut numbers = reasons(q.call);
    random.shuffle(&mut numbers);
    numbers.truncate(random.pick(&[1, 1, 1, 2, 3]));
    numbers.sort();
    let good = q.clone();
    for number in numbers {
        let choices = faults(number, &good);
        if !choices.is_empty() {
            let choice = random.below(choices.len() as u64) as usize;
            put(&choices[choice], q, random);
        }
    }
}
