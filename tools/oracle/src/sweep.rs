//! The mode `sweep`: every call at every size and every width, with the kinds of values that
//! matter; every fault alone, and every set of two or more reasons at once.
//!
//! Each call draws from a seed of its own, which comes from the sweep's seed, so its cases are the
//! same whichever other calls are asked for; and those of a plain call are those of the main one.

use crate::call::{BLOCK, Call, Op, Role};
use crate::questions::{CUT, PLAIN, Shape, accepted, budgets, faults, for_a_budget, near};
use crate::questions::{places_in_two, put, reasons, with_budget};
use crate::random::Random;
use crate::sink::Sink;
use crate::stream::{A, B, Question};
use crate::values::{ENDS, KINDS, Kind};
use crate::words;

/// The seed of a sweep that names none.
pub const SEED: u64 = 1000;

pub fn sweep(op: Op, seed: u64, sink: &mut Sink) {
    let call = sink.set(op);
    let mut random = Random::new(seed.wrapping_add(u64::from(call.number())));
    for &t in call.sizes() {
        for width in call.widths(t) {
            every_width(call, t, width, &mut random, sink);
        }
        every_fault(call, t, &mut random, sink);
        every_set_of_reasons(call, t, &mut random, sink);
    }
}

/// The accepted cases at one width.
fn every_width(call: Call, t: u32, width: u64, random: &mut Random, sink: &mut Sink) {
    match call {
        Call::Single => places(t, width, random, sink),
        Call::List => lists(t, width, random, sink),
        // The values are those of list access, so there is no need for every kind of them.
        Call::Budget => return lists_within_budgets(t, width, random, sink),
        Call::Decode => dictionaries(t, random, sink),
        Call::TransposeBits | Call::UntransposeBits => each_bit(call, t, random, sink),
        _ => {}
    }
    for (i, kind) in kinds(call, t, width).into_iter().enumerate() {
        let end = ENDS[(i + width as usize) % ENDS.len()];
        let shape = Shape { kind, end, ..PLAIN };
        sink.put(&accepted(call, t, width, shape, random));
    }
}

/// The kinds of values at a width: all of them at the edge widths and where there is no width;
/// elsewhere random ones, two kinds in turn and, where values are packed, those at the width's own
/// edges.
fn kinds(call: Call, t: u32, width: u64) -> Vec<Kind> {
    if is_edge(t, width) || !call.takes_width() {
        return KINDS.to_vec();
    }
    let turn = |i: u64| KINDS[((2 * width + i) % KINDS.len() as u64) as usize];
    let mut kinds = vec![Kind::Full, turn(0), turn(1)];
    if call.roles()[A] == Role::Block {
        kinds.extend([Kind::WidthTop, Kind::WidthOver]);
    }
    kinds
}

fn is_edge(t: u32, width: u64) -> bool {
    let t = u64::from(t);
    [0, 1, t - 1, t].contains(&width)
}

/// Single access at the first place and the last, which is in the last row; at two others, and at
/// the first and last row that stands in two words, where there is one. At width 0 also at indices
/// that are no places, which the crate takes there and R38 refuses.
fn places(t: u32, width: u64, random: &mut Random, sink: &mut Sink) {
    let mut indices = vec![0, 1023, random.below(1024), random.below(1024)];
    indices.extend(places_in_two(t, width, random));
    if width == 0 {
        indices.extend([1024, 1 << 32, u64::MAX]);
    }
    for index in indices {
        let mut q = accepted(Call::Single, t, width, PLAIN, random);
        q.index = index;
        sink.put(&q);
    }
}

/// List access with no index, one, all 1,024 places in random order and, at width 0 and T, 2,048.
/// Bad indices at width 0, which the crate takes, stand here too; so do those in a long list.
fn lists(t: u32, width: u64, random: &mut Random, sink: &mut Sink) {
    let mut lengths = vec![0, 1, BLOCK];
    if width == 0 || width == t.into() {
        lengths.push(2 * BLOCK);
    }
    for list in lengths {
        let shape = Shape { list, ..PLAIN };
        let mut q = accepted(Call::List, t, width, shape, random);
        if list == BLOCK {
            q.buffers[B] = (0..BLOCK as u64).collect();
            random.shuffle(&mut q.buffers[B]);
        }
        sink.put(&q);
        if width == 0 || list > BLOCK {
            put_each_fault(6, &q, random, sink);
        }
    }
}

/// List access under a budget: at each width one less than what some lookups cost, just that, and
/// one more, which is one word short of the next lookup where that one stands in two. At the edge
/// widths every budget that matters, with a list of no index and one of all places too.
fn lists_within_budgets(t: u32, width: u64, random: &mut Random, sink: &mut Sink) {
    let q = for_a_budget(t, width, random);
    if !is_edge(t, width) {
        put_with_budgets(&q, near(words::sums(&q)[CUT]), sink);
        return;
    }
    put_with_budgets(&q, budgets(&q, CUT), sink);
    unaffordable_and_bad(&q, random, sink);
    for list in [0, BLOCK] {
        let shape = Shape { list, ..PLAIN };
        let mut q = accepted(Call::Budget, t, width, shape, random);
        if list == BLOCK {
            q.buffers[B] = (0..BLOCK as u64).collect();
            random.shuffle(&mut q.buffers[B]);
        }
        put_with_budgets(&q, budgets(&q, list / 3), sink);
    }
}

/// The question once with each of these budgets.
fn put_with_budgets(q: &Question, budgets: Vec<u64>, sink: &mut Sink) {
    for budget in budgets {
        sink.put(&with_budget(q, budget));
    }
}

/// Bad indices in a list of which nothing or the front part up to `CUT` can be afforded, most of
/// them past that part. The entire list is looked at all the same.
fn unaffordable_and_bad(q: &Question, random: &mut Random, sink: &mut Sink) {
    for budget in [0, words::sums(q)[CUT]] {
        put_each_fault(6, &with_budget(q, budget), random, sink);
    }
}

/// Decode with dictionaries of one value up to above 1,024, each used to its last value.
fn dictionaries(t: u32, random: &mut Random, sink: &mut Sink) {
    for dictionary in [1, 2, 3, 255, 256, 257, 1023, 1024, 1025, 2048, 4096] {
        let shape = Shape {
            dictionary,
            ..PLAIN
        };
        let mut q = accepted(Call::Decode, t, 0, shape, random);
        q.buffers[B][random.between(0, BLOCK - 1)] = dictionary as u64 - 1;
        sink.put(&q);
    }
}

/// Each of the 1,024 bits alone. The transposes only move bits, so this is all of them.
fn each_bit(call: Call, t: u32, random: &mut Random, sink: &mut Sink) {
    for bit in 0..1024 {
        let mut q = accepted(call, t, 0, PLAIN, random);
        q.buffers[A].fill(0);
        q.buffers[A][bit / 64] = 1 << (bit % 64);
        sink.put(&q);
    }
}

/// An accepted question for a fault, at a middle width or at an edge.
fn to_spoil(call: Call, t: u32, edge: bool, random: &mut Random) -> Question {
    let t_wide = u64::from(t);
    let width = match (call.takes_width(), edge) {
        (false, _) => 0,
        (true, true) => random.pick(&[0, 1, t_wide - 1, t_wide]),
        (true, false) => 2 + random.below(t_wide - 3),
    };
    let shape = Shape {
        kind: random.pick(&KINDS),
        end: random.pick(&ENDS),
        list: 9,
        ..PLAIN
    };
    accepted(call, t, width, shape, random)
}

/// Each fault alone.
fn every_fault(call: Call, t: u32, random: &mut Random, sink: &mut Sink) {
    for number in reasons(call) {
        for edge in [false, true] {
            let q = to_spoil(call, t, edge, random);
            put_each_fault(number, &q, random, sink);
        }
    }
}

/// The question once with each fault for that number.
fn put_each_fault(number: u8, q: &Question, random: &mut Random, sink: &mut Sink) {
    for fault in faults(number, q) {
        let mut spoilt = q.clone();
        put(&fault, &mut spoilt, random);
        sink.put(&spoilt);
    }
}

/// Each set of two or more reasons at once, with a random fault for each of them.
fn every_set_of_reasons(call: Call, t: u32, random: &mut Random, sink: &mut Sink) {
    let numbers = reasons(call);
    for set in 0u32..1 << numbers.len() {
        if set.count_ones() < 2 {
            continue;
        }
        let q = to_spoil(call, t, false, random);
        let mut spoilt = q.clone();
        for (i, &number) in numbers.iter().enumerate() {
            if set >> i & 1 == 1 {
                let choices = faults(number, &q);
                let choice = random.between(0, choices.len() - 1);
                put(&choices[choice], &mut spoilt, random);
            }
        }
        sink.put(&spoilt);
    }
}
