//! The mode `sample`: a stream of less than 1 MB that is kept in the repository, so that its own
//! tests need neither Rust nor the crate.
//!
//! Every call at every size; the widths 0, 1, T - 1, T and T + 1 (refused); each refusal alone and
//! all of a call's reasons at once; the lists and dictionaries at their edges. What is large
//! stands at the small sizes: a case of u64 blocks has up to 24 kB, one of u8 blocks 3 kB.

use crate::call::{BLOCK, Call, Op, Role};
use crate::questions::{CUT, Fault, PLAIN, Shape, accepted, budgets, faults, for_a_budget};
use crate::questions::{places_in_two, put, reasons, with_budget};
use crate::random::Random;
use crate::sink::Sink;
use crate::stream::{B, C, Question};
use crate::values::{ENDS, Kind};
use crate::words;

pub fn sample(op: Op, sink: &mut Sink) {
    let call = sink.set(op);
    let mut random = Random::new(2000 + u64::from(call.number()));
    if op.plain {
        plain(call, &mut random, sink);
        return;
    }
    for &t in call.sizes() {
        edge_widths(call, t, &mut random, sink);
        edges(call, t, &mut random, sink);
        if is_small(call, t) {
            refusals(call, t, &mut random, sink);
        }
        if t > 8 && !reasons(call).is_empty() {
            nothing_lent(call, t, &mut random, sink);
        }
    }
}

/// Of a plain call, those questions of the main one for which there is room: the edge widths at 8
/// bits and no buffer at all, and of single access what else it is asked there. The sweep has all.
fn plain(call: Call, random: &mut Random, sink: &mut Sink) {
    edge_widths(call, 8, random, sink);
    nothing_lent(call, 8, random, sink);
    if call == Call::Single {
        edges(call, 8, random, sink);
        refusals(call, 8, random, sink);
    }
}

/// The accepted cases at the widths of the sample.
fn edge_widths(call: Call, t: u32, random: &mut Random, sink: &mut Sink) {
    for width in widths(call, t) {
        let end = ENDS[width as usize % ENDS.len()];
        let shape = Shape { end, ..PLAIN };
        sink.put(&accepted(call, t, width, shape, random));
    }
}

/// Whether a case of that call and size is small enough for the sample to have many.
fn is_small(call: Call, t: u32) -> bool {
    t == 8 || matches!(call, Call::Single | Call::List | Call::Budget)
}

/// The edge widths: all four where a case is small. Where it is large, two or one of them, others
/// for the next call and the next size.
fn widths(call: Call, t: u32) -> Vec<u64> {
    let low = [0, 1];
    let high = [u64::from(t) - 1, u64::from(t)];
    let turn = (usize::from(call.number()) + t as usize / 64) % 2;
    match (call, t) {
        _ if !call.takes_width() => vec![0],
        // A list under a budget has more widths among its edges.
        (Call::Budget, 8 | 16) => vec![0, 1, high[1]],
        (Call::Budget, _) => low.to_vec(),
        _ if is_small(call, t) => [low, high].concat(),
        (Call::Pack | Call::Unpack, 16) => [low, high].concat(),
        (Call::Pack | Call::Unpack, _) | (_, 16) => vec![low[turn], high[1 - turn]],
        (_, 32) => vec![high[turn]],
        _ => vec![low[turn]],
    }
}

/// The edges of each call that are not a width.
fn edges(call: Call, t: u32, random: &mut Random, sink: &mut Sink) {
    match (call, t) {
        (Call::Pack, 8) => {
            for kind in [Kind::WidthTop, Kind::WidthOver, Kind::Zeros, Kind::Ones] {
                sink.put(&accepted(call, t, 3, Shape { kind, ..PLAIN }, random));
            }
        }
        (Call::Single, _) => places(t, random, sink),
        (Call::List, _) => lists(t, random, sink),
        (Call::Budget, _) => lists_within_budgets(t, random, sink),
        (Call::Decode, 8) => {
            for dictionary in [1, BLOCK + 1] {
                let shape = Shape {
                    dictionary,
                    ..PLAIN
                };
                sink.put(&accepted(call, t, 0, shape, random));
            }
        }
        _ => {}
    }
}

/// Index 1023, at two widths the last row that stands in two words, and at width 0 indices that are
/// no places, which are refused there too.
fn places(t: u32, random: &mut Random, sink: &mut Sink) {
    let mut asked = vec![(3, 1023), (3, 256), (0, 1024), (0, u64::MAX)];
    for width in [3, u64::from(t) - 1] {
        let in_two = places_in_two(t, width, random);
        asked.extend(in_two.last().map(|&index| (width, index)));
    }
    for (width, index) in asked {
        let mut q = accepted(Call::Single, t, width, PLAIN, random);
        q.index = index;
        sink.put(&q);
    }
}

/// No index, one, some, and at width 0 indices that are no places, which are refused there too.
fn lists(t: u32, random: &mut Random, sink: &mut Sink) {
    for list in [0, 1, 50] {
        sink.put(&accepted(Call::List, t, 3, Shape { list, ..PLAIN }, random));
    }
    let mut q = accepted(Call::List, t, 0, PLAIN, random);
    q.buffers[B] = vec![1024, u64::MAX, 0, 1 << 32, 1023];
    sink.put(&q);
}

/// At width 3, where some rows stand in two words, every budget that matters, and no budget at all
/// for a list whose last index is bad. At width 0 all is answered for nothing. One case is wide.
fn lists_within_budgets(t: u32, random: &mut Random, sink: &mut Sink) {
    let q = for_a_budget(t, 3, random);
    for budget in budgets(&q, CUT) {
        sink.put(&with_budget(&q, budget));
    }
    let mut bad = with_budget(&q, 0);
    bad.buffers[B][11] = 1024;
    sink.put(&bad);
    sink.put(&with_budget(&for_a_budget(t, 0, random), 0));
    let none = Shape { list: 0, ..PLAIN };
    sink.put(&accepted(Call::Budget, t, 3, none, random));
    let wide = for_a_budget(t, u64::from(t) - 1, random);
    sink.put(&with_budget(&wide, words::sums(&wide)[CUT] + 1));
}

/// Each reason alone, with some of its faults; then the highest two at once, the highest three, and
/// so on, so that each number is seen to come before those above it.
fn refusals(call: Call, t: u32, random: &mut Random, sink: &mut Sink) {
    let width = if call.takes_width() { 1 } else { 0 };
    let q = accepted(call, t, width, PLAIN, random);
    let mut several = q.clone();
    for (i, number) in reasons(call).into_iter().rev().enumerate() {
        let some = some_faults(number, &q);
        for fault in &some {
            let mut spoilt = q.clone();
            put(fault, &mut spoilt, random);
            sink.put(&spoilt);
        }
        put(&some[some.len() - 1], &mut several, random);
        if i > 0 {
            sink.put(&several);
        }
    }
}

/// All buffers empty, at width 0 and, where the call takes a width, at T + 1.
fn nothing_lent(call: Call, t: u32, random: &mut Random, sink: &mut Sink) {
    let mut q = accepted(call, t, 0, PLAIN, random);
    q.buffers = Default::default();
    sink.put(&q);
    if call.takes_width() {
        q.width = u64::from(t) + 1;
        sink.put(&q);
    }
}

/// Of the faults for a number, those that the sample has room for. A width has the right low byte,
/// or is 9 at 8 bits; packed words are one short and one long, other buffers one of the two; not
/// all entries of a list are bad.
fn some_faults(number: u8, q: &Question) -> Vec<Fault> {
    let wanted = |fault: &Fault| match *fault {
        Fault::Width(width) => width == 256 + q.width || q.t == 8 && width == 9,
        Fault::Length(buffer, length) => {
            let right = q.buffers[buffer].len();
            let (short, long) = (length + 1 == right, length == right + 1);
            match q.call.roles()[buffer] {
                Role::Packed => short || long,
                Role::Dictionary => true,
                _ if buffer < C => short,
                _ => long,
            }
        }
        Fault::Entries(ref entries) => entries.len() < q.buffers[B].len(),
        Fault::Index(_) => true,
    };
    let mut some = faults(number, q);
    some.retain(|fault| wanted(fault));
    some
}
