//! A case of the stream: what is asked, what is expected, and how both are written down.
//!
//! Elements of every size are held as u64 here, so that the making of questions and the rules stand
//! once and not once for each size; only the judge, who asks the crate, narrows them.

use crate::call::{Call, Role};
use std::io::{self, Write};

/// The most elements that a buffer of the stream may have.
pub const LIMIT: usize = 4096;

/// What a call is given.
#[derive(Clone)]
pub struct Question {
    pub call: Call,
    pub t: u32,
    pub width: u64,
    /// Of the frame calls; of list access under a budget, the budget.
    pub reference: u64,
    pub index: u64,
    /// The buffers a, b, c and d as they are at entry.
    pub buffers: [Vec<u64>; 4],
}

/// The places of the buffers among the four.
pub const A: usize = 0;
pub const B: usize = 1;
pub const C: usize = 2;
pub const D: usize = 3;

/// What the call must give back, and what c must hold afterwards.
pub struct Answer {
    pub number: u8,
    pub place: u64,
    pub value: u64,
    /// The packed words that were read; nothing where the call says no count, as when it is
    /// refused.
    pub words: Option<u64>,
    pub c: Vec<u64>,
}

/// What stands in the count's field where there is no count.
const NO_COUNT: u64 = u64::MAX;

/// 2^bits - 1, the greatest number of so many bits.
pub fn top(bits: u32) -> u64 {
    if bits == 0 {
        0
    } else {
        u64::MAX >> (64 - bits)
    }
}

impl Question {
    pub fn lanes(&self) -> usize {
        1024 / self.t as usize
    }

    /// Each buffer that the call has, with its role.
    pub fn roles(&self) -> impl Iterator<Item = (Role, &Vec<u64>)> {
        let present = self.call.roles().into_iter().zip(&self.buffers);
        present.filter(|(role, _)| *role != Role::Absent)
    }

    /// The lengths of the buffers of one role.
    pub fn lengths(&self, wanted: Role) -> impl Iterator<Item = usize> {
        let held = self.roles().filter(move |(role, _)| *role == wanted);
        held.map(|(_, buffer)| buffer.len())
    }

    /// Bits in an element of the buffer with this number.
    pub fn element_bits(&self, buffer: usize) -> u32 {
        self.call.roles()[buffer].element_bits(self.t)
    }

    /// Writes the record under this number and says how many bytes it has.
    pub fn write(&self, number: u8, answer: &Answer, out: &mut impl Write) -> io::Result<u64> {
        let mut record = self.head(number, answer);
        self.elements(A, &self.buffers[A], &mut record);
        self.elements(B, &self.buffers[B], &mut record);
        self.elements(C, &self.buffers[C], &mut record);
        self.elements(C, &answer.c, &mut record);
        // No call writes d, so it is the same at entry and at exit.
        self.elements(D, &self.buffers[D], &mut record);
        self.elements(D, &self.buffers[D], &mut record);
        out.write_all(&record)?;
        Ok(record.len() as u64)
    }

    fn head(&self, number: u8, answer: &Answer) -> Vec<u8> {
        let width = u16::try_from(self.width).expect("a width of the stream is a u16");
        let mut head = vec![number, self.t as u8];
        head.extend(width.to_le_bytes());
        head.extend([answer.number, 0, 0, 0]);
        for field in self.wide_fields(answer) {
            head.extend(field.to_le_bytes());
        }
        for buffer in &self.buffers {
            assert!(
                buffer.len() <= LIMIT,
                "a buffer of the stream has at most {LIMIT} elements"
            );
            head.extend((buffer.len() as u32).to_le_bytes());
        }
        head
    }

    /// Place, value, reference and index. What was read stands where the stream has room for it: a
    /// single access has its value in the one field, so its count stands in the reference; a list
    /// has its values in c, so its sum stands in the value. Under a budget the value says how many
    /// were answered and the reference is the budget, so the sum stands in the index.
    fn wide_fields(&self, answer: &Answer) -> [u64; 4] {
        let (mut value, mut reference, mut index) = (answer.value, self.reference, self.index);
        match self.call {
            Call::Single => reference = answer.words.unwrap_or(NO_COUNT),
            Call::List => value = answer.words.unwrap_or(0),
            Call::Budget => index = answer.words.unwrap_or(0),
            _ => {}
        }
        [answer.place, value, reference, index]
    }

    /// The elements of a buffer, each in the bytes that its role gives it.
    fn elements(&self, buffer: usize, elements: &[u64], out: &mut Vec<u8>) {
        let length = self.buffers[buffer].len();
        assert_eq!(
            elements.len(),
            length,
            "a call keeps the length of its buffers"
        );
        let bits = self.element_bits(buffer);
        for &x in elements {
            assert!(x <= top(bits), "{x} does not fit in {bits} bits");
            out.extend(&x.to_le_bytes()[..bits as usize / 8]);
        }
    }
}
