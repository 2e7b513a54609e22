//! The calls of the case stream: the number of each, and what each takes in its four buffers.
//!
//! Everything else in this program asks here what a call takes: the rules for what is refused, the
//! making of questions, and the layout of a record. The numbers are those of the stream format and
//! stay for good; 9 was run encode's, which is no call any more (R60).

use Role::*;

/// Elements in a block of values.
pub const BLOCK: usize = 1024;

/// The element sizes, in bits.
pub const SIZES: [u32; 4] = [8, 16, 32, 64];

#[derive(Clone, Copy, PartialEq, Eq, Debug)]
#[repr(u8)]
pub enum Call {
    Pack = 0,
    Unpack = 1,
    Single = 2,
    List = 3,
    Delta = 4,
    Undelta = 5,
    UndeltaPack = 6,
    ForPack = 7,
    UnforPack = 8,
    Decode = 10,
    Transpose = 11,
    Untranspose = 12,
    TransposeBits = 13,
    UntransposeBits = 14,
    /// List access under a budget of words.
    Budget = 23,
}

/// All calls, in the order of their numbers.
pub const CALLS: [Call; 15] = [
    Call::Pack,
    Call::Unpack,
    Call::Single,
    Call::List,
    Call::Delta,
    Call::Undelta,
    Call::UndeltaPack,
    Call::ForPack,
    Call::UnforPack,
    Call::Decode,
    Call::Transpose,
    Call::Untranspose,
    Call::TransposeBits,
    Call::UntransposeBits,
    Call::Budget,
];

/// What a record of the stream asks for: a call of the main engine, or the same call of the plain
/// one (R76), which is asked the same questions and must give the same answers.
#[derive(Clone, Copy, PartialEq, Eq)]
pub struct Op {
    pub call: Call,
    pub plain: bool,
}

/// How many numbers above its own a call's plain one has: 27, 28 and 29 are for 0, 1 and 2.
const PLAIN: u8 = 27;

/// All that a record can ask for, in the order of their numbers.
pub fn ops() -> Vec<Op> {
    let main = CALLS.map(|call| Op { call, plain: false });
    let plain = [Call::Pack, Call::Unpack, Call::Single].map(|call| Op { call, plain: true });
    [&main[..], &plain[..]].concat()
}

impl Op {
    pub fn number(self) -> u8 {
        self.call.number() + if self.plain { PLAIN } else { 0 }
    }

    /// Where it stands among all of them. The numbers have gaps, so it is not the number.
    pub fn position(self) -> usize {
        let found = ops().iter().position(|&op| op == self);
        found.expect("every op stands among all ops")
    }
}

/// What a buffer is to its call.
#[derive(Clone, Copy, PartialEq, Eq, Debug)]
pub enum Role {
    /// The call has no such buffer.
    Absent,
    /// A block of 1,024 elements.
    Block,
    /// A block of 1,024 run numbers, each a u16.
    RunNumbers,
    /// Packed words, LANES for each bit of the width.
    Packed,
    /// A base, one element for each lane.
    Base,
    /// A list of places, each a u64; any length.
    Places,
    /// What list access writes, one element for each place of the list.
    Outputs,
    /// What decode looks up in; any length.
    Dictionary,
    /// A block of 1,024 bits, sixteen u64.
    Bits,
}

impl Role {
    /// Whether a buffer of this role has to have 1,024 elements.
    pub fn is_block(self) -> bool {
        matches!(self, Block | RunNumbers)
    }

    /// Bits in an element of a buffer of this role, in a call at size t.
    pub fn element_bits(self, t: u32) -> u32 {
        match self {
            RunNumbers => 16,
            Places | Bits => 64,
            Absent | Block | Packed | Base | Outputs | Dictionary => t,
        }
    }
}

impl Call {
    pub fn number(self) -> u8 {
        self as u8
    }

    /// The roles of the buffers a, b, c and d. The call reads a and b, and writes c. No call has d.
    pub fn roles(self) -> [Role; 4] {
        match self {
            Call::Pack | Call::ForPack => [Block, Absent, Packed, Absent],
            Call::Unpack | Call::UnforPack => [Packed, Absent, Block, Absent],
            Call::Single => [Packed, Absent, Absent, Absent],
            Call::List | Call::Budget => [Packed, Places, Outputs, Absent],
            Call::Delta | Call::Undelta => [Block, Base, Block, Absent],
            Call::UndeltaPack => [Packed, Base, Block, Absent],
            Call::Decode => [Dictionary, RunNumbers, Block, Absent],
            Call::Transpose | Call::Untranspose => [Block, Absent, Block, Absent],
            Call::TransposeBits | Call::UntransposeBits => [Bits, Absent, Bits, Absent],
        }
    }

    pub fn has(self, role: Role) -> bool {
        self.roles().contains(&role)
    }

    /// A call takes a width exactly when it has a packed buffer.
    pub fn takes_width(self) -> bool {
        self.has(Packed)
    }

    pub fn takes_reference(self) -> bool {
        matches!(self, Call::ForPack | Call::UnforPack)
    }

    /// The element sizes that the call has; the untranspose of bits has one.
    pub fn sizes(self) -> &'static [u32] {
        match self {
            Call::UntransposeBits => &[64],
            _ => &SIZES,
        }
    }

    /// The widths 0 to t, or 0 alone where the call takes none.
    pub fn widths(self, t: u32) -> std::ops::RangeInclusive<u64> {
        0..=if self.takes_width() { t.into() } else { 0 }
    }
}
