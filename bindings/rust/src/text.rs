//! Numbers in decimal, and what is said of a block to a person.
use crate::sys;

/// Why a text is read as no number.
#[derive(Clone, Copy, Debug, PartialEq, Eq)]
pub enum NoNumber {
    /// There are no bytes.
    Empty,
    /// A byte is no digit; the lowest such place.
    Other(usize),
    /// The number is 2^64 or more.
    Large,
}

/// Reads a text of decimal digits as a number. Zeros at the front are taken.
pub fn parse(text: &[u8]) -> Result<u64, NoNumber> {
    let (mut value, mut place) = (0, 0);
    // SAFETY: the pointer and the length are those of one slice, here and in what follows.
    match unsafe { sys::text::decimal_parse(text.as_ptr(), text.len(), &mut value, &mut place) } {
        0 => Ok(value),
        1 => Err(NoNumber::Empty),
        2 => Err(NoNumber::Other(place)),
        _ => Err(NoNumber::Large),
    }
}

/// Lays the decimal digits of a number at the front of the output, and gives how many bytes they are, from 1 to 20; 0, and nothing is
/// laid, where they do not fit.
pub fn lay(value: u64, output: &mut [u8]) -> usize {
    unsafe { sys::text::decimal_lay(value, output.as_mut_ptr(), output.len()) }
}

/// What is said of a block: what its entry says, and its smallest and its largest number.
#[derive(Clone, Copy, Debug, Default, PartialEq, Eq)]
pub struct Summary {
    pub kind: u8,
    pub width: u8,
    pub length: u32,
    pub reference: u64,
    pub smallest: u64,
    pub largest: u64,
}

/// The summary of a block, whose numbers were laid down, by the front of the file.
pub fn summary(front: &[u8], block: usize, values: &[u64]) -> Summary {
    let mut s = Summary::default();
    unsafe {
        sys::text::summary_of_block(
            front.as_ptr(),
            front.len(),
            block,
            values.as_ptr(),
            values.len(),
            &mut s.kind,
            &mut s.width,
            &mut s.length,
            &mut s.reference,
            &mut s.smallest,
            &mut s.largest,
        )
    };
    s
}

/// How many thousandths of a byte a row takes, where so many rows take so many bytes, rounded down; 0 for no rows.
pub fn thousandths(bytes: u32, rows: u32) -> u64 {
    unsafe { sys::text::summary_thousandths(bytes, rows) }
}

/// How many marks the bar of a width has: one for each four bits that are begun.
pub fn marks(width: u8) -> usize {
    unsafe { sys::text::summary_marks(width) }
}

/// The place of a block at which a row stands: 0 where it stands in a block before it, and 1,024 where it stands in one behind it.
pub fn place_in(row: u64, block: usize) -> usize {
    unsafe { sys::text::summary_place_in(row, block) }
}
