//! The calls on column files of `u64` numbers. The first ones take a whole file; a program that holds only the front of a file, its contents, and
//! one body at a time asks the ones that come after them.
use crate::blocks::asked;
use crate::{answer, counted, sys, Refused};

/// The number at a row, and in how many packed words it stands, where there is such a count.
#[derive(Clone, Copy, Debug, PartialEq, Eq)]
pub struct Row {
    pub value: u64,
    pub words: Option<u64>,
}

/// How many rows a search found, and how many blocks it opened for that.
#[derive(Clone, Copy, Debug, PartialEq, Eq)]
pub struct Found {
    pub rows: usize,
    pub opened: usize,
}

/// What the contents say of a block.
#[derive(Clone, Copy, Debug, Default, PartialEq, Eq)]
pub struct Entry {
    pub kind: u8,
    pub width: u8,
    pub zero: u16,
    pub length: u32,
    pub reference: u64,
}

/// The smallest and the largest number of a block.
#[derive(Clone, Copy, Debug, Default, PartialEq, Eq)]
pub struct Range {
    pub smallest: u64,
    pub largest: u64,
}

/// A body of a file: its number, where it begins, and how many bytes its entry says.
#[derive(Clone, Copy, Debug, Default, PartialEq, Eq)]
pub struct Body {
    pub number: usize,
    pub start: usize,
    pub length: u32,
}

/// Checks a column file, whole.
pub fn check(file: &[u8]) -> Result<(), Refused> {
    asked!(columns::file_check(file.as_ptr(), file.len()) gives ())
}

/// Checks a column file, and that its bytes are what our writer would have written.
pub fn check_canonical(file: &[u8]) -> Result<(), Refused> {
    asked!(columns::file_check_canonical(file.as_ptr(), file.len()) gives ())
}

/// Checks a column file, and lays down the 1,024 numbers of one of its blocks.
pub fn block_out(file: &[u8], block: usize, output: &mut [u64]) -> Result<(), Refused> {
    asked!(columns::file_block_out(file.as_ptr(), file.len(), block, output.as_mut_ptr(), output.len()) gives ())
}

/// Checks a column file, and gives the number at one row.
pub fn row_at(file: &[u8], row: usize) -> Result<Row, Refused> {
    let (mut value, mut words) = (0, 0);
    asked!(columns::file_row_at(file.as_ptr(), file.len(), row, &mut value, &mut words) gives Row { value, words: counted(words) })
}

/// Writes a column file of whole blocks of numbers, and gives its length.
pub fn write(values: &[u64], output: &mut [u8]) -> Result<usize, Refused> {
    let mut length = 0;
    asked!(columns::file_write(values.as_ptr(), values.len(), output.as_mut_ptr(), output.len(), &mut length) gives length)
}

/// Writes the rows of any readable column file as our writer would, and gives the length of the new file.
pub fn rewrite(file: &[u8], output: &mut [u8]) -> Result<usize, Refused> {
    let mut length = 0;
    asked!(columns::file_rewrite(file.as_ptr(), file.len(), output.as_mut_ptr(), output.len(), &mut length) gives length)
}

/// Writes a readable column file with other numbers: where a row has the number `olds[i]` it gets `news[i]`, and every other row stays. The old
/// numbers rise, and `order` has the places of the pairs by rising new number. Gives the length of the new file and how many rows changed.
pub fn renumber(file: &[u8], olds: &[u64], news: &[u64], order: &[u64], output: &mut [u8]) -> Result<(usize, usize), Refused> {
    let (mut length, mut changed) = (0, 0);
    asked!(columns::file_renumber(file.as_ptr(), file.len(), olds.as_ptr(), olds.len(), news.as_ptr(), news.len(), order.as_ptr(), order.len(),
        output.as_mut_ptr(), output.len(), &mut length, &mut changed) gives (length, changed))
}

/// Lists the rows whose number lies between two bounds, both included.
pub fn search(file: &[u8], low: u64, high: u64, rows: &mut [u64]) -> Result<Found, Refused> {
    let (mut found, mut opened) = (0, 0);
    asked!(columns::file_search(file.as_ptr(), file.len(), low, high, rows.as_mut_ptr(), rows.len(), &mut found, &mut opened)
        gives Found { rows: found, opened })
}

/// How many bytes of a file are its front, by its first four.
pub fn front_length(head: &[u8]) -> usize {
    // SAFETY: the pointer and the length are those of one slice, here and in what follows.
    unsafe { sys::columns::front_length(head.as_ptr(), head.len()) }
}

/// Checks the contents of a file of so many bytes; the bodies are not looked at.
pub fn front_check(front: &[u8], size: usize) -> Result<(), Refused> {
    asked!(columns::front_check(front.as_ptr(), front.len(), size) gives ())
}

/// The edition of a file, by its front; 0 where that is too short.
pub fn edition(front: &[u8]) -> usize {
    unsafe { sys::columns::front_edition(front.as_ptr(), front.len()) }
}

/// How many blocks a file has, by its front; 0 where that is too short.
pub fn count(front: &[u8]) -> usize {
    unsafe { sys::columns::front_count(front.as_ptr(), front.len()) }
}

/// How many rows a file has, by its front.
pub fn row_count(front: &[u8]) -> u64 {
    unsafe { sys::columns::front_row_count(front.as_ptr(), front.len()) }
}

/// Where the first body of a file begins, by its front.
pub fn contents_length(front: &[u8]) -> usize {
    unsafe { sys::columns::front_contents_length(front.as_ptr(), front.len()) }
}

/// What the contents say of a block.
pub fn entry(front: &[u8], block: usize) -> Entry {
    let mut e = Entry::default();
    unsafe {
        sys::columns::front_entry(
            front.as_ptr(),
            front.len(),
            block,
            &mut e.kind,
            &mut e.width,
            &mut e.zero,
            &mut e.length,
            &mut e.reference,
        )
    };
    e
}

/// The smallest and the largest number that the contents say of a block; 0 and 2^64 - 1 where they say none.
pub fn range(front: &[u8], block: usize) -> Range {
    let mut range = Range::default();
    unsafe { sys::columns::front_range(front.as_ptr(), front.len(), block, &mut range.smallest, &mut range.largest) };
    range
}

/// Whether the fronts of two files say the same of the smallest and the largest number of a block.
pub fn same_range(left: &[u8], right: &[u8], block: usize) -> bool {
    unsafe { sys::columns::front_same_range(left.as_ptr(), left.len(), right.as_ptr(), right.len(), block) }
}

/// How many blocks are in both of two files, by their fronts.
pub fn blocks_in_both(left: &[u8], right: &[u8]) -> u16 {
    unsafe { sys::columns::front_blocks_in_both(left.as_ptr(), left.len(), right.as_ptr(), right.len()) }
}

/// Checks one body against the contents, and lays down its 1,024 numbers.
pub fn body_block_out(front: &[u8], block: usize, body: &[u8], output: &mut [u64]) -> Result<(), Refused> {
    asked!(columns::body_block_out(front.as_ptr(), front.len(), block, body.as_ptr(), body.len(), output.as_mut_ptr(), output.len()) gives ())
}

/// Checks the smallest and the largest of a block's numbers, which were laid down, against what the contents say.
pub fn body_check_range(front: &[u8], block: usize, values: &[u64]) -> Result<(), Refused> {
    asked!(columns::body_check_range(front.as_ptr(), front.len(), block, values.as_ptr(), values.len()) gives ())
}

/// The first body of a file, by its front. Its length is 0 where the front has no such entry, as that of a file of no blocks has none.
pub fn first_body(front: &[u8]) -> Body {
    let mut body = Body::default();
    unsafe { sys::columns::body_first(front.as_ptr(), front.len(), &mut body.number, &mut body.start, &mut body.length) };
    body
}

/// The body behind a body of a file, by its front. Where the contents are right, the number behind the last body is the count of blocks, and it begins
/// where the file ends; its length is 0, since the front has no such entry, unless more than the front is lent: then it says nothing.
pub fn next_body(front: &[u8], mut body: Body) -> Body {
    unsafe { sys::columns::body_next(front.as_ptr(), front.len(), &mut body.number, &mut body.start, &mut body.length) };
    body
}

/// The number at one row of a column file, out of a body of it. The file is not checked: of one that was, and of a body that `first_body` and
/// `next_body` gave, this is what `row_at` gives. A body that does not all stand in the file is refused with 8, one whose entry is not right with 10,
/// a row of another block with 12, and a run index out of range with 13.
pub fn row_from(file: &[u8], body: Body, row: usize) -> Result<Row, Refused> {
    let (mut value, mut words) = (0, 0);
    asked!(columns::file_row_from(file.as_ptr(), file.len(), body.number, body.start, row, &mut value, &mut words)
        gives Row { value, words: counted(words) })
}

/// Whether a search between two bounds opens a block, by the front of the file: the bodies of the other blocks need not be read.
pub fn search_opens(front: &[u8], block: usize, low: u64, high: u64) -> bool {
    unsafe { sys::columns::search_opens(front.as_ptr(), front.len(), block, low, high) }
}

/// Lists the rows of a block, whose 1,024 numbers were laid down, that lie between two bounds, both included. Values that are not 1,024 long are
/// refused with 2, block 256 or a higher one, which no file has, with 12, and room that is too short with 14.
pub fn search_rows(values: &[u64], block: usize, low: u64, high: u64, rows: &mut [u64]) -> Result<Found, Refused> {
    let (mut found, mut opened) = (0, 0);
    asked!(columns::search_rows(
        values.as_ptr(), values.len(), block, low, high, rows.as_mut_ptr(), rows.len(), &mut found, &mut opened
    ) gives Found { rows: found, opened })
}

/// Lists the places at which two blocks of 1,024 numbers differ, rising, and gives how many they are.
pub fn differing(left: &[u64], right: &[u64], places: &mut [u16]) -> Result<usize, Refused> {
    let mut count = 0;
    asked!(columns::block_differing(left.as_ptr(), left.len(), right.as_ptr(), right.len(), places.as_mut_ptr(), places.len(), &mut count)
        gives count)
}
