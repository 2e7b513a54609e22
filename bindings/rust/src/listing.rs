//! What two column files differ in, as lines of text (R118 to R121). A proved machine says what is to be read of the files and what is to
//! be written, one wish after another; here the wishes are granted, with no more of a file in memory than its contents and one body.
use crate::sys;
use std::io::{Error, ErrorKind, Read, Result, Seek, SeekFrom, Write};

const FRONT_ROOM: usize = 8196;
const BODY_ROOM: usize = 10240;
const OUTPUT_ROOM: usize = 65536;

const DONE: usize = 0;
const READ: usize = 1;

/// What is wished for: what, of which file, into which of its buffers, from where on, and how many bytes.
#[derive(Default)]
struct Wish {
    what: usize,
    side: usize,
    part: usize,
    start: usize,
    length: usize,
}

/// A file with its two buffers, for its front and for a body, and how many bytes each holds.
struct Source<'a, F> {
    file: &'a mut F,
    room: [Vec<u8>; 2],
    held: [usize; 2],
}

impl<'a, F: Read + Seek> Source<'a, F> {
    fn new(file: &'a mut F) -> Self {
        Source {
            file,
            room: [vec![0; FRONT_ROOM], vec![0; BODY_ROOM]],
            held: [0, 0],
        }
    }

    fn size(&mut self) -> Result<usize> {
        let size = self.file.seek(SeekFrom::End(0))?;
        usize::try_from(size).map_err(|_| Error::new(ErrorKind::InvalidInput, "a file of 2^64 bytes or more"))
    }

    /// Fills a buffer with a part of the file: all of it, or as much as the file has there.
    fn fill(&mut self, wish: &Wish) -> Result<()> {
        let room = &mut self.room[wish.part][..wish.length];
        self.file.seek(SeekFrom::Start(wish.start as u64))?;
        let mut held = 0;
        while held < room.len() {
            match self.file.read(&mut room[held..]) {
                Ok(0) => break,
                Ok(n) => held += n,
                Err(e) if e.kind() == ErrorKind::Interrupted => {}
                Err(e) => return Err(e),
            }
        }
        self.held[wish.part] = held;
        Ok(())
    }

    fn front(&self) -> &[u8] {
        &self.room[0][..self.held[0]]
    }

    fn body(&self) -> &[u8] {
        &self.room[1][..self.held[1]]
    }
}

/// Writes what two column files differ in: a line `ROW LEFT RIGHT` for each row whose numbers differ, rising, then `rows A B` where the row
/// counts differ, then `differences K`. Both files are checked before anything is listed; the first bad one, left before right, gives the only
/// line, `refused left X Y` or `refused right X Y`. A read or a write that fails ends it with that error.
pub fn changes(left: &mut (impl Read + Seek), right: &mut (impl Read + Seek), output: &mut impl Write) -> Result<()> {
    let (mut left, mut right) = (Source::new(left), Source::new(right));
    let (left_size, right_size) = (left.size()?, right.size()?);
    let (mut state, mut room, mut w) = ([0; 8], vec![0; OUTPUT_ROOM], Wish::default());
    // SAFETY: the numbers that are lent are places of their own.
    w.what = unsafe {
        sys::machine::listing_start(
            left_size,
            right_size,
            &mut state,
            &mut w.side,
            &mut w.part,
            &mut w.start,
            &mut w.length,
        )
    };
    while w.what != DONE {
        match (w.what, w.side) {
            (READ, 0) => left.fill(&w)?,
            (READ, _) => right.fill(&w)?,
            _ => output.write_all(&room[..w.length])?,
        }
        w = next(&mut state, &left, &right, &mut room);
    }
    Ok(())
}

/// The next wish of the machine.
fn next<L: Read + Seek, R: Read + Seek>(state: &mut [u64; 8], left: &Source<L>, right: &Source<R>, room: &mut [u8]) -> Wish {
    let mut w = Wish::default();
    let (left_front, right_front, left_body, right_body) = (left.front(), right.front(), left.body(), right.body());
    // SAFETY: each pointer is that of a slice, with its length, and the slices and numbers that are written overlap nothing else.
    w.what = unsafe {
        sys::machine::listing_next(
            state,
            left_front.as_ptr(),
            left_front.len(),
            right_front.as_ptr(),
            right_front.len(),
            left_body.as_ptr(),
            left_body.len(),
            right_body.as_ptr(),
            right_body.len(),
            room.as_mut_ptr(),
            room.len(),
            &mut w.side,
            &mut w.part,
            &mut w.start,
            &mut w.length,
        )
    };
    w
}

/// After so many wishes every list has ended.
pub fn most_wishes() -> usize {
    unsafe { sys::machine::listing_turns() }
}
