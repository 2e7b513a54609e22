//! A packed `u64` body that comes in chunks.
use crate::blocks::asked;
use crate::{answer, sys, Refused};

/// A body on its way: its width, how many bytes of it are held, and room for the longest body.
#[derive(Clone, Debug)]
pub struct Body {
    width: usize,
    held: usize,
    room: Box<[u8; 8192]>,
}

impl Body {
    /// Begins a body of a width, with nothing held; refused where the width is above 64.
    pub fn start(width: usize) -> Result<Self, Refused> {
        let mut body = Body {
            width: 0,
            held: 0,
            room: Box::new([0; 8192]),
        };
        asked!(chunks::trickle_start(width, &mut body.width, &mut body.held, &mut body.room) gives body)
    }

    /// Takes the chunk, or what the body still lacks, whichever is shorter, and gives how many bytes that was.
    pub fn feed(&mut self, chunk: &[u8]) -> usize {
        // SAFETY: the pointer and the length are those of one slice, and the parts of the body do not overlap.
        unsafe { sys::chunks::trickle_feed(&mut self.width, &mut self.held, &mut self.room, chunk.as_ptr(), chunk.len()) }
    }

    /// Lays down the 1,024 values when the bytes of the body are all there.
    pub fn ask(&self, output: &mut [u64]) -> Result<(), Refused> {
        asked!(chunks::trickle_ask(self.width, self.held, &self.room, output.as_mut_ptr(), output.len()) gives ())
    }

    /// How many bytes are held.
    pub fn held(&self) -> usize {
        self.held
    }
}
