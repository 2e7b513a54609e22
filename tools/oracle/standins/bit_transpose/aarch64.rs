//! Stand-in for the vector kernels of `bit_transpose` on aarch64, which the source folder lacks.
//!
//! Only the names that the crate's own dispatch mentions. The kernels are not taken and nothing is
//! compared with them: the oracle calls `scalar`, and a call that came here would stop the run.

use crate::FastLanes;

pub unsafe fn transpose_bits_neon<T: FastLanes>(_: &[u64; 16], _: &mut [u64; 16]) {
    unimplemented!("the vector kernels are no part of the judge")
}

pub unsafe fn untranspose_bits_neon(_: &[u64; 16], _: &mut [u64; 16]) {
    unimplemented!("the vector kernels are no part of the judge")
}
