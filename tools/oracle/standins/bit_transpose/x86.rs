//! Stand-in for the vector kernels of `bit_transpose` on x86-64, which the source folder lacks.
//!
//! Only the names that the crate's own dispatch mentions. The kernels are not taken and nothing is
//! compared with them: the oracle calls `scalar`, and a call that came here would stop the run.

use crate::FastLanes;

pub unsafe fn transpose_bits_vbmi<T: FastLanes>(_: &[u64; 16], _: &mut [u64; 16]) {
    unimplemented!("the vector kernels are no part of the judge")
}

pub unsafe fn untranspose_bits_vbmi(_: &[u64; 16], _: &mut [u64; 16]) {
    unimplemented!("the vector kernels are no part of the judge")
}

pub unsafe fn transpose_bits_bmi2<T: FastLanes>(_: &[u64; 16], _: &mut [u64; 16]) {
    unimplemented!("the vector kernels are no part of the judge")
}

pub unsafe fn untranspose_bits_bmi2(_: &[u64; 16], _: &mut [u64; 16]) {
    unimplemented!("the vector kernels are no part of the judge")
}
