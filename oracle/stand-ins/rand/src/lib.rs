// SPDX-License-Identifier: MIT OR Apache-2.0
//! Stands in for `rand`. Random power-on RAM is left out of the port, so nothing here is ever run.

pub trait Rng {
    fn fill_bytes(&mut self, bytes: &mut [u8]);
}

pub struct NoRng;

impl Rng for NoRng {
    fn fill_bytes(&mut self, _bytes: &mut [u8]) {
        unreachable!("random RAM is left out");
    }
}

pub fn rng() -> NoRng {
    NoRng
}
