// SPDX-License-Identifier: MIT OR Apache-2.0
//! A small random number generator (splitmix64), so that a seed names the same session everywhere.

use crate::layout::PAGE;

/// Each register range is 800 long.
pub const RANGE: u64 = 0x800;

pub struct Rng(u64);

impl Rng {
    pub fn new(seed: u64) -> Self {
        Self(seed)
    }

    pub fn number(&mut self) -> u64 {
        self.0 = self.0.wrapping_add(0x9E37_79B9_7F4A_7C15);
        let mut mixed = self.0;
        mixed = (mixed ^ (mixed >> 30)).wrapping_mul(0xBF58_476D_1CE4_E5B9);
        mixed = (mixed ^ (mixed >> 27)).wrapping_mul(0x94D0_49BB_1331_11EB);
        mixed ^ (mixed >> 31)
    }

    pub fn below(&mut self, end: u64) -> u64 {
        self.number() % end
    }

    /// A number of a range with both ends.
    pub fn between(&mut self, first: u64, last: u64) -> u64 {
        first + self.below(last - first + 1)
    }

    pub fn byte(&mut self) -> u8 {
        self.number() as u8
    }

    pub fn bytes(&mut self, count: usize) -> Vec<u8> {
        let mut bytes: Vec<u8> = (0..count.div_ceil(8)).flat_map(|_| self.number().to_le_bytes()).collect();
        bytes.truncate(count);
        bytes
    }

    /// True once in that many times.
    pub fn once_in(&mut self, times: u64) -> bool {
        self.below(times) == 0
    }

    pub fn pick<T: Copy>(&mut self, from: &[T]) -> T {
        from[self.below(from.len() as u64) as usize]
    }

    /// An address of a range's first or last byte, a page's first or last byte, or anywhere.
    pub fn address(&mut self, first: u64, last: u64) -> u16 {
        let any = self.between(first, last);
        let at = match self.below(8) {
            0..2 => any / RANGE * RANGE,
            2..4 => any / RANGE * RANGE + RANGE - 1,
            4..6 => any / PAGE * PAGE,
            6 => any / PAGE * PAGE + PAGE - 1,
            _ => any,
        };
        at as u16
    }
}
