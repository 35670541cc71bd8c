// SPDX-License-Identifier: MIT OR Apache-2.0
//! Bytes that are lent to the archive, with guard bytes before and behind them.

use std::ffi::c_void;

#[derive(Default)]
pub struct Lent {
    block: Vec<u8>,
    first: usize,
    len: usize,
}

impl Lent {
    /// The bytes lie `before` bytes into a block of their own, which ends `behind` bytes after them.
    pub fn new(bytes: &[u8], before: usize, behind: usize) -> Self {
        let mut block = Vec::with_capacity(before + bytes.len() + behind);
        block.extend((0..before).map(guard));
        block.extend(bytes);
        let end = block.len();
        block.extend((end..end + behind).map(guard));
        Self { block, first: before, len: bytes.len() }
    }

    pub fn bytes(&self) -> &[u8] {
        &self.block[self.first..self.first + self.len]
    }

    /// Overwrites what is lent by as many bytes.
    pub fn set(&mut self, bytes: &[u8]) {
        self.block[self.first..self.first + self.len].copy_from_slice(bytes);
    }

    /// Pointer and length for C. The pointer is not null, also where no bytes are lent.
    pub fn lend(&mut self) -> (*mut c_void, usize) {
        (self.block[self.first..].as_mut_ptr().cast(), self.len)
    }

    pub fn guards_hold(&self) -> bool {
        let holds = |place: usize| self.block[place] == guard(place);
        (0..self.first).all(holds) && (self.first + self.len..self.block.len()).all(holds)
    }
}

/// Neighbours differ, so that moved bytes show.
fn guard(place: usize) -> u8 {
    (place as u8).wrapping_mul(73) ^ 0xA5
}
