// SPDX-License-Identifier: MIT OR Apache-2.0
//! A directory that is lent to the archive, with guard words before and behind it.

#[derive(Default)]
pub struct Places {
    block: Vec<u64>,
    first: usize,
    len: usize,
}

impl Places {
    /// The places lie `guard` words into a block of their own, which ends as many words after them.
    pub fn new(places: &[u64], guard: usize) -> Self {
        let mut block = Vec::with_capacity(places.len() + 2 * guard);
        block.extend((0..guard).map(word));
        block.extend(places);
        let end = block.len();
        block.extend((end..end + guard).map(word));
        Self { block, first: guard, len: places.len() }
    }

    pub fn places(&self) -> &[u64] {
        &self.block[self.first..self.first + self.len]
    }

    /// Pointer and number of places for C. The pointer is not null, also where no place is lent.
    pub fn lend(&mut self) -> (*mut u64, usize) {
        (self.block[self.first..].as_mut_ptr(), self.len)
    }

    pub fn guards_hold(&self) -> bool {
        let holds = |place: usize| self.block[place] == word(place);
        (0..self.first).all(holds) && (self.first + self.len..self.block.len()).all(holds)
    }
}

/// Neighbours differ, so that moved words show.
fn word(place: usize) -> u64 {
    (place as u64).wrapping_mul(0x9E37_79B9_7F4A_7C15) ^ 0xA5A5_5A5A_C3C3_3C3C
}
