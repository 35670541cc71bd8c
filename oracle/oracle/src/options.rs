// SPDX-License-Identifier: MIT OR Apache-2.0
//! What a load chooses beside the cartridge's own numbers (L19, S13). The state keeps it, and no call changes it.

/// H9, H11: the bits of an image's byte 307. Its bit 4 is no option (H12).
pub const F800_PROTECTS: u8 = 0x80;
pub const SIGNED_LEVELS: u8 = 0x40;
pub const PLAIN_SUM: u8 = 0x20;

#[derive(Debug, Default, Clone, Copy, PartialEq, Eq)]
pub struct Options {
    /// L19: the new edition.
    pub f800_protects: bool,
    /// S14: the nibble less 8 has its sign; else it wraps (S6).
    pub signed_levels: bool,
    /// S15: `out` is the sum; else the average (S7).
    pub plain_sum: bool,
}

impl Options {
    /// The options of a byte; none where it sets an unused bit.
    pub fn of_byte(byte: u8) -> Option<Self> {
        let set = |bit: u8| byte & bit != 0;
        let options = Self { f800_protects: set(F800_PROTECTS), signed_levels: set(SIGNED_LEVELS), plain_sum: set(PLAIN_SUM) };
        (options.byte() == byte).then_some(options)
    }

    pub fn byte(self) -> u8 {
        let bit = |set: bool, bit: u8| if set { bit } else { 0 };
        bit(self.f800_protects, F800_PROTECTS) | bit(self.signed_levels, SIGNED_LEVELS) | bit(self.plain_sum, PLAIN_SUM)
    }

    /// N1: whether one of them is set.
    pub fn any(self) -> bool {
        self.byte() != 0
    }

    /// All eight, by their bytes.
    pub fn all() -> Vec<Self> {
        (0..=0xFF).filter_map(Self::of_byte).collect()
    }

    /// The choice of levels and sums, as a place in `CHOICES`.
    pub fn choice(self) -> usize {
        usize::from(self.byte() >> 5 & 3)
    }
}

/// S13: the choices of levels and sums; the first is the Rust's.
pub const CHOICES: [&str; 4] = ["wrapping average", "wrapping sum", "signed average", "signed sum"];
