// SPDX-License-Identifier: MIT OR Apache-2.0
//! The numbers of refused calls: N1 to N14.

#[derive(Debug, Copy, Clone, PartialEq, Eq, PartialOrd, Ord)]
pub enum Refusal {
    ImageLength = 1,
    OutOfRange = 2,
    ResetKind = 3,
    Mapper = 4,
    LayoutSize = 5,
    NoReserve = 6,
    ArenaLength = 7,
    Address = 8,
    FillLength = 9,
    RunLength = 10,
    Room = 11,
    NoBattery = 12,
    Block = 13,
    DirectoryFull = 14,
}

impl Refusal {
    pub fn number(self) -> u8 {
        self as u8
    }

    /// Refuses where the condition holds.
    pub fn when(self, condition: bool) -> Result<(), Self> {
        if condition { Err(self) } else { Ok(()) }
    }
}
