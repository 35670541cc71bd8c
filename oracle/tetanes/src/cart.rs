// SPDX-License-Identifier: MIT OR Apache-2.0
//! Stands in for cart.rs: what `Namco163::load` asks a cartridge.

use crate::{memory::Memory, ppu::Mirroring};

/// Numbers that the game database holds of a cartridge.
pub struct GameInfo {
    pub mapper_num: u16,
    pub submapper_num: u8,
}

/// Numbers of the file's header.
pub struct NesHeader {
    pub mapper_num: u16,
    pub submapper_num: u8,
    pub flags: u8,
}

pub struct Cart {
    pub header: NesHeader,
    pub game_info: Option<GameInfo>,
    pub memory: Memory,
}

impl Cart {
    /// The database decides over the header.
    pub fn mapper_num(&self) -> u16 {
        match &self.game_info {
            Some(info) => info.mapper_num,
            None => self.header.mapper_num,
        }
    }

    pub fn submapper_num(&self) -> u8 {
        match &self.game_info {
            Some(info) => info.submapper_num,
            None => self.header.submapper_num,
        }
    }

    pub fn mirroring(&self) -> Mirroring {
        let bit = |number: u8| self.header.flags >> number & 1 == 1;
        match (bit(3), bit(0)) {
            (true, _) => Mirroring::FourScreen,
            (false, true) => Mirroring::Vertical,
            (false, false) => Mirroring::Horizontal,
        }
    }
}
