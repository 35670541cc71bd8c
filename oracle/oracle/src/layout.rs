// SPDX-License-Identifier: MIT OR Apache-2.0
//! Sizes: in bytes as a load names them (R1), in pages as a state holds them (R2), and where regions lie (R4).

use crate::options::Options;
use std::ops::Range;
use tetanes::memory::{Memory, Src};

pub const PAGE: u64 = 1024;

pub const PRG_ROM_LIMIT: u64 = 524_288;
pub const PRG_RAM_LIMIT: u64 = 131_072;
pub const BATTERY_LIMIT: u64 = 1_024;
pub const CHR_LIMIT: u64 = 262_144;
pub const CIRAM_LIMIT: u64 = 4_096;
/// What a CIRAM size of 0 means.
const CIRAM_DEFAULT: u64 = 2_048;
/// H12: as many pages of PRG-RAM, and no other number of them, need the high bit of their count, so the longer image.
pub const LONG_PRG_RAM: u64 = 128;

/// What a load names. Numbers are as wide as a host lends them, so that each is tested before any cast.
#[derive(Debug, Default, Clone, Copy, PartialEq, Eq)]
pub struct Load {
    pub mapper: u64,
    pub submapper: u8,
    pub flags: u8,
    pub in_database: u64,
    pub prg_rom: u64,
    pub prg_ram: u64,
    pub battery: u64,
    pub chr: u64,
    pub chr_ram: u64,
    pub ciram: u64,
    /// L19, S13: the options.
    pub f800_protects: u64,
    pub signed_levels: u64,
    pub plain_sum: u64,
}

impl Load {
    pub fn options(&self) -> Options {
        Options { f800_protects: self.f800_protects != 0, signed_levels: self.signed_levels != 0, plain_sum: self.plain_sum != 0 }
    }

    /// The same cartridge with these options and no others.
    pub fn with(self, options: Options) -> Self {
        let Options { f800_protects, signed_levels, plain_sum } = options;
        Self { f800_protects: f800_protects.into(), signed_levels: signed_levels.into(), plain_sum: plain_sum.into(), ..self }
    }

    /// N1: whether its image needs a byte of options: for an option, or for its PRG-RAM.
    pub fn is_long(&self) -> bool {
        self.options().any() || self.prg_ram.div_ceil(PAGE) == LONG_PRG_RAM
    }

    /// Each size beside its limit.
    pub fn sizes_mut(&mut self) -> [(&mut u64, u64); 5] {
        [
            (&mut self.prg_rom, PRG_ROM_LIMIT),
            (&mut self.prg_ram, PRG_RAM_LIMIT),
            (&mut self.battery, BATTERY_LIMIT),
            (&mut self.chr, CHR_LIMIT),
            (&mut self.ciram, CIRAM_LIMIT),
        ]
    }

    /// The layout in pages, unless a size is above its limit.
    pub fn layout(&self) -> Option<Layout> {
        let within = self.prg_rom <= PRG_ROM_LIMIT
            && self.prg_ram <= PRG_RAM_LIMIT
            && self.battery <= BATTERY_LIMIT
            && self.chr <= CHR_LIMIT
            && self.ciram <= CIRAM_LIMIT;
        let ciram = if self.ciram == 0 { CIRAM_DEFAULT } else { self.ciram };
        within.then(|| Layout {
            prg_rom: self.prg_rom.div_ceil(PAGE),
            prg_ram: self.prg_ram.div_ceil(PAGE),
            battery: self.battery.div_ceil(PAGE),
            chr: self.chr.div_ceil(PAGE),
            chr_ram: self.chr_ram != 0,
            ciram: ciram.div_ceil(PAGE),
        })
    }

    /// The arena that the replay program lends: of the layout's length, or empty where a size is above its limit.
    pub fn arena_len(&self) -> u64 {
        self.layout().map_or(0, |layout| layout.arena_len())
    }
}

/// A region that calls name.
#[derive(Debug, Copy, Clone, PartialEq, Eq)]
pub enum Region {
    PrgRom,
    PrgRam,
    Battery,
    Chr,
    CiRam,
}

impl Region {
    pub const ALL: [Self; 5] = [Self::PrgRom, Self::PrgRam, Self::Battery, Self::Chr, Self::CiRam];

    pub fn src(self) -> Src {
        match self {
            Self::PrgRom => Src::PrgRom,
            Self::PrgRam => Src::PrgRam,
            Self::Battery => Src::BatteryExt,
            Self::Chr => Src::Chr,
            Self::CiRam => Src::CiRam,
        }
    }

    pub fn word(self) -> &'static str {
        match self {
            Self::PrgRom => "prg-rom",
            Self::PrgRam => "prg-ram",
            Self::Battery => "battery",
            Self::Chr => "chr",
            Self::CiRam => "ciram",
        }
    }
}

/// Page counts of a state.
#[derive(Debug, Clone, Copy, PartialEq, Eq)]
pub struct Layout {
    pub prg_rom: u64,
    pub prg_ram: u64,
    pub battery: u64,
    pub chr: u64,
    pub chr_ram: bool,
    pub ciram: u64,
}

impl Layout {
    /// The layout that the Rust's ranges hold.
    pub fn of(memory: &Memory) -> Self {
        let pages = |range: &Range<usize>| range.len() as u64 / PAGE;
        Self {
            prg_rom: pages(memory.raw_prg_rom()),
            prg_ram: pages(memory.raw_prg_ram()),
            battery: pages(memory.raw_battery_ext()),
            chr: pages(memory.raw_chr()),
            chr_ram: *memory.raw_chr_writable(),
            ciram: pages(memory.raw_ciram()),
        }
    }

    /// Sets the Rust's ranges, in the arena's order. The arena itself is lent apart.
    pub fn set(&self, memory: &mut Memory) {
        *memory.raw_prg_rom_mut() = self.bytes(Region::PrgRom);
        *memory.raw_prg_ram_mut() = self.bytes(Region::PrgRam);
        *memory.raw_battery_ext_mut() = self.bytes(Region::Battery);
        *memory.raw_chr_mut() = self.bytes(Region::Chr);
        *memory.raw_chr_writable_mut() = self.chr_ram;
        *memory.raw_ciram_mut() = self.bytes(Region::CiRam);
    }

    pub fn pages(&self, region: Region) -> u64 {
        match region {
            Region::PrgRom => self.prg_rom,
            Region::PrgRam => self.prg_ram,
            Region::Battery => self.battery,
            Region::Chr => self.chr,
            Region::CiRam => self.ciram,
        }
    }

    /// The arena behind the zero page.
    fn order(&self) -> [Region; 5] {
        use Region::*;
        if self.chr_ram { [PrgRom, PrgRam, Battery, Chr, CiRam] } else { [PrgRom, Chr, PrgRam, Battery, CiRam] }
    }

    pub fn first_page(&self, region: Region) -> u64 {
        1 + self.order().iter().take_while(|before| **before != region).map(|before| self.pages(*before)).sum::<u64>()
    }

    /// The region that an arena page lies in; none for the zero page.
    pub fn region_of(&self, page: u64) -> Option<Region> {
        let holds = |region: &Region| {
            let first = self.first_page(*region);
            (first..first + self.pages(*region)).contains(&page)
        };
        Region::ALL.into_iter().find(holds)
    }

    fn bytes(&self, region: Region) -> Range<usize> {
        let start = self.first_page(region) * PAGE;
        start as usize..(start + self.pages(region) * PAGE) as usize
    }

    pub fn total_pages(&self) -> u64 {
        1 + self.prg_rom + self.prg_ram + self.battery + self.chr + self.ciram
    }

    pub fn arena_len(&self) -> u64 {
        self.total_pages() * PAGE
    }
}
