// SPDX-License-Identifier: MIT OR Apache-2.0
//! Arguments of loads: usual, odd, empty and largest sizes, and every way to be refused.

use crate::{
    layout::{CHR_LIMIT, Load, PAGE, PRG_RAM_LIMIT, PRG_ROM_LIMIT},
    options::Options,
    rng::Rng,
};

const PRG_ROM_PAGES: [u64; 16] = [0, 0, 1, 1, 3, 7, 8, 9, 12, 15, 16, 17, 20, 23, 24, 33];
const PRG_RAM_PAGES: [u64; 8] = [0, 0, 1, 2, 3, 8, 8, 9];
const CHR_PAGES: [u64; 8] = [0, 0, 1, 2, 3, 8, 16, 33];
const CIRAM_BYTES: [u64; 9] = [0, 1, 1_024, 1_025, 2_048, 2_049, 3_072, 3_073, 4_096];
const RESERVES: [u64; 5] = [0, 1, 127, 128, 1_024];
const FLAGS: [u8; 8] = [0x00, 0x01, 0x08, 0x09, 0xF6, 0xF7, 0xFE, 0xFF];

/// L19, S13: the same load with options, each of the eight sets as often.
pub fn with_options(rng: &mut Rng, load: Load) -> Load {
    load.with(rng.pick(&Options::all()))
}

/// Without options.
pub fn accepted(rng: &mut Rng) -> Load {
    let sizes = match rng.below(16) {
        0..7 => usual(rng),
        7..14 => odd(rng),
        14 => Load { prg_ram: large_ram(rng), ..usual(rng) },
        _ => largest(rng),
    };
    let mut load = Load {
        mapper: rng.pick(&[19, 19, 210, 210, 210]),
        submapper: rng.pick(&[0, 1, 1, 2, 2, 3, 255]),
        flags: rng.pick(&FLAGS),
        in_database: rng.pick(&[0, 0, 0, 1, 256]),
        ..sizes
    };
    if load.mapper == 19 && load.battery == 0 {
        load.battery = rng.pick(&RESERVES[1..]);
    }
    load
}

/// Sizes of real cartridges.
fn usual(rng: &mut Rng) -> Load {
    Load {
        prg_rom: rng.pick(&[16, 24, 32, 64]) * PAGE,
        prg_ram: rng.pick(&[8, 8, 8, 0]) * PAGE,
        battery: rng.pick(&[128, 128, 0]),
        chr: rng.pick(&[8, 16]) * PAGE,
        chr_ram: rng.pick(&[0, 0, 1]),
        ciram: rng.pick(&[0, 2_048, 4_096]),
        ..Load::default()
    }
}

fn odd(rng: &mut Rng) -> Load {
    Load {
        prg_rom: bytes(rng, &PRG_ROM_PAGES),
        prg_ram: bytes(rng, &PRG_RAM_PAGES),
        battery: rng.pick(&RESERVES),
        chr: bytes(rng, &CHR_PAGES),
        chr_ram: rng.pick(&[0, 1, 256]),
        ciram: rng.pick(&CIRAM_BYTES),
        ..Load::default()
    }
}

/// Some sizes at their limits. These arenas are costly, so they are rare.
fn largest(rng: &mut Rng) -> Load {
    let mut load = odd(rng);
    if rng.once_in(3) {
        load.prg_rom = PRG_ROM_LIMIT;
    }
    if rng.once_in(2) {
        load.prg_ram = large_ram(rng);
    }
    if rng.once_in(2) {
        load.chr = CHR_LIMIT;
    }
    load
}

/// H12: PRG-RAM of 64 pages, of 65 to 127, which 307 bytes can hold, and of 128, which they cannot.
fn large_ram(rng: &mut Rng) -> u64 {
    let (some, all) = (rng.between(65_537, 130_048), rng.between(130_049, PRG_RAM_LIMIT));
    rng.pick(&[65_536, 65_537, some, 130_048, 130_049, all, PRG_RAM_LIMIT, PRG_RAM_LIMIT])
}

/// Bytes that take some number of pages, at times with a last page that is not full.
fn bytes(rng: &mut Rng, pages: &[u64]) -> u64 {
    match rng.pick(pages) {
        0 => 0,
        whole if rng.once_in(3) => (whole - 1) * PAGE + rng.between(1, PAGE - 1),
        whole => whole * PAGE,
    }
}

/// A load that is refused by 4, 5 or 6, at times by two of them.
pub fn refused(rng: &mut Rng) -> Load {
    let mut load = accepted(rng);
    match rng.below(6) {
        0 => load.mapper = rng.pick(&[0, 20, 209, 65_555, (1 << 32) + 19, u64::MAX]),
        1 => (load.mapper, load.battery) = (19, 0),
        2 => {
            load.mapper = 20;
            break_size(rng, &mut load);
        }
        3 => {
            (load.mapper, load.battery) = (19, 0);
            break_size(rng, &mut load);
        }
        _ => break_size(rng, &mut load),
    }
    load
}

/// Sets one size to the first number above its limit, or to one that is in range only in its low 32 bits.
fn break_size(rng: &mut Rng, load: &mut Load) {
    let sizes = load.sizes_mut();
    let broken = rng.below(sizes.len() as u64) as usize;
    let wide = rng.once_in(4);
    for (size, limit) in sizes.into_iter().skip(broken).take(1) {
        *size = if wide { (1 << 32) + limit } else { limit + 1 };
    }
}
