// SPDX-License-Identifier: MIT OR Apache-2.0
//! Random directories: fit ones, and every way to be unfit (K2).

use oracle::{
    directory::{Block, Directory, LONGEST, PLACES},
    rng::Rng,
};

/// A start from 6000 on, half of them in the work RAM's window.
pub fn start(rng: &mut Rng) -> u16 {
    match rng.below(4) {
        0 => rng.address(0x6000, 0x7FFF),
        1 => rng.between(0x6000, 0x7FFF) as u16,
        2 => rng.address(0x6000, 0xFFFF),
        _ => rng.between(0x6000, 0xFFFF) as u16,
    }
}

/// A length that is fit for this start.
pub fn length(rng: &mut Rng, start: u16) -> u64 {
    let any = rng.between(1, LONGEST);
    rng.pick(&[1, 2, 16, 16, 1_024, 1_025, LONGEST, any]).min(0x1_0000 - u64::from(start))
}

fn block(rng: &mut Rng) -> Block {
    let start = start(rng);
    let length = length(rng, start) as u16;
    Block { start, length, number: if rng.once_in(4) { 0 } else { rng.number() as u32 } }
}

/// Half of the time: places in the order of their starts, free ones behind, as calls alone leave them (K3, K5).
fn maybe_in_order(rng: &mut Rng, directory: &mut Directory) {
    if rng.once_in(2) {
        directory.places.sort_unstable_by_key(|place| (*place == 0, *place));
    }
}

/// So many blocks of different starts, in any of the places.
fn holding(rng: &mut Rng, count: usize) -> Directory {
    let mut directory = Directory::default();
    let mut left = count;
    while left > 0 {
        let (block, place) = (block(rng), rng.below(PLACES as u64) as usize);
        if directory.places[place] == 0 && directory.find(block.start).is_none() {
            directory.places[place] = block.place();
            left -= 1;
        }
    }
    maybe_in_order(rng, &mut directory);
    directory
}

/// Empty, with some blocks, nearly full or full.
pub fn fit(rng: &mut Rng) -> Directory {
    let some = rng.between(1, 12) as usize;
    let count = rng.pick(&[0, some, some, some, some, 60, PLACES - 1, PLACES]);
    holding(rng, count)
}

/// The ways to be unfit, by name.
pub const UNFIT: [&str; 10] = [
    "directories with a start twice",
    "directories with a number and no start",
    "directories with a block of no byte",
    "directories with a block of 4097 bytes",
    "directories with a longer block",
    "directories with a block below 6000",
    "directories with a block beyond FFFF",
    "directories of 255 places or fewer",
    "directories of 257 places or more",
    "directories of random numbers",
];

/// A fit directory, made unfit in the way of this index.
pub fn unfit(rng: &mut Rng, way: usize) -> Directory {
    let count = rng.pick(&[1, 3, 60, PLACES - 1]);
    let mut directory = holding(rng, count);
    let held: Vec<usize> = (0..PLACES).filter(|place| directory.places[*place] != 0).collect();
    let free: Vec<usize> = (0..PLACES).filter(|place| directory.places[*place] == 0).collect();
    let (of, to) = (rng.pick(&held), rng.pick(&free));
    let start = u64::from(start(rng)) << 48;
    let number = rng.below(1 << 32);
    directory.places[to] = match way {
        0 => directory.places[of] & !0xFFFF_FFFF | number,
        1 => rng.pick(&[1, 1 << 31, number.max(1)]),
        2 => start | number,
        3 => 0x6000 << 48 | (LONGEST + 1) << 32 | number,
        4 => 0x6000 << 48 | rng.between(LONGEST + 1, 0xFFFF) << 32 | number,
        5 => rng.pick(&[0, 1, 0x47FF, 0x4800, 0x5FFF]) << 48 | rng.pick(&[1, 2, 0x1000]) << 32 | number,
        6 => rng.pick(&[0xF001_1000, 0xFFFF_0002, 0xFFFF_1000]) << 32 | number,
        9 => rng.number() | 1,
        _ => 0,
    };
    maybe_in_order(rng, &mut directory);
    match way {
        7 => directory.places.truncate(rng.pick(&[0, 1, 128, PLACES - 1])),
        8 => directory.places.resize(rng.pick(&[PLACES + 1, 2 * PLACES, 1_000]), 0),
        9 => directory.places.fill_with(|| rng.number()),
        _ => (),
    }
    directory
}
