// SPDX-License-Identifier: MIT OR Apache-2.0
//! Calls around the editions (L19 to L21, H9): F800 and stores at what it protects, resets between, images of both lengths and of others.

use super::{Action, quiet_write, reset, sound_read};
use crate::{
    generate::Generator,
    rng::RANGE,
    session::{PART, PARTS},
    text::Call,
};
use tetanes::m019_namco163::Board;

pub const PROTECTION_ACTIONS: &[Action] =
    &[protected_stores, protected_stores, protected_stores, over_a_reset, byte_of_another, byte_of_another, blocks_over_parts, images];

/// L20: a byte of those that leave a part open, or one of another high half.
fn byte(g: &mut Generator) -> u8 {
    let low = g.rng.below(16) as u8;
    match g.rng.below(8) {
        0..2 => (g.rng.below(16) as u8) << 4 | low,
        2 => g.rng.pick(&[0x00, 0x50, 0x60, 0x70, 0xC0]) | low,
        3 => 0x40,
        _ => 0x40 | low,
    }
}

/// L21: a F800 write, at times of the byte that is there.
fn f800(g: &mut Generator) {
    let there = g.loaded().chip.regs.prg_ram_protect;
    let val = if g.rng.once_in(8) { there } else { byte(g) };
    g.put(0xF800, val);
}

/// A F800 write that leaves a part open or more.
pub fn open(g: &mut Generator) {
    let val = g.rng.pick(&[0x40, 0x40, 0x41, 0x47, 0x48, 0x4E]);
    g.put(0xF800, val);
}

/// A F800 write that protects all.
fn close(g: &mut Generator) {
    let val = g.rng.pick(&[0x00, 0x4F, 0x80, 0xC0]);
    g.put(0xF800, val);
}

/// An address of a part.
fn in_part(g: &mut Generator, part: u64) -> u16 {
    let first = 0x6000 + part * u64::from(PART);
    g.address(first, first + u64::from(PART) - 1)
}

/// A byte written to each of some parts of 6000..7FFF, and where it shows.
fn stores(g: &mut Generator) {
    for _ in 0..g.rng.between(1, 3) {
        let part = g.rng.below(PARTS.into());
        let addr = in_part(g, part);
        let val = g.rng.byte() | 1;
        g.write(addr, val);
        let other = 0x6000 | g.rng.below(8) as u16 * 0x400 | addr & 0x3FF;
        let read = g.rng.pick(&[addr, other]);
        g.say(Call::Read(read));
    }
}

/// F800, maybe a write that maps and keeps the byte, and stores.
fn protected_stores(g: &mut Generator) {
    f800(g);
    if g.rng.once_in(3) {
        quiet_write(g);
    }
    stores(g);
    if g.rng.once_in(3) {
        let (there, part) = (g.loaded().chip.regs.prg_ram_protect, g.rng.below(PARTS.into()));
        g.put(0xF800, there ^ 1 << part);
        stores(g);
    }
}

/// C7, C8: an open work RAM, a reset, stores, and the next write that maps.
fn over_a_reset(g: &mut Generator) {
    if g.loaded().chip.board == Board::Namco175 {
        g.put(0xC000, 0x01);
    } else {
        open(g);
    }
    if g.rng.once_in(2) {
        let slot = g.rng.below(4);
        let val = g.rng.pick(&[0x01, 0x05]);
        g.put(0xC000 + slot * RANGE, val);
    }
    reset(g);
    stores(g);
    let next: Action = g.rng.pick(&[f800, open, close, quiet_write]);
    next(g);
    stores(g);
}

/// K5: blocks over parts of which some are open, stores at others, and what is left. Short PRG-RAM shows one page in several parts.
fn blocks_over_parts(g: &mut Generator) {
    let val = g.rng.pick(&[0x4E, 0x4D, 0x4B, 0x47, 0x41, 0x48]);
    g.put(0xF800, val);
    let starts: Vec<u16> = (0..u64::from(PARTS)).map(|part| in_part(g, part)).collect();
    for start in &starts {
        let number = g.rng.number() as u32;
        g.say(Call::Register { start: *start, length: 1, number });
    }
    let next: Action = g.rng.pick(&[stores, stores, f800]);
    next(g);
    starts.into_iter().for_each(|start| g.say(Call::Lookup(start)));
}

/// L6, L20: the protect byte that a 175 or 340 has serves the 163 that the board becomes.
fn byte_of_another(g: &mut Generator) {
    let val = if g.rng.once_in(4) { 0x80 | g.rng.byte() } else { byte(g) };
    if g.loaded().chip.board == Board::Namco163 {
        g.put(0xF800, val);
        g.put(0xE000, 0x80);
    }
    if g.rng.once_in(3) {
        let val = g.rng.pick(&[val, 0x00, 0x01, 0x40, 0x41, 0x4F]);
        g.put(0xC000, val);
    }
    if g.rng.once_in(3) {
        sound_read(g);
    }
    // A store would settle a 340.
    if g.loaded().chip.board != Board::Namco340 || g.rng.once_in(3) {
        stores(g);
    }
    let range = g.rng.pick(&[0x4800, 0x5000, 0x5800, 0xC800, 0xF800]);
    g.put(range, val);
    stores(g);
}

/// N1: buffers of both lengths, of their neighbours, of none and of the most.
fn images(g: &mut Generator) {
    let length = g.rng.pick(&[307, 307, 308, 308, 308, 306, 309, 0, 1, 1_024]);
    let said = !g.rng.once_in(4);
    g.say(Call::Image(said.then_some(length)));
}
