// SPDX-License-Identifier: MIT OR Apache-2.0
//! What a session does. An action says a few calls that belong together.

mod blocks;
mod levels;
mod protection;

pub use blocks::fill_up;

use super::{Generator, loads};
use crate::{
    layout::{PAGE, Region},
    rng::{RANGE, Rng},
    session::{RUN_LIMIT, SOUND_RAM, samples_made},
    text::{Call, ROOM_LIMIT},
};
use tetanes::m019_namco163::Board;

pub type Action = fn(&mut Generator);

/// Every action and how often it is wanted.
pub const ACTIONS: &[(u64, Action)] = &[
    (8, register_write),
    (9, cpu_read),
    (4, cpu_peek),
    (4, preview),
    (4, detection),
    (4, change_board),
    (6, slots),
    (5, work_ram),
    (4, counter),
    (4, sound_program),
    (4, updates),
    (2, disable),
    (3, port),
    (4, run),
    (4, chr),
    (3, region_byte),
    (3, fill),
    (2, battery),
    (2, reset),
    (1, look),
    (1, refused),
    (12, blocks::around),
    (3, blocks::look_up),
    (3, blocks::register_any),
];

/// Actions about the options, by what they choose.
pub const OPTION_ACTIONS: [&[Action]; 2] = [protection::PROTECTION_ACTIONS, levels::LEVEL_ACTIONS];

pub fn weighted(rng: &mut Rng) -> Action {
    let total = ACTIONS.iter().map(|(weight, _)| weight).sum();
    let mut left = rng.below(total);
    for (weight, action) in ACTIONS {
        match left.checked_sub(*weight) {
            Some(rest) => left = rest,
            None => return *action,
        }
    }
    unreachable!("the number drawn is below the sum of the weights")
}

const FIRST: u64 = 0x4800;

/// Values at which a register does something else.
const VALUES: [u8; 16] = [0x00, 0x01, 0x02, 0x3F, 0x40, 0x41, 0x7F, 0x80, 0x81, 0xC0, 0xC1, 0xDF, 0xE0, 0xE1, 0xFE, 0xFF];

impl Generator {
    fn value(&mut self) -> u8 {
        if self.rng.once_in(2) { self.rng.pick(&VALUES) } else { self.rng.byte() }
    }

    fn address(&mut self, first: u64, last: u64) -> u16 {
        self.rng.address(first, last)
    }

    /// A write, often with a preview or two before it (L18).
    fn write(&mut self, addr: u16, val: u8) {
        for _ in 0..self.rng.pick(&[0, 0, 0, 0, 0, 1, 1, 2]) {
            self.say(Call::Preview(addr, val));
        }
        self.say(Call::Write(addr, val));
    }

    /// Writes to a register of the range that begins at `first`.
    fn put(&mut self, first: u64, val: u8) {
        let addr = self.address(first, first + RANGE - 1);
        self.write(addr, val);
    }

    fn region_len(&self, region: Region) -> u64 {
        self.loaded().memory.region_ref(region.src()).len() as u64
    }

    /// A run with one of the rooms: what it makes, one less, none, some more, the most.
    fn run_clocks(&mut self, clocks: u64) {
        let made = samples_made(&self.loaded().chip, clocks.min(RUN_LIMIT));
        let room = match self.rng.below(16) {
            0 => 0,
            1 => made.saturating_sub(1),
            2..5 => made + self.rng.between(1, 20),
            5 => ROOM_LIMIT,
            _ => made,
        };
        self.say(Call::Run { clocks, room });
    }
}

/// Puts bytes other than 0 at the ends of pages, so that reads show which page is mapped.
pub fn mark(g: &mut Generator) {
    use Region::*;
    for _ in 0..g.rng.between(2, 8) {
        let region = g.rng.pick(&[PrgRom, PrgRom, PrgRom, Chr, Chr, PrgRam, Battery, CiRam]);
        let pages = g.region_len(region).div_ceil(PAGE).max(1);
        let end = g.rng.pick(&[0, PAGE - 1]);
        let offset = g.rng.below(pages) * PAGE + end;
        let val = g.rng.byte() | 1;
        g.say(Call::RegionWrite(region, offset, val));
    }
}

/// H12: where PRG-RAM has more than 64 pages, its image at one of the lengths, and bytes beyond those pages.
pub fn far_pages(g: &mut Generator) {
    let len = g.region_len(Region::PrgRam);
    if len <= 64 * PAGE {
        return;
    }
    let length = g.rng.pick(&[None, Some(307), Some(308)]);
    g.say(Call::Image(length));
    let offset = g.rng.pick(&[64 * PAGE, len - 1]);
    let val = g.rng.byte() | 1;
    g.say(Call::RegionWrite(Region::PrgRam, offset, val));
    g.say(Call::RegionPeek(Region::PrgRam, len + offset));
    if g.rng.once_in(2) {
        g.say(Call::Sram);
    }
}

fn register_write(g: &mut Generator) {
    let addr = g.address(FIRST, 0xFFFF);
    let val = g.value();
    g.write(addr, val);
}

/// Addresses at the ends of pages where a byte other than 0 shows.
fn marked(pages: std::ops::Range<u16>, byte: impl Fn(u16) -> u8) -> Vec<u16> {
    let ends = pages.flat_map(|page| [page << 10, page << 10 | 0x3FF]);
    ends.filter(|addr| byte(*addr) != 0).collect()
}

fn cpu_read(g: &mut Generator) {
    let marked = marked(24..64, |addr| g.loaded().memory.prg_peek(addr));
    let seen = !marked.is_empty() && g.rng.once_in(2);
    let addr = if seen { g.rng.pick(&marked) } else { g.address(FIRST, 0xFFFF) };
    g.say(Call::Read(addr));
}

fn cpu_peek(g: &mut Generator) {
    let addr = g.address(FIRST, 0xFFFF);
    g.say(Call::Peek(addr));
}

/// L18: previews without their write; of a store, with a read that shows that it was not made; and below 4800.
fn preview(g: &mut Generator) {
    let val = g.value();
    let kind = g.rng.below(8);
    let addr = match kind {
        0 => g.address(0, FIRST - 1),
        1..4 => g.address(0x6000, 0x7FFF),
        _ => g.address(FIRST, 0xFFFF),
    };
    g.say(Call::Preview(addr, val));
    if (1..4).contains(&kind) {
        g.say(Call::Read(addr));
    }
}

/// The writes that a detecting board listens to.
fn detection(g: &mut Generator) {
    let (range, values): (u64, &[u8]) = g.rng.pick(&[
        (0x4800, &VALUES),
        (0x5000, &VALUES),
        (0x5800, &[0x00, 0x7F, 0x80, 0xFF]),
        (0x6000, &VALUES),
        (0xC000, &[0x00, 0x01, 0xE0, 0xFF]),
        (0xC000, &[0x00, 0x01, 0xE0, 0xFF]),
        (0xC800, &VALUES),
        (0xD800, &VALUES),
        (0xE000, &[0x80, 0xC0, 0xBF, 0xFF]),
        (0xE000, &[0x40, 0x7F]),
        (0xE000, &[0x00, 0x3F, 0x80, 0xC1]),
        (0xF800, &[0x00, 0x80, 0x85, 0xFF]),
    ]);
    let val = g.rng.pick(values);
    g.put(range, val);
}

/// Makes a detecting board another one, if need be by way of a 340, and does something that leaves it so.
fn change_board(g: &mut Generator) {
    let target = g.rng.pick(&[Board::Namco163, Board::Namco175, Board::Namco175, Board::Namco340]);
    let board = g.loaded().chip.board;
    if target == Board::Namco340 || (target == Board::Namco175 && board == Board::Namco163) {
        let val = g.rng.pick(&[0x80, 0x81, 0xC0, 0xFF]);
        g.put(0xE000, val);
    }
    let val = g.value();
    match target {
        Board::Namco175 => g.put(0xC000, val),
        Board::Namco163 => {
            let range = g.rng.pick(&[0x4800, 0x5000, 0x5800, 0xC800, 0xF800]);
            g.put(range, val);
        }
        _ => (),
    }
    quiet(g);
}

/// Up to four actions that leave the board as it is.
pub fn quiet(g: &mut Generator) {
    for _ in 0..g.rng.below(5) {
        let action: Action = g.rng.pick(&[quiet_write, quiet_write, cpu_read, preview, sound_read, chr, battery, run]);
        action(g);
    }
}

/// A write that no detection listens to.
fn quiet_write(g: &mut Generator) {
    let range = g.rng.pick(&[0x6000, 0x7800, 0x8000, 0x9800, 0xA000, 0xB800, 0xE800, 0xF000]);
    let val = g.value();
    g.put(range, val);
}

fn sound_read(g: &mut Generator) {
    let addr = g.address(0x4800, 0x4FFF);
    g.say(Call::Read(addr));
}

/// CHR and nametable slots, with values on both sides of E0 and the select bits set or clear.
fn slots(g: &mut Generator) {
    if g.rng.once_in(2) {
        let selects = g.rng.pick(&[0x00, 0x40, 0x80, 0xC0]) | g.rng.byte() & 0x3F;
        g.put(0xE800, selects);
    }
    for _ in 0..g.rng.between(1, 4) {
        let slot = g.rng.below(12);
        let val = g.rng.pick(&[0x00, 0x01, 0x05, 0xDF, 0xE0, 0xE1, 0xFE, 0xFF]);
        let val = if g.rng.once_in(4) { g.rng.byte() } else { val };
        g.put(0x8000 + slot * RANGE, val);
    }
}

/// Stores to 6000..7FFF, with protection switched now and then, and reads back.
fn work_ram(g: &mut Generator) {
    if g.rng.once_in(3) && g.loaded().chip.board == Board::Namco175 {
        let val = g.rng.pick(&[0x00, 0x01, 0xFE, 0xFF]);
        g.put(0xC000, val);
    }
    let addr = g.address(0x6000, 0x7FFF);
    let val = g.rng.byte() | 1;
    g.write(addr, val);
    let page = g.rng.below(8) as u16 * PAGE as u16;
    let place = page + addr % PAGE as u16;
    // Without PRG-RAM the byte is dropped (M5): it shows neither here nor in unmapped CHR entries, which show the same page (R7).
    let other = g.rng.once_in(3);
    g.say(if other { Call::ChrRead(place) } else { Call::Read(0x6000 + place) });
}

/// A counter that is some clocks from its end, and runs that end before, on, or after the rise.
fn counter(g: &mut Generator) {
    let away: u64 = g.rng.pick(&[0, 1, 1, 2, 3, 14, 15, 16, 40, 200, 1_000, RUN_LIMIT]);
    let counter: u16 = match g.rng.below(8) {
        0 => g.rng.number() as u16,
        1 => 0x7FFE,
        _ => 0xFFFF - away as u16,
    };
    let [high, low] = counter.to_be_bytes();
    g.put(0x5000, low);
    g.put(0x5800, high);
    for _ in 0..g.rng.between(1, 3) {
        let clocks = g.rng.pick(&[away, away.saturating_sub(1), away + 1, 2 * away + 3, 1, 2]);
        g.run_clocks(clocks);
    }
}

/// 128 bytes of sound RAM: waves, and for each channel a frequency, length, address and volume; the last byte has the channel count.
fn sound_ram(rng: &mut Rng) -> Vec<u8> {
    let mut ram: Vec<u8> = (0..SOUND_RAM).map(|_| rng.byte()).collect();
    for channel in 0..8 {
        let base = 0x40 + 8 * channel;
        ram[base + 2] |= 0x80;
        ram[base + 4] = rng.pick(&[0xFC, 0xF0, 0xE0, 0x80, 0x00]) | rng.byte() & 3;
        ram[base + 7] = rng.byte() & 0x0F | 0x01;
    }
    ram[0x7F] |= (rng.below(8) as u8) << 4;
    ram
}

/// Sets the whole sound RAM by the battery where there is one, else channel 7 and some wave bytes by the port.
fn sound_program(g: &mut Generator) {
    let ram = sound_ram(&mut g.rng);
    if g.region_len(Region::Battery) > 0 {
        g.say(Call::Fill(Region::Battery, ram));
        g.say(Call::RestoreBattery);
    } else {
        for (start, count) in [(0x78, 8), (0, 2)] {
            g.put(0xF800, 0x80 | start);
            for byte in &ram[usize::from(start)..usize::from(start) + count] {
                g.put(0x4800, *byte);
            }
        }
    }
    updates(g);
}

/// A few updates, sometimes one by one, and often a whole turn of channels ahead of them.
fn updates(g: &mut Generator) {
    if g.loaded().chip.audio.disabled && g.rng.once_in(2) {
        let bank = g.rng.byte() & 0x3F;
        g.put(0xE000, bank);
    }
    if g.rng.once_in(2) {
        let turn = g.loaded().chip.audio.ram[0x7F] >> 4 & 7;
        g.run_clocks(15 * u64::from(turn));
    }
    for _ in 0..g.rng.between(1, 4) {
        let clocks = g.rng.pick(&[15, 15, 15, 14, 30, 60, 120, 121]);
        g.run_clocks(clocks);
    }
}

/// Sound off, clocks that make no update, and sound on again.
fn disable(g: &mut Generator) {
    g.put(0xE000, 0x40);
    let clocks = g.rng.between(1, 100);
    g.run_clocks(clocks);
    g.put(0xE000, 0x05);
    g.run_clocks(15);
}

/// The sound port at an address near the end, where auto-increment goes from 7F to 0.
fn port(g: &mut Generator) {
    let auto = g.rng.pick(&[0x00, 0x80, 0x80]);
    let addr = g.rng.pick(&[0x00, 0x40, 0x78, 0x7D, 0x7E, 0x7F, 0x7F]);
    g.put(0xF800, auto | addr);
    for _ in 0..g.rng.between(1, 5) {
        let at = g.address(0x4800, 0x4FFF);
        let val = g.value();
        let call = g.rng.pick(&[0, 0, 1, 1, 2]);
        g.say(match call {
            0 => Call::Read(at),
            1 => Call::Write(at, val),
            _ => Call::Peek(at),
        });
    }
}

/// Runs of every length. The longest are rare on a 163: such an answer may have 1986 samples.
fn run(g: &mut Generator) {
    if g.loaded().chip.board != Board::Namco163 && g.rng.once_in(8) {
        return longest_run(g);
    }
    let clocks = match g.rng.below(64) {
        0..2 => return longest_run(g),
        2..5 => 0,
        5..12 => 1,
        12..18 => 14,
        18..26 => 15,
        26..52 => g.rng.between(2, 100),
        52..58 => g.rng.between(100, 600),
        58..61 => g.rng.pick(&[RUN_LIMIT + 1, RUN_LIMIT + 1, RUN_LIMIT + 1, 40_000, 65_536, 65_537]),
        61 => g.rng.pick(&[(1 << 32) + 5, (1 << 32) + 5, (1 << 32) + RUN_LIMIT, 1 << 20, u64::MAX]),
        _ => g.rng.between(600, 2_000),
    };
    g.run_clocks(clocks);
}

/// At times with the next update one clock away, which makes one sample more.
fn longest_run(g: &mut Generator) {
    if g.rng.once_in(2) {
        let short = 14 - u64::from(g.loaded().chip.audio.update_counter);
        g.say(Call::Run { clocks: short, room: 0 });
    }
    let clocks = g.rng.pick(&[RUN_LIMIT, RUN_LIMIT, RUN_LIMIT, RUN_LIMIT - 1, 20_000]);
    g.run_clocks(clocks);
}

fn chr(g: &mut Generator) {
    let addr = if g.rng.once_in(4) { g.address(0, 0xFFFF) } else { g.address(0, 0x3FFF) };
    if g.rng.once_in(2) {
        let val = g.rng.byte() | 1;
        g.say(Call::ChrWrite(addr, val));
    }
    let marked = marked(0..16, |addr| g.loaded().memory.chr_peek(addr));
    let seen = !marked.is_empty() && g.rng.once_in(2);
    let addr = if seen { g.rng.pick(&marked) } else { addr };
    g.say(Call::ChrRead(addr));
}

fn region_byte(g: &mut Generator) {
    let region = g.rng.pick(&Region::ALL);
    let len = g.region_len(region).max(1);
    let offset = match g.rng.below(8) {
        0..3 => g.rng.below(len),
        3 => len,
        4 => len + g.rng.below(5 * len),
        5 => g.rng.number(),
        _ => u64::MAX,
    };
    if g.rng.once_in(2) {
        let val = g.rng.byte() | 1;
        g.say(Call::RegionWrite(region, offset, val));
    }
    g.say(Call::RegionPeek(region, offset));
}

/// Short fills, and whole regions or one byte more where that makes no long line.
fn fill(g: &mut Generator) {
    let region = g.rng.pick(&Region::ALL);
    let len = g.region_len(region);
    let longest = if g.rng.once_in(8) { 9 * PAGE } else { 3 * PAGE };
    let count = match g.rng.below(8) {
        0 => 0,
        1..3 if len <= longest => len,
        3..5 if len <= longest => len + 1,
        _ => g.rng.between(1, 8),
    };
    let bytes = (0..count).map(|_| g.rng.byte()).collect();
    g.say(Call::Fill(region, bytes));
}

fn battery(g: &mut Generator) {
    let call = g.rng.pick(&[0, 1, 2, 2]);
    g.say(match call {
        0 => Call::Sram,
        1 => Call::RestoreBattery,
        _ => Call::SyncBattery,
    });
}

fn reset(g: &mut Generator) {
    let hard = g.rng.once_in(2);
    g.say(if hard { Call::ResetHard } else { Call::ResetSoft });
    if g.rng.once_in(2) {
        register_write(g);
    }
}

fn look(g: &mut Generator) {
    let image = g.rng.once_in(2);
    g.say(if image { Call::Image(None) } else { Call::Arena });
}

/// Addresses below 4800, and loads that leave this cartridge in place.
fn refused(g: &mut Generator) {
    let addr = if g.rng.once_in(3) { FIRST as u16 - 1 } else { g.address(0, FIRST - 1) };
    let val = g.rng.byte();
    let call = g.rng.below(7);
    let load = loads::refused(&mut g.rng);
    match call {
        0 => g.say(Call::Read(addr)),
        1 => g.say(Call::Peek(addr)),
        2 | 3 => g.say(Call::Write(addr, val)),
        4 | 5 => g.say(Call::Preview(addr, val)),
        _ => g.say_load(load),
    }
}
