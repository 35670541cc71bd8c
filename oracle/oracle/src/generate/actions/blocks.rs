// SPDX-License-Identifier: MIT OR Apache-2.0
//! Calls around the directory (K): blocks where writes will touch them, what drops them and what does not, and lookups behind it.

use super::{Action, FIRST, battery, chr, fill, protection, region_byte, reset, run};
use crate::{
    directory::{Block, LONGEST, PLACES},
    generate::Generator,
    layout::PAGE,
    text::Call,
};
use tetanes::m019_namco163::Board;

const START: u64 = 0x6000;
const END: u64 = 0x1_0000;

/// Some blocks near one address, things that may touch them, and lookups of their starts.
pub fn around(g: &mut Generator) {
    let (first, last) =
        g.rng.pick(&[(0x6000, 0x7FFF), (0x6000, 0x7FFF), (0x6000, 0x67FF), (0x8000, 0xDFFF), (0x8000, 0xDFFF), (0xA000, 0xFFFF)]);
    let addr = g.address(first, last);
    if addr < 0x8000 && g.loaded().chip.board == Board::Namco175 && g.rng.once_in(2) {
        protect(g);
    }
    // Else few stores would reach the work RAM of a 163 of the new edition.
    if addr < 0x8000 && g.loaded().protects() && g.rng.once_in(2) {
        protection::open(g);
    }
    let starts = register_near(g, addr);
    touch(g, addr);
    starts.into_iter().for_each(|start| g.say(Call::Lookup(start)));
}

/// Registers up to four blocks, and tells their starts.
fn register_near(g: &mut Generator, addr: u16) -> Vec<u16> {
    let starts: Vec<u16> = (0..g.rng.between(1, 4)).map(|_| near(g, addr)).collect();
    for start in &starts {
        let length = fit_length(g, *start);
        register(g, *start, length);
    }
    starts
}

/// Up to three calls, most of which touch the page of this address.
fn touch(g: &mut Generator, addr: u16) {
    let other: Action = g.rng.pick(&[leaves_blocks, drops_all]);
    for _ in 0..g.rng.between(1, 3) {
        if g.rng.once_in(6) { other(g) } else { touch_page(g, addr) }
    }
}

/// A start in the page of this address, a block's length before it, or at the same place of another page of the window.
fn near(g: &mut Generator, addr: u16) -> u16 {
    let (addr, page) = (u64::from(addr), u64::from(addr) / PAGE * PAGE);
    let near = match g.rng.below(8) {
        0 => page,
        1 => page + PAGE - 1,
        2 => addr,
        3 => page - g.rng.pick(&[1, 2, 8, 1_024, 4_095]),
        4 => page + g.rng.below(PAGE),
        _ => addr / 0x2000 * 0x2000 + g.rng.below(8) * PAGE + g.rng.pick(&[0, addr % PAGE]),
    };
    near.clamp(START, END - 1) as u16
}

/// A length that ends at FFFF or before.
fn fit_length(g: &mut Generator, start: u16) -> u64 {
    let any = g.rng.between(1, LONGEST);
    g.rng.pick(&[1, 2, 16, 16, 1_023, 1_024, 1_025, LONGEST, any]).min(END - u64::from(start))
}

fn register(g: &mut Generator, start: u16, length: u64) {
    let number = if g.rng.once_in(8) { g.rng.pick(&[0, 1, u32::MAX]) } else { g.rng.number() as u32 };
    g.say(Call::Register { start, length, number });
}

/// K5: something that touches the page of this address, or its neighbour, or nearly does.
fn touch_page(g: &mut Generator, addr: u16) {
    let page = addr / PAGE as u16 * PAGE as u16;
    let there = page + g.rng.below(PAGE) as u16;
    match g.rng.below(8) {
        0..4 if addr < 0x8000 => store(g, there),
        4 if addr < 0x8000 => store(g, (page + PAGE as u16).min(0x7FFF)),
        5 if addr < 0x8000 && g.loaded().chip.board == Board::Namco175 => protect(g),
        5 if addr < 0x8000 && g.loaded().protects() => protection::open(g),
        0..6 => bank(g, addr),
        _ => shown_byte(g, there),
    }
}

/// L13: opens or closes the work RAM of a 175.
fn protect(g: &mut Generator) {
    let val = g.rng.pick(&[0x00, 0x01, 0x01]);
    g.put(0xC000, val);
}

/// A write of another byte, or of the one that is there.
fn store(g: &mut Generator, addr: u16) {
    let same = g.loaded().memory.prg_peek(addr);
    let val = if g.rng.once_in(3) { same } else { g.rng.byte() };
    g.write(addr, val);
}

/// A bank for the window of this address or for another one; at times the bank that it has, or one that shows the same pages.
fn bank(g: &mut Generator, addr: u16) {
    let window = if g.rng.once_in(4) { g.rng.below(3) as usize } else { usize::from(addr).saturating_sub(0x8000) / 0x2000 % 3 };
    let now = g.loaded().chip.prg_banks[window];
    let windows = g.loaded().layout().prg_rom / 8;
    let bank = g.rng.pick(&[now, now.wrapping_add(windows as u8), 0, 1, 2, 3]) & 0x3F;
    g.put(0xE000 + 0x800 * window as u64, bank);
}

/// `region-write` of the byte that shows at an address, or of its neighbour page.
fn shown_byte(g: &mut Generator, addr: u16) {
    let session = g.loaded();
    let (layout, offset) = (session.layout(), session.memory.prg_pages()[usize::from(addr) / PAGE as usize].offset() as u64);
    let Some(region) = layout.region_of(offset / PAGE) else { return region_byte(g) };
    let place = offset - layout.first_page(region) * PAGE + u64::from(addr) % PAGE;
    let wrapped = g.rng.pick(&[0, 0, 1, 7]) * layout.pages(region) * PAGE;
    let aside = g.rng.pick(&[0, 0, 0, PAGE]);
    let val = g.rng.byte();
    g.say(Call::RegionWrite(region, place + wrapped + aside, val));
}

/// K7: calls that hand the directory on, whatever it holds.
fn leaves_blocks(g: &mut Generator) {
    let action: Action = g.rng.pick(&[chr, chr, reset, run, restore, refused_load]);
    action(g);
}

fn restore(g: &mut Generator) {
    g.say(Call::RestoreBattery);
}

fn refused_load(g: &mut Generator) {
    let load = super::loads::refused(&mut g.rng);
    g.say_load(load);
}

/// K6: fills of any region and battery sync, accepted and refused.
fn drops_all(g: &mut Generator) {
    let action: Action = g.rng.pick(&[fill, fill, battery]);
    action(g);
}

/// The starts that are held.
fn held(g: &Generator) -> Vec<Block> {
    g.loaded().directory.blocks().collect()
}

/// K4: a held start, an address inside a block, or any other.
pub fn look_up(g: &mut Generator) {
    let held = held(g);
    let kind = if held.is_empty() { g.rng.between(5, 9) } else { g.rng.below(10) };
    let start = match kind {
        0..4 => g.rng.pick(&held).start,
        4 => {
            let block = g.rng.pick(&held);
            block.start + g.rng.below(block.length.into()) as u16
        }
        5 => g.address(0, FIRST - 1),
        6 => g.address(FIRST, START - 1),
        7 => return g.say(Call::Directory),
        _ => g.address(START, 0xFFFF),
    };
    g.say(Call::Lookup(start));
}

/// K3: a block anywhere, a held start again, and what N8 and N13 refuse.
pub fn register_any(g: &mut Generator) {
    let held = held(g);
    let fit = g.address(START, 0xFFFF);
    let length = fit_length(g, fit);
    let left = END - u64::from(fit);
    match g.rng.below(8) {
        0..3 => register(g, fit, length),
        3 if !held.is_empty() => {
            let start = g.rng.pick(&held).start;
            let length = if g.rng.once_in(4) { 0 } else { fit_length(g, start) };
            register(g, start, length);
        }
        4 => {
            let low = g.address(0, FIRST - 1);
            register(g, low, length);
        }
        5 => {
            let low = g.address(FIRST, START - 1);
            register(g, low, length);
        }
        6 => register(g, fit, left + 1),
        _ => {
            let length = g.rng.pick(&[0, LONGEST + 1, 0xFFFF, 0x1_0000, 0x1_0001, (1 << 32) + 16, u64::MAX]);
            register(g, fit, length);
        }
    }
}

/// Registers a block in each of the places, at starts that are equally far from each other.
pub fn fill_up(g: &mut Generator) {
    let step = g.rng.pick(&[1, 16, 127, 160, 160]);
    let first = START + g.rng.below(END - START - (PLACES as u64 - 1) * step);
    for place in 0..PLACES as u64 {
        let start = (first + place * step) as u16;
        let length = fit_length(g, start).min(g.rng.pick(&[16, 16, LONGEST]));
        register(g, start, length);
    }
    full(g);
    full(g);
    g.say(Call::Directory);
}

/// K3, N14: what a full directory takes and what not; then a page of it is touched, and its places are used again.
fn full(g: &mut Generator) {
    some(g, 4);
    let held = held(g);
    if held.is_empty() {
        return;
    }
    let start = g.rng.pick(&held).start;
    touch_page(g, start);
    some(g, 6);
    look_up(g);
}

/// Registers up to that many blocks anywhere.
fn some(g: &mut Generator, most: u64) {
    for _ in 0..g.rng.between(1, most) {
        register_any(g);
    }
}
