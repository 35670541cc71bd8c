// SPDX-License-Identifier: MIT OR Apache-2.0
//! R10, K5: lent states whose writes store and remap at once, or whose CHR entries and regions show where PRG entries do. No list from a
//! load comes there.

use super::{starts, touched_by, with_blocks};
use crate::selftest::{
    bench::{Handy, P, loaded, number, refusal},
    checks::Checks,
};
use oracle::{
    layout::{PAGE, Region},
    session::Session,
};

pub fn check(t: &mut Checks) {
    stores_and_remaps(t);
    below_6000(t);
    by_chr(t);
    by_region(t);
    writable_rom(t);
    zero_page(t);
}

/// P with PRG entries lent from one on.
fn lent(first: usize, entries: &str) -> Session {
    let mut cart = loaded(P);
    cart.lend_prg(first, entries);
    cart
}

/// A block at 6000 goes by the store at E000, though its own entry stays.
fn stores_and_remaps(t: &mut Checks) {
    let mut cart = with_blocks(lent(56, "41w"), &[(0x6000, 16), (0x6400, 16), (0xA000, 1), (0xE000, 1)]);
    t.eq("E000=02", cart.put(0xE000, 0x02).prg.mask, 0x100_00FF_0000_0000);
    t.eq("PRG-RAM", number(cart.region_peek(Region::PrgRam, 0)), Ok(0x02));
    t.eq("held", starts(&cart), vec![0x6400, 0xA000]);
    t.eq("touched", touched_by(&mut lent(56, "41w"), |cart| cart.put(0xE000, 0x02)), 0x100_00FF_0100_0000);
}

/// No block lies over page 18 itself.
fn below_6000(t: &mut Checks) {
    let mut cart = with_blocks(lent(18, "41w"), &[(0x6000, 16), (0x6400, 16)]);
    t.eq("4800=5A", (cart.put(0x4800, 0x5A).prg.mask, cart.get(0x6000)), (0, 0x5A));
    t.eq("held", starts(&cart), vec![0x6400]);
    t.eq("touched from 24 on", touched_by(&mut lent(18, "41w"), |cart| cart.put(0x4800, 0x5A)), 0x100_0000);
}

fn by_chr(t: &mut Checks) {
    let lent = || {
        let mut cart = lent(32, "50");
        *cart.memory.raw_chr_pages_mut()[8].raw_mut() = (50 * PAGE) as u32 | 1 << 31;
        cart
    };
    let mut cart = with_blocks(lent(), &[(0x8000, 1), (0x8400, 1), (0x6000, 1)]);
    t.eq("2005=77", (refusal(cart.chr_write(0x2005, 0x77)), cart.get(0x8005)), (0, 0x77));
    t.eq("held", starts(&cart), vec![0x6000, 0x8400]);
    t.eq("touched", touched_by(&mut lent(), |cart| cart.chr_write(0x2005, 0x77)), 0x1_0000_0000);
    t.eq("by another entry", touched_by(&mut lent(), |cart| cart.chr_write(0x2405, 0x77)), 0);
    let mut closed = lent();
    *closed.memory.raw_chr_pages_mut()[8].raw_mut() = (50 * PAGE) as u32;
    t.eq("without the flag", touched_by(&mut closed, |cart| cart.chr_write(0x2005, 0x77)), 0);
}

/// M12: offset 130 of the 128 bytes that are used is the third byte of the reserve.
fn by_region(t: &mut Checks) {
    let mut cart = with_blocks(lent(40, "49"), &[(0xA000, 1), (0xA400, 1)]);
    t.eq("battery 130", (refusal(cart.region_write(Region::Battery, 130, 0x99)), cart.get(0xA002)), (0, 0x99));
    t.eq("held", starts(&cart), vec![0xA400]);
    t.eq("touched", touched_by(&mut lent(40, "49"), |cart| cart.region_write(Region::Battery, 130, 0x99)), 0x100_0000_0000);
}

fn writable_rom(t: &mut Checks) {
    let lent = || lent(32, "1w..8w");
    let mut cart = with_blocks(lent(), &[(0x8000, 1), (0xA000, 1), (0xA400, 1), (0xC000, 1)]);
    t.eq("8000=02", (cart.put(0x8000, 0x02).prg.mask, cart.arena()[1024]), (0xFF_0000_0000, 0x02));
    t.eq("held", starts(&cart), vec![0xA400]);
    t.eq("touched", touched_by(&mut lent(), |cart| cart.put(0x8000, 0x02)), 0x1_01FF_0000_0000);
}

/// R7: what is stored into the zero page shows in each unmapped entry.
fn zero_page(t: &mut Checks) {
    let lent = |first: usize, entries: &str| {
        let mut cart = loaded(oracle::layout::Load { prg_ram: 0, prg_rom: 0, ..P });
        cart.lend_prg(first, entries);
        cart
    };
    t.eq("at 6000", touched_by(&mut lent(24, "0w*8"), |cart| cart.put(0x6400, 0x55)), 0xFFFF_FFFF_FF00_0000);
    t.eq("at 4800", touched_by(&mut lent(18, "0w"), |cart| cart.put(0x4800, 0x00)), 0xFFFF_FFFF_FF00_0000);
}
