// SPDX-License-Identifier: MIT OR Apache-2.0
//! Results at the edges of the clauses M, on the Rust; carts without PRG-RAM have a file of their own.

use crate::selftest::{
    bench::{D, Handy, N175, N340, P, U, loaded, number, pages, refusal, written},
    checks::Checks,
};
use oracle::layout::{Load, Region};
use tetanes::ppu::Mirroring;

pub fn check(t: &mut Checks) {
    prg_windows(t);
    prg_ram_window(t);
    empty_regions(t);
    writable(t);
    mirrorings(t);
    chr_folds(t);
    stores(t);
    fills(t);
    region_offsets(t);
    battery_region(t);
    sram(t);
}

/// M1, M2, L13: pages of PRG-ROM, then the windows at 8000, A000 and C000 at banks 1, 2 and 3F, and the one at E000.
const PRG_WINDOWS: &[(&[u64], [&str; 4])] = &[
    (&[0], ["0*8"; 4]),
    (&[1], ["1*8"; 4]),
    (&[3], ["1,2,3,1,2,3,1,2"; 4]),
    (&[7], ["1..7,1"; 4]),
    (&[8, 9, 12, 15], ["1..8"; 4]),
    (&[16, 17, 20, 23], ["9..16", "1..8", "9..16", "9..16"]),
    (&[24], ["9..16", "17..24", "1..8", "17..24"]),
    (&[512], ["9..16", "17..24", "505..512", "505..512"]),
];

fn prg_windows(t: &mut Checks) {
    for (rom_pages, windows) in PRG_WINDOWS {
        for rom in *rom_pages {
            let cart = written(Load { prg_rom: rom * 1024, ..P }, &[(0xE000, 1), (0xE800, 2), (0xF000, 0x3F)]);
            for (window, entries) in windows.iter().enumerate() {
                let first = 32 + 8 * window;
                t.eq(&format!("{rom} pages, PRG {first}"), cart.prg(first..first + 8), pages(entries));
            }
        }
    }
}

/// M1, L13: the window at 6000, by pages of PRG-RAM.
fn prg_ram_window(t: &mut Checks) {
    let repeated = "41w,42w,43w,41w,42w,43w,41w,42w";
    let rows = [(1, "41w*8"), (2, "41w,42w,41w,42w,41w,42w,41w,42w"), (3, repeated)];
    let whole = [8, 9, 16, 64].map(|ram| (ram, "41w..48w"));
    for (ram, entries) in rows.into_iter().chain(whole) {
        t.eq(&format!("{ram} pages"), loaded(Load { prg_ram: ram * 1024, ..P }).prg(24..32), pages(entries));
    }
}

/// M2: CHR of no byte, ROM and RAM.
fn empty_regions(t: &mut Checks) {
    for chr_ram in [0, 1] {
        t.eq("CHR of 0 pages", loaded(Load { chr: 0, chr_ram, ..P }).chr(0..16), pages("0*16"));
    }
}

/// M4, and M5 where PRG-RAM is mapped and where it is not.
fn writable(t: &mut Checks) {
    t.eq("CHR-RAM", loaded(Load { chr_ram: 1, ..P }).chr(0..16), pages("42w*16"));
    t.eq("CHR-ROM", loaded(P).chr(0..16), pages("33*16"));
    let bare = |load| Load { prg_ram: 0, ..load };
    t.eq("163 without PRG-RAM", loaded(bare(P)).prg(24..32), pages("0*8"));
    t.eq("175, protect 0", loaded(N175).prg(24..32), pages("41..48"));
    t.eq("175 without PRG-RAM, protect 0", loaded(bare(N175)).prg(24..32), pages("0*8"));
    for (protect, entries) in [(0xFE, "41..48"), (0x01, "41w..48w"), (0xFF, "41w..48w")] {
        t.eq("175", written(N175, &[(0xC000, protect)]).prg(24..32), pages(entries));
        t.eq("175 without PRG-RAM", written(bare(N175), &[(0xC000, protect)]).prg(24..32), pages("0*8"));
    }
    for load in [U, N340, bare(U), bare(N340)] {
        t.eq("Unknown and 340", loaded(load).prg(24..32), pages("0*8"));
    }
}

/// M7 on a 175, by CIRAM pages; the first CIRAM page is 49.
const MIRRORINGS: &[(Mirroring, u64, &str)] = &[
    (Mirroring::Vertical, 2, "49w,50w,49w,50w"),
    (Mirroring::Horizontal, 2, "49w,49w,50w,50w"),
    (Mirroring::SingleScreenA, 2, "49w*4"),
    (Mirroring::SingleScreenB, 2, "50w*4"),
    (Mirroring::SingleScreenB, 1, "49w*4"),
    (Mirroring::FourScreen, 1, "49w*4"),
    (Mirroring::FourScreen, 2, "49w,50w,49w,50w"),
    (Mirroring::FourScreen, 3, "49w,50w,51w,49w"),
    (Mirroring::FourScreen, 4, "49w,50w,51w,52w"),
];

fn mirrorings(t: &mut Checks) {
    for (mirroring, ciram, entries) in MIRRORINGS {
        let mut cart = loaded(Load { ciram: ciram * 1024, ..N175 });
        cart.chip.mirroring = *mirroring;
        cart.remap();
        let what = format!("{mirroring:?} on {ciram} pages");
        t.eq(&what, cart.chr(8..12), pages(entries));
        t.eq(&what, cart.chr(12..16), pages(entries));
    }
}

/// M8: a PPU address counts by its remainder by 4000.
fn chr_folds(t: &mut Checks) {
    let mut cart = loaded(Load { flags: 1, ..N175 });
    t.eq("CHR write", refusal(cart.chr_write(0x2005, 0x77)), 0);
    for (addr, byte) in [(0x2005, 0x77), (0x3005, 0x77), (0x6005, 0x77), (0xF005, 0x77), (0x2405, 0)] {
        t.eq(&format!("CHR {addr:04X}"), number(cart.chr_read(addr)), Ok(byte));
    }
}

/// M9: a store asks for the flag and for nothing else.
fn stores(t: &mut Checks) {
    let mut rom = loaded(P);
    rom.put(0x8000, 0x55);
    t.eq("ROM", rom.memory.raw_data()[1024], 0);
    let mut reserve = loaded(P);
    reserve.lend_prg(24, "49w*8");
    reserve.put(0x6405, 0x55);
    t.eq("reserve with the flag", reserve.memory.raw_data()[49 * 1024 + 5], 0x55);
    let mut chr = loaded(Load { chr_ram: 1, ..P });
    t.eq("CHR write", refusal(chr.chr_write(0x4003, 0x66)), 0);
    t.eq("CHR-RAM", number(chr.region_peek(Region::Chr, 3)), Ok(0x66));
    let mut chr = loaded(P);
    t.eq("CHR write", refusal(chr.chr_write(0x0003, 0x66)), 0);
    t.eq("CHR-ROM", number(chr.region_peek(Region::Chr, 3)), Ok(0));
}

/// M10, N9, and M11 in a region of no bytes.
fn fills(t: &mut Checks) {
    let mut cart = loaded(Load { prg_rom: 1024, prg_ram: 0, ..P });
    t.eq("whole region", refusal(cart.fill(Region::PrgRom, &[9; 1024])), 0);
    t.eq("first bytes", refusal(cart.fill(Region::PrgRom, &[1, 2])), 0);
    let start: Vec<_> = (0..4).map(|offset| number(cart.region_peek(Region::PrgRom, offset))).collect();
    t.eq("the rest stays", start, vec![Ok(1), Ok(2), Ok(9), Ok(9)]);
    t.eq("one byte more", refusal(cart.fill(Region::PrgRom, &[9; 1025])), 9);
    for region in Region::ALL {
        t.eq("no byte", refusal(cart.fill(region, &[])), 0);
    }
    t.eq("a byte into an empty region", refusal(cart.fill(Region::PrgRam, &[1])), 9);
    t.eq("an empty region reads 0", number(cart.region_peek(Region::PrgRam, 5)), Ok(0));
    let before = cart.whole();
    t.eq("an empty region's write", refusal(cart.region_write(Region::PrgRam, 5, 1)), 0);
    t.eq("an empty region stores nothing", cart.whole(), before);
}

/// M11: offsets up to the last of 64 bits, in ROM and RAM.
fn region_offsets(t: &mut Checks) {
    let mut cart = loaded(Load { prg_rom: 1024, ..P });
    t.eq("write at 5123", refusal(cart.region_write(Region::PrgRom, 5123, 0x31)), 0);
    t.eq("byte 3", cart.memory.raw_data()[1024 + 3], 0x31);
    t.eq("write at 1023", refusal(cart.region_write(Region::PrgRom, 1023, 0x32)), 0);
    t.eq("peek at 2^64 - 1", number(cart.region_peek(Region::PrgRom, u64::MAX)), Ok(0x32));
    let mut cart = loaded(Load { prg_ram: 3 * 1024, ..P });
    t.eq("write at 3072 + 7", refusal(cart.region_write(Region::PrgRam, 3079, 0x33)), 0);
    t.eq("peek at 7", number(cart.region_peek(Region::PrgRam, 7)), Ok(0x33));
    // 2^64 - 1 is 1023 more than a multiple of 3072.
    t.eq("write at 2^64 - 1", refusal(cart.region_write(Region::PrgRam, u64::MAX, 0x34)), 0);
    t.eq("peek at 1023", number(cart.region_peek(Region::PrgRam, 1023)), Ok(0x34));
}

/// M12, L5: 128 bytes; none on a board that was no 163 at load, also once it is one.
fn battery_region(t: &mut Checks) {
    let mut p = loaded(P);
    t.eq("fill of 128", refusal(p.fill(Region::Battery, &[5; 128])), 0);
    t.eq("fill of 129", refusal(p.fill(Region::Battery, &[5; 129])), 9);
    t.eq("write at 128", refusal(p.region_write(Region::Battery, 128, 0x41)), 0);
    t.eq("byte 0", number(p.region_peek(Region::Battery, 0)), Ok(0x41));
    t.eq("peek at 128", number(p.region_peek(Region::Battery, 128)), Ok(0x41));
    for writes in [&[] as &[(u16, u8)], &[(0x4800, 0)]] {
        let mut u = written(U, writes);
        u.memory.raw_data_mut()[49 * 1024..50 * 1024].fill(0x77);
        t.eq("used 0: fill", refusal(u.fill(Region::Battery, &[1])), 9);
        t.eq("used 0: peek", number(u.region_peek(Region::Battery, 0)), Ok(0));
    }
}

/// M13: start and length.
fn sram(t: &mut Checks) {
    let only_rom = Load { prg_rom: 1024, prg_ram: 0, chr: 0, ..N175 };
    let rows = [
        ("P", loaded(P), (41_984, 8_320)),
        ("P without PRG-RAM", loaded(Load { prg_ram: 0, ..P }), (41_984, 128)),
        ("U", loaded(U), (41_984, 8_192)),
        ("U as a 163", written(U, &[(0x4800, 0)]), (41_984, 8_192)),
        ("D as a 340", written(D, &[(0xE000, 0x80)]), (41_984, 8_320)),
        ("175 with a page of PRG-ROM", loaded(only_rom), (2_048, 0)),
    ];
    for (what, cart, answer) in rows {
        t.eq(what, number(cart.sram()), Ok(answer));
        t.eq("the Rust's slice", cart.memory.sram().len() as u64, answer.1);
    }
}
