// SPDX-License-Identifier: MIT OR Apache-2.0
//! Results at the edges of the clauses R, on the Rust.

use crate::selftest::{
    bench::{D, Handy, N175, P, U, loaded, number, refusal, try_load, written},
    checks::Checks,
};
use oracle::{
    layout::{Layout, Load, Region},
    session::Session,
};
use tetanes::{m019_namco163::Board, ppu::Mirroring};

pub fn check(t: &mut Checks) {
    limits_on_bytes(t);
    rounding(t);
    ciram_pages(t);
    chr_flag_is_kept(t);
    arena_order(t);
    zero_page(t);
    in_range_fields(t);
    not_asked(t);
}

/// R1, N5: limits go by bytes, also where the pages would be as many.
fn limits_on_bytes(t: &mut Checks) {
    for (size, answer) in [(524_288, 0), (524_289, 5)] {
        t.eq("PRG-ROM", refusal(try_load(Load { prg_rom: size, ..P })), answer);
    }
    for (size, answer) in [(65_536, 0), (65_537, 0), (131_072, 0), (131_073, 5)] {
        t.eq("PRG-RAM", refusal(try_load(Load { prg_ram: size, ..P })), answer);
    }
    for (size, answer) in [(1_024, 0), (1_025, 5)] {
        t.eq("reserve", refusal(try_load(Load { battery: size, ..P })), answer);
    }
    for (size, answer) in [(262_144, 0), (262_145, 5)] {
        t.eq("CHR", refusal(try_load(Load { chr: size, ..P })), answer);
        t.eq("CHR-RAM", refusal(try_load(Load { chr: size, chr_ram: 1, ..P })), answer);
    }
    for (size, answer) in [(4_096, 0), (4_097, 5)] {
        t.eq("CIRAM", refusal(try_load(Load { ciram: size, ..P })), answer);
    }
}

/// R2: a region of 1,000 bytes has 1,024.
fn rounding(t: &mut Checks) {
    let mut cart = loaded(Load { prg_rom: 1000, ..P });
    t.eq("pages", cart.layout().prg_rom, 1);
    t.eq("fill of 1024", refusal(cart.fill(Region::PrgRom, &[7; 1024])), 0);
    t.eq("fill of 1025", refusal(cart.fill(Region::PrgRom, &[7; 1025])), 9);
    t.eq("write at 1024", refusal(cart.region_write(Region::PrgRom, 1024, 0x11)), 0);
    t.eq("offset 0", number(cart.region_peek(Region::PrgRom, 0)), Ok(0x11));
    t.eq("offset 1000", number(cart.region_peek(Region::PrgRom, 1000)), Ok(7));
}

/// R1, R2: CIRAM of 0 bytes has two pages; else a started page counts as one.
fn ciram_pages(t: &mut Checks) {
    for (bytes, pages) in [(0, 2), (1, 1), (1024, 1), (1025, 2), (2048, 2), (2049, 3), (3072, 3), (3073, 4), (4096, 4)] {
        t.eq(&format!("CIRAM of {bytes}"), loaded(Load { ciram: bytes, ..P }).layout().ciram, pages);
    }
}

/// R1: the CHR-RAM flag is kept where CHR is empty; H5: every number but 0 sets it.
fn chr_flag_is_kept(t: &mut Checks) {
    for (chr_ram, kept) in [(0, false), (1, true), (256, true), (1 << 32, true)] {
        let layout = loaded(Load { chr: 0, chr_ram, ..P }).layout();
        t.eq("CHR pages and flag", (layout.chr, layout.chr_ram), (0, kept));
    }
}

/// The Rust's ranges, in pages: PRG-ROM, CHR, PRG-RAM, reserve, CIRAM.
fn ranges(session: &Session) -> [std::ops::Range<usize>; 5] {
    let memory = &session.memory;
    [memory.raw_prg_rom(), memory.raw_chr(), memory.raw_prg_ram(), memory.raw_battery_ext(), memory.raw_ciram()]
        .map(|range| range.start / 1024..range.end / 1024)
}

/// R4, R5: the parts in their order, the lengths, and zeros after a load.
fn arena_order(t: &mut Checks) {
    let p = loaded(P);
    t.eq("P", ranges(&p), [1..33, 33..41, 41..49, 49..50, 50..52]);
    t.eq("P's length", p.memory.len(), 53_248);
    let ram = loaded(Load { chr_ram: 1, ..P });
    t.eq("P with CHR-RAM", ranges(&ram), [1..33, 42..50, 33..41, 41..42, 50..52]);
    let largest = Load { prg_rom: 524_288, prg_ram: 131_072, battery: 1_024, chr: 262_144, ciram: 4_096, ..P };
    for chr_ram in [0, 1] {
        let session = loaded(Load { chr_ram, ..largest });
        t.eq("largest", (session.layout().total_pages(), session.memory.len()), (902, 923_648));
    }
    for load in [P, U, N175, Load { chr_ram: 1, ..P }, Load { chr: 0, prg_ram: 0, ..U }, largest] {
        let session = loaded(load);
        let mut set_again = session.clone();
        session.layout().set(&mut set_again.memory);
        t.eq("our order is the Rust's", ranges(&set_again), ranges(&session));
        t.eq("our length is the Rust's", session.layout().arena_len(), session.memory.len() as u64);
        t.holds("a load's arena is zeros", session.memory.raw_data().iter().all(|byte| *byte == 0));
    }
}

/// R7: an unmapped page takes no store. What a lent entry with the flag (R10) stores in the zero page shows in each unmapped page, and
/// stays there.
fn zero_page(t: &mut Checks) {
    let stores = [(0x6000, 0xAA), (0x67FF, 0xBB)];
    let mut bare = written(Load { prg_ram: 0, chr: 0, ..P }, &stores);
    t.eq("unmapped", (bare.get(0x6000), bare.get(0x67FF), number(bare.chr_read(0x0000))), (0, 0, Ok(0)));
    bare.lend_prg(24, "0w*8");
    bare.puts(&stores);
    bare.put(0xE000, 0x00);
    bare.puts(&[(0x6000, 0x11), (0x63FF, 0x22)]);
    for (addr, byte) in [(0x6000, 0xAA), (0x6400, 0xAA), (0x7C00, 0xAA), (0x63FF, 0xBB)] {
        t.eq(&format!("read {addr:04X}"), bare.get(addr), byte);
    }
    t.eq("CHR write", refusal(bare.chr_write(0x0000, 0x12)), 0);
    for addr in [0x0000, 0x2000] {
        t.eq(&format!("CHR {addr:04X}"), number(bare.chr_read(addr)), Ok(0xAA));
    }
    let mut d = written(Load { prg_ram: 0, ..D }, &[(0x6000, 0x5A), (0xE000, 0x80)]);
    t.eq("D without PRG-RAM", (d.chip.board, d.get(0x6000)), (Board::Namco340, 0));
}

type Lending = fn(&mut Session);

/// R9: changes to a fresh P, and whether the state is in range afterwards.
const FIELDS: &[(&str, bool, Lending)] = &[
    ("mapper 210", true, |s| s.chip.mapper_num = 210),
    ("mapper 0", false, |s| s.chip.mapper_num = 0),
    ("mapper 20", false, |s| s.chip.mapper_num = 20),
    ("PRG bank 0 63", true, |s| s.chip.prg_banks[0] = 63),
    ("PRG bank 0 64", false, |s| s.chip.prg_banks[0] = 64),
    ("PRG bank 2 64", false, |s| s.chip.prg_banks[2] = 64),
    ("CHR bank 255", true, |s| s.chip.chr_banks = [255; 12]),
    ("sound address 127", true, |s| s.chip.audio.addr = 127),
    ("sound address 128", false, |s| s.chip.audio.addr = 128),
    ("update counter 14", true, |s| s.chip.audio.update_counter = 14),
    ("update counter 15", false, |s| s.chip.audio.update_counter = 15),
    ("channel 0", true, |s| s.chip.audio.current_channel = 0),
    ("channel 8", false, |s| s.chip.audio.current_channel = 8),
    ("channel -1", false, |s| s.chip.audio.current_channel = -1),
    ("output 3825", true, |s| s.chip.audio.channel_out[0] = 3825.0),
    ("output 3826", false, |s| s.chip.audio.channel_out[0] = 3826.0),
    ("output 0.5", false, |s| s.chip.audio.channel_out[7] = 0.5),
    ("output -1", false, |s| s.chip.audio.channel_out[7] = -1.0),
    ("output -0", false, |s| s.chip.audio.channel_out[3] = -0.0),
    ("output NaN", false, |s| s.chip.audio.channel_out[3] = f32::NAN),
    ("`out` 456F1000", true, |s| s.chip.audio.out = f32::from_bits(0x456F_1000)),
    ("`out` 456F1001", false, |s| s.chip.audio.out = f32::from_bits(0x456F_1001)),
    ("`out` 1/3", true, |s| s.chip.audio.out = 1.0 / 3.0),
    ("`out` subnormal", true, |s| s.chip.audio.out = f32::from_bits(1)),
    ("`out` -0", false, |s| s.chip.audio.out = -0.0),
    ("`out` NaN", false, |s| s.chip.audio.out = f32::NAN),
    ("`out` infinite", false, |s| s.chip.audio.out = f32::INFINITY),
    ("phase FFFFFF", true, |s| s.chip.audio.raw_phase_ext_mut()[0] = 0xFF_FFFF),
    ("phase 1000000", false, |s| s.chip.audio.raw_phase_ext_mut()[7] = 0x100_0000),
    ("PRG-ROM 512", true, |s| set_layout(s, |l| l.prg_rom = 512)),
    ("PRG-ROM 513", false, |s| set_layout(s, |l| l.prg_rom = 513)),
    ("PRG-RAM 128", true, |s| set_layout(s, |l| l.prg_ram = 128)),
    ("PRG-RAM 129", false, |s| set_layout(s, |l| l.prg_ram = 129)),
    ("reserve 2", false, |s| set_layout(s, |l| l.battery = 2)),
    ("CHR 256", true, |s| set_layout(s, |l| l.chr = 256)),
    ("CHR 257", false, |s| set_layout(s, |l| l.chr = 257)),
    ("CIRAM 4", true, |s| set_layout(s, |l| l.ciram = 4)),
    ("CIRAM 5", false, |s| set_layout(s, |l| l.ciram = 5)),
    ("CIRAM 0", false, |s| set_layout(s, |l| (l.ciram, l.chr) = (0, 16))),
    ("used 0", true, |s| *s.memory.raw_battery_ext_len_mut() = 0),
    ("used 127", false, |s| *s.memory.raw_battery_ext_len_mut() = 127),
    ("used 1024", false, |s| *s.memory.raw_battery_ext_len_mut() = 1024),
    ("used 128 without reserve", false, |s| set_layout(s, |l| (l.battery, l.chr) = (0, 16))),
    ("no reserve, used 0", true, |s| {
        *s.memory.raw_battery_ext_len_mut() = 0;
        set_layout(s, |l| (l.battery, l.chr) = (0, 16));
    }),
    ("entry 51", true, |s| *s.memory.raw_prg_pages_mut()[0].raw_mut() = 51 * 1024),
    ("entry 51w", true, |s| *s.memory.raw_chr_pages_mut()[15].raw_mut() = (51 * 1024) | (1 << 31)),
    ("entry 52", false, |s| *s.memory.raw_prg_pages_mut()[63].raw_mut() = 52 * 1024),
    ("entry 52 in the CHR table", false, |s| *s.memory.raw_chr_pages_mut()[0].raw_mut() = 52 * 1024),
    ("entry off its page start", false, |s| *s.memory.raw_chr_pages_mut()[15].raw_mut() = 51 * 1024 + 1),
    ("entry with bit 30", false, |s| *s.memory.raw_prg_pages_mut()[0].raw_mut() = 1 << 30),
    ("entry beyond a smaller layout", false, |s| set_layout(s, |l| l.prg_rom = 1)),
];

/// Sets the ranges and an arena of their length; entries stay.
fn set_layout(session: &mut Session, change: fn(&mut Layout)) {
    let mut layout = session.layout();
    change(&mut layout);
    layout.set(&mut session.memory);
    *session.memory.raw_data_mut() = vec![0; layout.arena_len() as usize].into();
}

/// R9, field by field. The Rust's channel has a sign, so a channel of -1 is tested, too.
fn in_range_fields(t: &mut Checks) {
    for (what, in_range, lend) in FIELDS {
        let mut session = loaded(P);
        lend(&mut session);
        t.eq(what, refusal(session.sram()), if *in_range { 0 } else { 2 });
    }
}

/// R10: changes to a fresh P that leave it in range.
const NOT_ASKED: &[(&str, Lending)] = &[
    ("entries that the registers would not give", |s| s.chip.chr_banks[0] = 3),
    ("ROM with the flag", |s| s.lend_prg(32, "1w..8w")),
    ("zero page with the flag", |s| s.lend_prg(24, "0w*8")),
    ("reserve with the flag", |s| s.lend_prg(24, "49w*8")),
    ("PRG 0..23 mapped", |s| s.lend_prg(0, "1..24")),
    ("a 163 of mapper 210", |s| s.chip.mapper_num = 210),
    ("an Unknown that does not detect", |s| s.chip.board = Board::Unknown),
    ("a 175 with used battery bytes", |s| s.chip.board = Board::Namco175),
    ("pending with another counter", |s| s.set_counter(0x1234, true)),
    ("a CIRAM flag with bank 255", |s| (s.chip.nt_bank_enable[3], s.chip.chr_banks[3]) = (true, 255)),
    ("a channel outside 7-c..7", |s| s.chip.audio.current_channel = 2),
    ("`out` that is no mean", |s| s.chip.audio.out = 17.0),
    ("a phase beyond its length", |s| {
        s.chip.audio.ram[0x7C] = 0xFC;
        s.chip.audio.raw_phase_ext_mut()[7] = 0xFF_FFFF;
    }),
    ("every mirroring", |s| s.chip.mirroring = Mirroring::FourScreen),
];

fn not_asked(t: &mut Checks) {
    for (what, lend) in NOT_ASKED {
        let mut session = loaded(P);
        lend(&mut session);
        t.eq(what, refusal(session.peek(0x8000)), 0);
    }
}
