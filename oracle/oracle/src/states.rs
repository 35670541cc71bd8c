// SPDX-License-Identifier: MIT OR Apache-2.0
//! Random states in range, most of which no list of calls from a load reaches.

use crate::{
    directory::Directory,
    image::{BOARDS, MIRRORINGS},
    layout::{Layout, PAGE},
    options::Options,
    range::Ends,
    rng::Rng,
    session::{RAM_WINDOW, SOUND_RAM, Session},
};
use std::{array, ops::RangeInclusive};
use tetanes::{
    m019_namco163::{Audio, Namco163, Regs},
    memory::{Memory, MemoryLayout, Page},
};

/// A state in range and an arena of random bytes.
pub fn any(rng: &mut Rng) -> Session {
    let layout = layout(rng);
    let options = rng.pick(&Options::all());
    let (chip, memory) = (chip(rng, &Ends::of(options)), memory(rng, &layout));
    let mut session = Session { chip, memory, options, directory: Directory::default() };
    match rng.below(4) {
        // As a write leaves the entries, or nearly.
        0 => session.remap(),
        1 => {
            session.remap();
            some_entries(rng, &mut session.memory, &layout, 4);
        }
        _ => some_entries(rng, &mut session.memory, &layout, 1),
    }
    if layout.prg_ram == 0 && rng.once_in(2) {
        writable_zero_page(&mut session.memory);
    }
    session
}

fn layout(rng: &mut Rng) -> Layout {
    let mut layout = Layout {
        prg_rom: rng.pick(&[0, 1, 1, 3, 7, 8, 8, 9, 16, 17, 24]),
        prg_ram: rng.pick(&[0, 0, 1, 2, 3, 8, 8, 9]),
        battery: rng.below(2),
        chr: rng.pick(&[0, 1, 2, 3, 8, 8, 9]),
        chr_ram: rng.once_in(2),
        ciram: rng.between(1, 4),
    };
    if rng.once_in(64) {
        layout.prg_rom = 512;
    }
    if rng.once_in(32) {
        layout.prg_ram = rng.pick(&[64, 65, 100, 127, 128, 128]);
    }
    if rng.once_in(64) {
        layout.chr = 256;
    }
    layout
}

fn chip(rng: &mut Rng, ends: &Ends) -> Namco163 {
    Namco163 {
        regs: Regs {
            irq_counter: counter(rng),
            irq_pending: rng.once_in(2),
            nt_select_lo: rng.once_in(2),
            nt_select_hi: rng.once_in(2),
            prg_ram_protect: protect(rng),
        },
        board: rng.pick(&BOARDS),
        mapper_num: rng.pick(&[19, 210]),
        submapper_num: rng.byte(),
        audio: audio(rng, ends),
        auto_detect_board: rng.once_in(2),
        mirroring: rng.pick(&MIRRORINGS),
        prg_ram_written_to: rng.once_in(2),
        nt_bank_enable: array::from_fn(|_| rng.once_in(2)),
        chr_banks: array::from_fn(|_| rng.byte()),
        prg_banks: array::from_fn(|_| rng.below(64) as u8),
    }
}

/// L20: half of the bytes are of those that leave a part open.
fn protect(rng: &mut Rng) -> u8 {
    if rng.once_in(2) { 0x40 | rng.below(16) as u8 } else { rng.byte() }
}

/// Half of the counters are some clocks from their end.
fn counter(rng: &mut Rng) -> u16 {
    match rng.below(8) {
        0..4 => 0xFFFF - rng.below(40) as u16,
        4 => rng.pick(&[0x0000, 0x7FFE, 0x7FFF, 0x8000, 0x8001]),
        _ => rng.number() as u16,
    }
}

fn audio(rng: &mut Rng, ends: &Ends) -> Audio {
    let mut audio = Audio::new();
    audio.ram = array::from_fn(|_| rng.byte()).into();
    audio.addr = if rng.once_in(4) { 127 } else { rng.below(128) as usize };
    audio.auto_increment = rng.once_in(2);
    audio.disabled = rng.once_in(4);
    audio.update_counter = rng.below(15) as u8;
    audio.current_channel = rng.below(8) as i8;
    audio.channel_out = array::from_fn(|_| output(rng, &ends.output) as f32);
    audio.out = out(rng, &ends.out);
    *audio.raw_phase_ext_mut() = array::from_fn(|_| if rng.once_in(8) { 0xFF_FFFF } else { rng.below(1 << 24) as u32 });
    audio
}

fn output(rng: &mut Rng, ends: &RangeInclusive<f32>) -> i64 {
    let (least, greatest) = (*ends.start() as i64, *ends.end() as i64);
    if rng.once_in(4) { rng.pick(&[0, 1, least, greatest]) } else { least + rng.between(0, (greatest - least) as u64) as i64 }
}

/// Any float between the ends, by its bits: the smallest ones, too, but never -0.
fn out(rng: &mut Rng, ends: &RangeInclusive<f32>) -> f32 {
    let end = if *ends.start() < 0.0 && rng.once_in(2) { *ends.start() } else { *ends.end() };
    let (first, last) = (u32::from(end < 0.0), end.abs().to_bits());
    let bits = if rng.once_in(4) { rng.pick(&[first, 1, last - 1, last]) } else { rng.between(first.into(), last.into()) as u32 };
    f32::from_bits(bits).copysign(end)
}

fn memory(rng: &mut Rng, layout: &Layout) -> Memory {
    let mut memory = Memory::new(MemoryLayout::default());
    layout.set(&mut memory);
    *memory.raw_data_mut() = rng.bytes(layout.arena_len() as usize).into();
    *memory.raw_battery_ext_len_mut() = if layout.battery == 1 && rng.once_in(2) { SOUND_RAM } else { 0 };
    *memory.raw_prg_pages_mut() = array::from_fn(|_| Page::UNMAPPED);
    *memory.raw_chr_pages_mut() = array::from_fn(|_| Page::UNMAPPED);
    memory
}

/// M5, R10: lends the zero page with the flag at 6000, as images of earlier versions have it where there is no PRG-RAM.
fn writable_zero_page(memory: &mut Memory) {
    for page in &mut memory.raw_prg_pages_mut()[RAM_WINDOW] {
        *page.raw_mut() = 1 << 31;
    }
}

/// Lends one entry in that many: any page of the arena, with or without the flag.
fn some_entries(rng: &mut Rng, memory: &mut Memory, layout: &Layout, one_in: u64) {
    let mut entry = |page: &mut Page| {
        if rng.once_in(one_in) {
            let offset = rng.below(layout.total_pages()) * PAGE;
            *page.raw_mut() = offset as u32 | (rng.below(2) as u32) << 31;
        }
    };
    memory.raw_prg_pages_mut().iter_mut().for_each(&mut entry);
    memory.raw_chr_pages_mut().iter_mut().for_each(&mut entry);
}
