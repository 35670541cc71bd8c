// SPDX-License-Identifier: MIT OR Apache-2.0
//! A loaded cartridge: the Rust's `Namco163` and `Memory`, and the calls, put together from theirs (L7 to L9), with the refusals N. What
//! the Rust does is taken as it is, but for what is amended after a remapping (`amend`): without PRG-RAM M5, and in the new edition the
//! flags at 6000 of a 163 (L20). There, besides, a F800 write to a 163 remaps (L21). Levels and sums that a load chose (S13) are put in
//! place of the Rust's after each update (`levels`).
//!
//! The Rust's `Memory` holds both a part of the state (R8: entries, layout, used length) and the lent arena (`data`). Both can be set
//! through the accessors, so that a call can be given a state out of range or an arena of another length. The directory of translated
//! blocks (K) goes from call to call beside them; the calls that take it test it (K2), and an empty one shows in no answer.

use crate::{
    directory::{CPU_PAGES, Directory},
    image,
    layout::{LONG_PRG_RAM, Layout, Load, PAGE, Region},
    levels,
    options::Options,
    range::in_range,
    refusal::Refusal,
};
use std::{array, ops::Range};
use tetanes::{
    cart::{Cart, GameInfo, NesHeader},
    common::ResetKind,
    m019_namco163::{Audio, Board, Namco163},
    mapper::Map,
    memory::{Memory, MemoryLayout, Page},
};

/// C4: the longest run, as many clocks as a video frame has.
pub const RUN_LIMIT: u64 = 29_781;
/// C6: of the longest run.
pub const MOST_SAMPLES: usize = (14 + RUN_LIMIT as usize) / 15;
/// N8: the first address of a CPU call.
pub const FIRST_ADDRESS: u16 = 0x4800;
/// L21: the first address of the register that protects.
pub const F800: u16 = 0xF800;
/// M5, L13: the PRG entries of the window at 6000.
pub const RAM_WINDOW: Range<usize> = 24..32;

#[derive(Clone)]
pub struct Session {
    pub chip: Namco163,
    pub memory: Memory,
    /// L19, S13: what its load chose. No call changes it.
    pub options: Options,
    pub directory: Directory,
}

/// L15: the changed entries of one page table.
#[derive(Debug, Clone, Copy, PartialEq, Eq)]
pub struct Changed {
    pub mask: u64,
    pub count: u32,
    /// The table's length where no entry changed.
    pub lowest: u32,
}

impl Changed {
    fn between(before: &[Page], after: &[Page]) -> Self {
        let changed = |page: &usize| before[*page] != after[*page];
        let mask = (0..before.len()).filter(changed).fold(0, |mask, page| mask | 1 << page);
        Self { mask, count: u64::count_ones(mask), lowest: mask.trailing_zeros().min(before.len() as u32) }
    }
}

/// The answer of a CPU write, and of its preview (L18).
#[derive(Debug, Clone, Copy, PartialEq, Eq)]
pub struct Written {
    pub prg: Changed,
    pub chr: Changed,
}

/// C5: how many samples a run made, and which of its clocks, from 1 on, was a rise; 0 if none was.
#[derive(Debug, Clone, Copy, PartialEq, Eq)]
pub struct Ran {
    pub made: u64,
    pub rise: u64,
}

impl Session {
    /// K7: its directory is empty.
    pub fn load(load: &Load, arena_len: u64) -> Result<Self, Refusal> {
        Refusal::Mapper.when(load.mapper != 19 && load.mapper != 210)?;
        let layout = load.layout().ok_or(Refusal::LayoutSize)?;
        Refusal::NoReserve.when(load.mapper == 19 && load.battery == 0)?;
        Refusal::ArenaLength.when(arena_len != layout.arena_len())?;

        let mut session = Self::unamended(load);
        session.options = load.options();
        session.amend();
        Ok(session)
    }

    /// What the Rust by itself makes of an accepted load; it has no options.
    pub fn unamended(load: &Load) -> Self {
        let mut cart = cart(load);
        let Ok(chip) = Namco163::load(&mut cart);
        Self { chip, memory: cart.memory, options: Options::default(), directory: Directory::default() }
    }

    /// L13, M5, L20: makes both tables anew. It is a step of a load and of a write, and no call; states that are lent are made with it.
    pub fn remap(&mut self) {
        self.chip.update_banks(&mut self.memory);
        self.amend();
    }

    /// What the tables are amended by after each `update_banks` of the Rust.
    fn amend(&mut self) {
        if self.protects() {
            protect_parts(&mut self.memory, self.chip.regs.prg_ram_protect);
        }
        leave_unmapped(&mut self.memory);
    }

    /// L20, L21: whether F800 protects this board as it is now.
    pub fn protects(&self) -> bool {
        self.options.f800_protects && self.chip.board == Board::Namco163
    }

    pub fn layout(&self) -> Layout {
        Layout::of(&self.memory)
    }

    /// N1: whether its image needs a byte of options: for an option, or for its PRG-RAM.
    pub fn is_long(&self) -> bool {
        self.options.any() || self.layout().prg_ram == LONG_PRG_RAM
    }

    pub fn arena(&self) -> &[u8] {
        self.memory.raw_data()
    }

    pub fn lend_arena(&mut self, bytes: Box<[u8]>) {
        *self.memory.raw_data_mut() = bytes;
    }

    pub fn read(&mut self, addr: u16) -> Result<u8, Refusal> {
        self.refuse_cpu(addr)?;
        Ok(self.chip.prg_read(addr).unwrap_or_else(|| self.memory.prg_peek(addr)))
    }

    pub fn peek(&self, addr: u16) -> Result<u8, Refusal> {
        self.refuse_cpu(addr)?;
        Ok(self.chip.prg_peek(addr).unwrap_or_else(|| self.memory.prg_peek(addr)))
    }

    pub fn write(&mut self, addr: u16, val: u8) -> Result<Written, Refusal> {
        self.directory.refuse()?;
        self.refuse_cpu(addr)?;
        Ok(self.dropping(val, |session, val| session.cpu_write(addr, val)))
    }

    /// L7: an accepted write, apart from the directory.
    fn cpu_write(&mut self, addr: u16, val: u8) -> Written {
        let (prg, chr) = (*self.memory.prg_pages(), *self.memory.chr_pages());
        let board = self.chip.board;
        self.memory.prg_write(addr, val);
        self.chip.write_register(&mut self.memory, addr, val);
        // L11: the writes in which the Rust has remapped; L21: one in which it has not, or not alone. After any other, entries stay as they
        // were lent (R10).
        if addr >= F800 && self.protects() {
            self.remap();
        } else if (0x8000..F800).contains(&addr) || self.chip.board != board {
            self.amend();
        }
        Written { prg: Changed::between(&prg, self.memory.prg_pages()), chr: Changed::between(&chr, self.memory.chr_pages()) }
    }

    /// K5: makes a write, and drops the blocks over the CPU pages that it touches. Where it stores is seen without the tables, also if the
    /// byte stays the same: it is the one byte of the arena that the same write of another value leaves different.
    fn dropping<T>(&mut self, val: u8, write: impl Fn(&mut Self, u8) -> T) -> T {
        if self.directory.is_empty() {
            return write(self, val);
        }
        let before = *self.memory.prg_pages();
        let mut other = self.clone();
        write(&mut other, !val);
        let answer = write(self, val);
        let stored = one_difference(self.arena(), other.arena());
        let after = *self.memory.prg_pages();
        self.directory.drop_over(&touched(&before, &after, stored));
        answer
    }

    /// L18: what the write would answer. It is made on a copy.
    pub fn preview(&self, addr: u16, val: u8) -> Result<Written, Refusal> {
        self.clone().write(addr, val)
    }

    pub fn chr_read(&self, addr: u16) -> Result<u8, Refusal> {
        self.refuse_arena()?;
        Ok(self.memory.chr_peek(addr))
    }

    pub fn chr_write(&mut self, addr: u16, val: u8) -> Result<(), Refusal> {
        self.directory.refuse()?;
        self.refuse_arena()?;
        self.dropping(val, |session, val| session.memory.chr_write(addr, val));
        Ok(())
    }

    /// K6: an accepted one drops every block, also where it has no byte.
    pub fn fill(&mut self, region: Region, bytes: &[u8]) -> Result<(), Refusal> {
        self.directory.refuse()?;
        self.refuse_arena()?;
        let place = self.memory.region_mut(region.src()).get_mut(..bytes.len());
        place.ok_or(Refusal::FillLength)?.copy_from_slice(bytes);
        self.directory.empty();
        Ok(())
    }

    pub fn region_peek(&self, region: Region, offset: u64) -> Result<u8, Refusal> {
        self.refuse_arena()?;
        Ok(self.memory.region_peek(region.src(), offset as usize))
    }

    pub fn region_write(&mut self, region: Region, offset: u64, val: u8) -> Result<(), Refusal> {
        self.directory.refuse()?;
        self.refuse_arena()?;
        self.dropping(val, |session, val| session.memory.region_write(region.src(), offset as usize, val));
        Ok(())
    }

    /// M13: start and length. It reads no byte, so it does not take the arena.
    pub fn sram(&self) -> Result<(u64, u64), Refusal> {
        self.refuse_state()?;
        let range = self.memory.raw_sram_range();
        Ok((range.start as u64, range.len() as u64))
    }

    /// The clocks run on a copy, since a run that lacks room is refused and alters nothing.
    pub fn run(&mut self, clocks: u64, samples: &mut [f32]) -> Result<Ran, Refusal> {
        self.refuse_state()?;
        Refusal::RunLength.when(clocks > RUN_LIMIT)?;
        let mut chip = self.chip.clone();
        let mut made = Vec::new();
        let mut rise = 0;
        for clock in 1..=clocks {
            let single = single_clock(&mut chip, self.options);
            made.extend(single.sample);
            if single.rise {
                rise = clock;
            }
        }
        samples.get_mut(..made.len()).ok_or(Refusal::Room)?.copy_from_slice(&made);
        self.chip = chip;
        Ok(Ran { made: made.len() as u64, rise })
    }

    pub fn reset(&mut self, kind: u64) -> Result<(), Refusal> {
        self.refuse_state()?;
        let kind = match kind {
            0 => ResetKind::Soft,
            1 => ResetKind::Hard,
            _ => return Err(Refusal::ResetKind),
        };
        self.chip.reset(kind);
        Ok(())
    }

    /// K6: an accepted one drops every block.
    pub fn sync_battery(&mut self) -> Result<(), Refusal> {
        self.directory.refuse()?;
        self.refuse_battery()?;
        self.chip.sync_battery(&mut self.memory);
        self.directory.empty();
        Ok(())
    }

    pub fn restore_battery(&mut self) -> Result<(), Refusal> {
        self.refuse_battery()?;
        self.chip.restore_battery(&self.memory);
        Ok(())
    }

    pub fn image(&self, buffer: &mut [u8]) -> Result<(), Refusal> {
        Refusal::ImageLength.when(!image::holds(buffer.len(), self.is_long()))?;
        self.refuse_state()?;
        image::write(self, buffer);
        Ok(())
    }

    fn refuse_state(&self) -> Result<(), Refusal> {
        Refusal::OutOfRange.when(!in_range(&self.chip, &self.memory, self.options))
    }

    fn refuse_arena(&self) -> Result<(), Refusal> {
        self.refuse_state()?;
        Refusal::ArenaLength.when(self.memory.len() as u64 != self.layout().arena_len())
    }

    fn refuse_cpu(&self, addr: u16) -> Result<(), Refusal> {
        self.refuse_arena()?;
        Refusal::Address.when(addr < FIRST_ADDRESS)
    }

    fn refuse_battery(&self) -> Result<(), Refusal> {
        self.refuse_arena()?;
        Refusal::NoBattery.when(*self.memory.raw_battery_ext_len() == 0)
    }
}

/// L20: the four parts of 6000..7FFF.
pub const PARTS: u16 = 4;
/// L20: bytes of a part.
pub const PART: u16 = 0x800;

/// L20: whether a 163 with this protect byte lets stores through to a part.
pub fn unprotected(protect: u8, part: u16) -> bool {
    protect >> 4 == 0b0100 && protect >> part & 1 == 0
}

/// L20: the new edition's flags of a 163, by the Rust's own step.
fn protect_parts(memory: &mut Memory, protect: u8) {
    for part in 0..PARTS {
        memory.set_prg_writable(0x6000 + PART * part, PART.into(), unprotected(protect, part));
    }
}

/// M5: where PRG-RAM has no page, the Rust's remapping can give the flag to the unmapped entries of the window at 6000;
/// such an entry stays unmapped. With a page of PRG-RAM or more this does nothing.
fn leave_unmapped(memory: &mut Memory) {
    if !memory.raw_prg_ram().is_empty() {
        return;
    }
    for page in &mut memory.raw_prg_pages_mut()[RAM_WINDOW] {
        if entry(*page) == (0, true) {
            *page = Page::UNMAPPED;
        }
    }
}

/// The place at which two arenas differ, where there is one.
fn one_difference(left: &[u8], right: &[u8]) -> Option<usize> {
    let mut places = (0..left.len()).filter(|place| left[*place] != right[*place]);
    let place = places.next();
    assert_eq!(places.next(), None, "a write stores one byte at most");
    place
}

/// K5: the CPU pages whose entry is another number after the call, or showed the arena page of the byte that the call stored into.
pub fn touched(before: &[Page; CPU_PAGES], after: &[Page; CPU_PAGES], stored: Option<usize>) -> [bool; CPU_PAGES] {
    let shows = |page: Page| stored.is_some_and(|byte| entry(page).0 == byte as u64 / PAGE);
    array::from_fn(|page| before[page] != after[page] || shows(before[page]))
}

/// What one clock shows (C1, C2).
struct SingleClock {
    sample: Option<f32>,
    rise: bool,
}

fn single_clock(chip: &mut Namco163, options: Options) -> SingleClock {
    let counter = chip.regs.irq_counter;
    let update = chip.board == Board::Namco163 && !chip.audio.disabled && chip.audio.update_counter == 14;
    let channel = chip.audio.current_channel as usize;
    chip.clock();
    if update {
        levels::amend(&mut chip.audio, channel, options);
    }
    let now = chip.regs.irq_counter;
    SingleClock { sample: update.then(|| chip.output()), rise: now != counter && now == 0xFFFF }
}

/// The cartridge of an accepted load. A database entry, where there is one, names the same numbers as the header.
fn cart(load: &Load) -> Cart {
    let mut layout = MemoryLayout::default();
    layout.prg_rom = load.prg_rom as usize;
    layout.prg_ram = load.prg_ram as usize;
    layout.battery_ext = load.battery as usize;
    layout.chr = load.chr as usize;
    layout.chr_writable = load.chr_ram != 0;
    layout.ciram = load.ciram as usize;
    let mapper_num = load.mapper as u16;
    let submapper_num = load.submapper;
    Cart {
        header: NesHeader { mapper_num, submapper_num, flags: load.flags },
        game_info: (load.in_database != 0).then_some(GameInfo { mapper_num, submapper_num }),
        memory: Memory::new(layout),
    }
}

/// C6: how many samples a run of that many clocks makes; the generator and `recut` choose rooms by it.
pub fn samples_made(chip: &Namco163, clocks: u64) -> u64 {
    if chip.board == Board::Namco163 && !chip.audio.disabled { (u64::from(chip.audio.update_counter) + clocks) / 15 } else { 0 }
}

/// An entry as a page number and its flag.
pub fn entry(page: Page) -> (u64, bool) {
    (page.offset() as u64 / PAGE, page.is_writable())
}

/// Bytes of the sound RAM, and so of the used battery.
pub const SOUND_RAM: usize = Audio::RAM_SIZE;
