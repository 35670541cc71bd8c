// SPDX-License-Identifier: MIT OR Apache-2.0
//! The carts of the tests, and short ways to drive and look at them.

use oracle::{
    layout::{Load, PAGE},
    refusal::Refusal,
    session::{Changed, MOST_SAMPLES, RUN_LIMIT, Ran, Session, Written, entry},
};
use std::ops::Range;
use tetanes::memory::Page;

/// T0: layout P, a 163 with a database entry.
pub const P: Load = Load {
    mapper: 19,
    submapper: 0,
    flags: 0,
    in_database: 1,
    prg_rom: 32_768,
    prg_ram: 8_192,
    battery: 128,
    chr: 8_192,
    chr_ram: 0,
    ciram: 2_048,
    f800_protects: 0,
    signed_levels: 0,
    plain_sum: 0,
};
/// L3: P in no database, a 163 that detects.
pub const D: Load = Load { in_database: 0, ..P };
/// L4: Unknown, detecting.
pub const U: Load = Load { mapper: 210, in_database: 0, ..P };
pub const N175: Load = Load { mapper: 210, submapper: 1, battery: 0, ..P };
pub const N340: Load = Load { mapper: 210, submapper: 2, battery: 0, ..P };

/// L19: the same cart in the new edition.
pub const fn new_edition(load: Load) -> Load {
    Load { f800_protects: 1, ..load }
}

pub fn try_load(load: Load) -> Result<Session, Refusal> {
    Session::load(&load, load.arena_len())
}

pub fn loaded(load: Load) -> Session {
    try_load(load).unwrap_or_else(|refusal| panic!("{load:?} is refused by {}", refusal.number()))
}

/// A cart after a load and some writes.
pub fn written(load: Load, writes: &[(u16, u8)]) -> Session {
    let mut session = loaded(load);
    session.puts(writes);
    session
}

/// What a call answered, or its refusal's number.
pub fn number<T>(answer: Result<T, Refusal>) -> Result<T, u8> {
    answer.map_err(Refusal::number)
}

/// A refusal's number, or 0 for an accepted call.
pub fn refusal<T>(answer: Result<T, Refusal>) -> u8 {
    answer.map_or_else(Refusal::number, |_| 0)
}

/// Short ways on a session. Calls that are meant to be accepted answer bare.
pub trait Handy {
    fn put(&mut self, addr: u16, val: u8) -> Written;
    fn puts(&mut self, writes: &[(u16, u8)]);
    fn get(&mut self, addr: u16) -> u8;
    fn clocks(&mut self, clocks: u64) -> Ran;
    fn clocks_in_runs(&mut self, clocks: u64) -> Ran;
    fn samples(&mut self, clocks: u64) -> Vec<u32>;
    fn set_counter(&mut self, counter: u16, pending: bool);
    fn prg(&self, entries: Range<usize>) -> Vec<String>;
    fn chr(&self, entries: Range<usize>) -> Vec<String>;
    fn lend_prg(&mut self, first: usize, notation: &str);
    fn whole(&self) -> String;
}

impl Handy for Session {
    fn put(&mut self, addr: u16, val: u8) -> Written {
        accepted(self.write(addr, val))
    }

    fn puts(&mut self, writes: &[(u16, u8)]) {
        for (addr, val) in writes {
            self.put(*addr, *val);
        }
    }

    fn get(&mut self, addr: u16) -> u8 {
        accepted(self.read(addr))
    }

    fn clocks(&mut self, clocks: u64) -> Ran {
        accepted(self.run(clocks, &mut [0.0; MOST_SAMPLES]))
    }

    /// Any number of clocks, in runs as long as they may be (C4); a rise counts from the first one's start.
    fn clocks_in_runs(&mut self, clocks: u64) -> Ran {
        let mut all = Ran { made: 0, rise: 0 };
        let mut done = 0;
        while done < clocks {
            let piece = (clocks - done).min(RUN_LIMIT);
            let ran = self.clocks(piece);
            all.made += ran.made;
            if ran.rise > 0 {
                all.rise = done + ran.rise;
            }
            done += piece;
        }
        all
    }

    /// The bits of each sample that a run makes.
    fn samples(&mut self, clocks: u64) -> Vec<u32> {
        let mut samples = [0.0; MOST_SAMPLES];
        let ran = accepted(self.run(clocks, &mut samples));
        samples[..ran.made as usize].iter().map(|sample| sample.to_bits()).collect()
    }

    fn set_counter(&mut self, counter: u16, pending: bool) {
        self.chip.regs.irq_counter = counter;
        self.chip.regs.irq_pending = pending;
    }

    fn prg(&self, entries: Range<usize>) -> Vec<String> {
        self.memory.prg_pages()[entries].iter().map(shown).collect()
    }

    fn chr(&self, entries: Range<usize>) -> Vec<String> {
        self.memory.chr_pages()[entries].iter().map(shown).collect()
    }

    /// Sets PRG entries as a lent state might hold them.
    fn lend_prg(&mut self, first: usize, notation: &str) {
        for (index, entry) in pages(notation).iter().enumerate() {
            let (page, flag) = parts(entry);
            *self.memory.raw_prg_pages_mut()[first + index].raw_mut() = (page * PAGE) as u32 | (flag as u32) << 31;
        }
    }

    /// Everything that a call could alter, in range or not.
    fn whole(&self) -> String {
        let (chip, memory) = (&self.chip, &self.memory);
        format!(
            "{chip:?} {:?} {:?} {memory:?} {:?} {:?} {} {:?} {:?}",
            self.options,
            chip.audio.ram.as_ref() as &[u8],
            memory.prg_pages(),
            memory.chr_pages(),
            memory.raw_battery_ext_len(),
            memory.raw_data(),
            self.directory.places
        )
    }
}

fn accepted<T>(answer: Result<T, Refusal>) -> T {
    answer.unwrap_or_else(|refusal| panic!("a call is refused by {}", refusal.number()))
}

fn shown(page: &Page) -> String {
    let (number, writable) = entry(*page);
    format!("{number}{}", if writable { "w" } else { "" })
}

fn parts(entry: &str) -> (u64, bool) {
    let number = entry.trim_end_matches('w');
    (number.parse().expect("an entry is a page number"), number != entry)
}

/// Entries as the tests write them: `41w` is page 41 with the flag, `1..8` eight pages, `0*8` one entry eight times.
pub fn pages(notation: &str) -> Vec<String> {
    let part = |part: &str| -> Vec<String> {
        if let Some((first, last)) = part.split_once("..") {
            let flag = if parts(first).1 { "w" } else { "" };
            return (parts(first).0..=parts(last).0).map(|page| format!("{page}{flag}")).collect();
        }
        let (entry, times) = part.split_once('*').unwrap_or((part, "1"));
        vec![entry.into(); times.parse().expect("a count follows the star")]
    };
    notation.split(',').flat_map(part).collect()
}

/// L15: what a write answers of one table: mask, count, lowest.
pub fn changed(mask: u64, count: u32, lowest: u32) -> Changed {
    Changed { mask, count, lowest }
}

pub const NO_PRG: Changed = Changed { mask: 0, count: 0, lowest: 64 };
pub const NO_CHR: Changed = Changed { mask: 0, count: 0, lowest: 16 };
