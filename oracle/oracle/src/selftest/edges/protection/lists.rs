// SPDX-License-Identifier: MIT OR Apache-2.0
//! L23, L24: random lists in both editions in step. Registers and sound are alike; entries differ only by the flags of PRG 24..31 on a 163,
//! and in CHR 8..15 only from a reset to the next mapping of the old edition; flags and byte are the wiki's but from a hard reset to the
//! next mapping.

use crate::selftest::{
    bench::{Handy, loaded, new_edition, refusal},
    checks::Checks,
};
use oracle::{
    generate::loads,
    layout::Load,
    rng::Rng,
    session::{F800, PARTS, RAM_WINDOW, Session, unprotected},
};
use tetanes::{m019_namco163::Board, memory::Page};

const LISTS: usize = 600;
const CALLS: usize = 60;

#[derive(Default)]
struct Counts {
    open: usize,
    closed: usize,
    flags_differ: usize,
    nametables_differ: usize,
    after_hard_reset: usize,
    arenas_differ: usize,
}

pub fn check(t: &mut Checks) {
    let mut rng = Rng::new(5);
    let mut counts = Counts::default();
    for number in 0..LISTS {
        let load = loads::accepted(&mut rng);
        t.holds(&format!("list {number} of {load:?}"), list(&mut rng, load, &mut counts));
    }
    let Counts { open, closed, flags_differ, nametables_differ, after_hard_reset, arenas_differ } = counts;
    let counts = [open, closed, flags_differ, nametables_differ, after_hard_reset, arenas_differ];
    t.holds(&format!("each of it occurs: {counts:?}"), counts.iter().all(|count| *count > 50));
}

/// The same cart in both editions.
struct Editions {
    old: Session,
    new: Session,
    /// L24: the last byte written to F800..FFFF since the load or a hard reset.
    last: u8,
    /// Whether the old edition has not mapped since a reset.
    stale: bool,
    /// Whether the new edition has not mapped since a hard reset.
    opened: bool,
}

fn list(rng: &mut Rng, load: Load, counts: &mut Counts) -> bool {
    let mut both = Editions { old: loaded(load), new: loaded(new_edition(load)), last: 0, stale: false, opened: false };
    let mut holds = both.alike() && both.meets_the_page(counts);
    for _ in 0..CALLS {
        both.step(rng);
        holds &= both.alike() && both.meets_the_page(counts);
        counts.flags_differ += usize::from(both.old.prg(24..32) != both.new.prg(24..32));
        counts.nametables_differ += usize::from(both.old.chr(8..16) != both.new.chr(8..16));
        counts.arenas_differ += usize::from(both.old.arena() != both.new.arena());
    }
    holds
}

impl Editions {
    fn step(&mut self, rng: &mut Rng) {
        if rng.once_in(12) {
            let kind = rng.below(2);
            assert_eq!([&mut self.old, &mut self.new].map(|cart| refusal(cart.reset(kind))), [0; 2], "a reset is accepted");
            self.stale = true;
            if kind == 1 {
                (self.opened, self.last) = (true, 0);
            }
            return;
        }
        let (any, work_ram) = (rng.address(0x4800, 0xFFFF), rng.address(0x6000, 0x7FFF));
        let addr = rng.pick(&[any, any, any, F800, 0xFFFF, work_ram]);
        let (byte, open) = (rng.byte(), 0x40 | rng.below(16) as u8);
        let val = rng.pick(&[byte, open, open, 0x00, 0x01, 0x80, 0xE1]);
        let board = self.old.chip.board;
        self.old.put(addr, val);
        self.new.put(addr, val);
        let maps = (0x8000..F800).contains(&addr) || self.old.chip.board != board;
        self.stale &= !maps;
        self.opened &= !(maps || (addr >= F800 && self.new.protects()));
        if addr >= F800 {
            self.last = val;
        }
    }

    fn alike(&self) -> bool {
        let registers = |cart: &Session| format!("{:?} {:?}", cart.chip, cart.chip.audio.ram.as_ref() as &[u8]);
        let offsets = |cart: &Session| cart.memory.prg_pages().map(|page| page.offset());
        let others = |cart: &Session| [cart.prg(0..24), cart.prg(32..64), cart.chr(0..8)];
        let is_163 = self.new.chip.board == Board::Namco163;
        registers(&self.old) == registers(&self.new)
            && offsets(&self.old) == offsets(&self.new)
            && others(&self.old) == others(&self.new)
            && (is_163 || self.old.prg(24..32) == self.new.prg(24..32))
            && (self.stale || self.old.chr(8..16) == self.new.chr(8..16))
    }

    /// L24, and the same of a 163 that detects, but for its byte.
    fn meets_the_page(&self, counts: &mut Counts) -> bool {
        let chip = &self.new.chip;
        if chip.board != Board::Namco163 || self.new.layout().prg_ram == 0 {
            return true;
        }
        if self.opened {
            counts.after_hard_reset += 1;
            return true;
        }
        let entries: &[Page] = &self.new.memory.prg_pages()[RAM_WINDOW];
        let open = |entry: usize| unprotected(chip.regs.prg_ram_protect, entry as u16 / 2);
        assert_eq!(entries.len(), 2 * usize::from(PARTS), "a part has two entries");
        counts.open += (0..8).filter(|entry| open(*entry)).count();
        counts.closed += (0..8).filter(|entry| !open(*entry)).count();
        let byte = chip.auto_detect_board || chip.regs.prg_ram_protect == self.last;
        byte && entries.iter().enumerate().all(|(entry, page)| page.is_writable() == open(entry))
    }
}
