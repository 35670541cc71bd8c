// SPDX-License-Identifier: MIT OR Apache-2.0
//! L11: a row for each range, held against the Rust on every board. 8000..BFFF is two rows, by the selects of L12.

use crate::selftest::{
    bench::{Handy, P, loaded},
    checks::Checks,
};
use oracle::session::Session;
use tetanes::{
    m019_namco163::{Board, Board::*, Namco163},
    ppu::Mirroring,
};

enum Remaps {
    IfBoardChanged,
    Never,
    Always,
}

struct Row {
    first: u16,
    last: u16,
    /// The board that `maybe_set_board` is asked for.
    detect: fn(&Namco163, u8) -> Option<Board>,
    effect: fn(&mut Namco163, u16, u8),
    remaps: Remaps,
}

const ROWS: [Row; 12] = [
    Row { first: 0x4800, last: 0x4FFF, detect: to_163, effect: sound_byte, remaps: Remaps::IfBoardChanged },
    Row { first: 0x5000, last: 0x57FF, detect: to_163, effect: counter_low, remaps: Remaps::IfBoardChanged },
    Row { first: 0x5800, last: 0x5FFF, detect: to_163, effect: counter_high, remaps: Remaps::IfBoardChanged },
    Row { first: 0x6000, last: 0x7FFF, detect: nothing, effect: |chip, _, _| chip.prg_ram_written_to = true, remaps: Remaps::Never },
    Row { first: 0x8000, last: 0x9FFF, detect: nothing, effect: slot, remaps: Remaps::Always },
    Row { first: 0xA000, last: 0xBFFF, detect: nothing, effect: slot, remaps: Remaps::Always },
    Row { first: 0xC000, last: 0xC7FF, detect: to_175, effect: nametable, remaps: Remaps::Always },
    Row { first: 0xC800, last: 0xDFFF, detect: to_163, effect: nametable, remaps: Remaps::Always },
    Row { first: 0xE000, last: 0xE7FF, detect: to_340, effect: bank_0, remaps: Remaps::Always },
    Row { first: 0xE800, last: 0xEFFF, detect: nothing, effect: bank_1, remaps: Remaps::Always },
    Row { first: 0xF000, last: 0xF7FF, detect: nothing, effect: |chip, _, val| chip.prg_banks[2] = val & 0x3F, remaps: Remaps::Always },
    Row { first: 0xF800, last: 0xFFFF, detect: to_163, effect: port, remaps: Remaps::IfBoardChanged },
];

fn nothing(_: &Namco163, _: u8) -> Option<Board> {
    None
}

fn to_163(_: &Namco163, _: u8) -> Option<Board> {
    Some(Namco163)
}

fn to_175(chip: &Namco163, _: u8) -> Option<Board> {
    (chip.board != Namco163).then_some(Namco175)
}

fn to_340(chip: &Namco163, val: u8) -> Option<Board> {
    (val & 0x80 != 0 || (val & 0x40 != 0 && chip.board != Namco163)).then_some(Namco340)
}

fn sound_byte(chip: &mut Namco163, _: u16, val: u8) {
    let addr = chip.audio.addr;
    chip.audio.ram[addr] = val;
    if chip.audio.auto_increment {
        chip.audio.addr = (addr + 1) % 128;
    }
}

fn counter_low(chip: &mut Namco163, _: u16, val: u8) {
    let [high, _] = chip.regs.irq_counter.to_be_bytes();
    chip.regs.irq_counter = u16::from_be_bytes([high, val]);
    chip.regs.irq_pending = false;
}

fn counter_high(chip: &mut Namco163, _: u16, val: u8) {
    let [_, low] = chip.regs.irq_counter.to_be_bytes();
    chip.regs.irq_counter = u16::from_be_bytes([val, low]);
    chip.regs.irq_pending = false;
}

/// L12: when a slot shows CIRAM, and its bank.
fn slot(chip: &mut Namco163, addr: u16, val: u8) {
    let slot = usize::from((addr - 0x8000) / 0x800);
    let select = match slot {
        0..=3 => chip.regs.nt_select_lo,
        4..=7 => chip.regs.nt_select_hi,
        _ => false,
    };
    let ciram = val >= 0xE0 && chip.board == Namco163 && !select;
    chip.nt_bank_enable[slot] = ciram;
    chip.chr_banks[slot] = if ciram { val & 1 } else { val };
}

fn nametable(chip: &mut Namco163, addr: u16, val: u8) {
    match chip.board {
        Namco163 => slot(chip, addr, val),
        Namco175 => chip.regs.prg_ram_protect = val,
        Unknown | Namco340 => (),
    }
}

fn bank_0(chip: &mut Namco163, _: u16, val: u8) {
    use Mirroring::{Horizontal, SingleScreenA, SingleScreenB, Vertical};
    chip.prg_banks[0] = val & 0x3F;
    match chip.board {
        Namco340 => chip.mirroring = [SingleScreenA, Vertical, Horizontal, SingleScreenB][usize::from(val >> 6)],
        Namco163 => chip.audio.disabled = val & 0x40 != 0,
        Unknown | Namco175 => (),
    }
}

fn bank_1(chip: &mut Namco163, _: u16, val: u8) {
    chip.prg_banks[1] = val & 0x3F;
    if chip.board == Namco163 {
        chip.regs.nt_select_lo = val & 0x40 != 0;
        chip.regs.nt_select_hi = val & 0x80 != 0;
    }
}

fn port(chip: &mut Namco163, _: u16, val: u8) {
    if chip.board == Namco163 {
        chip.regs.prg_ram_protect = val;
        chip.audio.addr = usize::from(val & 0x7F);
        chip.audio.auto_increment = val & 0x80 != 0;
    }
}

/// L6: detection, which leaves a written 340 alone.
fn maybe_set_board(chip: &mut Namco163, board: Board) {
    if chip.auto_detect_board && (!chip.prg_ram_written_to || chip.board != Namco340) {
        chip.board = board;
    }
}

impl Row {
    fn expected(&self, before: &Namco163, addr: u16, val: u8) -> Namco163 {
        let mut chip = before.clone();
        if let Some(board) = (self.detect)(&chip, val) {
            maybe_set_board(&mut chip, board);
        }
        (self.effect)(&mut chip, addr, val);
        chip
    }

    fn remapped(&self, before: &Namco163, after: &Namco163) -> bool {
        match self.remaps {
            Remaps::Always => true,
            Remaps::Never => false,
            Remaps::IfBoardChanged => before.board != after.board,
        }
    }
}

const VALUES: [u8; 14] = [0x00, 0x01, 0x3F, 0x40, 0x5A, 0x7F, 0x80, 0x81, 0xC0, 0xDF, 0xE0, 0xE1, 0xFE, 0xFF];

pub fn check(t: &mut Checks) {
    for row in &ROWS {
        for board in [Unknown, Namco163, Namco175, Namco340] {
            for (detecting, written) in [(false, false), (false, true), (true, false), (true, true)] {
                let what = format!("{:04X}..{:04X} on {board:?}, detecting {detecting}, written {written}", row.first, row.last);
                t.eq(&what, first_disagreement(row, board, detecting, written), None);
            }
        }
    }
}

/// Every slot's first and last address in the row, every value, both selects, auto and a pending line.
fn first_disagreement(row: &Row, board: Board, detecting: bool, written: bool) -> Option<String> {
    for start in (row.first..=row.last).step_by(0x800) {
        for (addr, val) in [start, start + 0x7FF].into_iter().flat_map(|addr| VALUES.map(|val| (addr, val))) {
            for bits in 0..4 {
                let mut session = stale(board, bits);
                (session.chip.auto_detect_board, session.chip.prg_ram_written_to) = (detecting, written);
                let wrong = disagreement(row, session, addr, val);
                if wrong.is_some() {
                    return wrong;
                }
            }
        }
    }
    None
}

/// A lent board whose entries at E000 are stale, so that a remapping shows.
fn stale(board: Board, bits: u8) -> Session {
    let mut session = loaded(P);
    let chip = &mut session.chip;
    chip.board = board;
    chip.nt_bank_enable = [true; 12];
    chip.regs.nt_select_lo = bits & 1 != 0;
    chip.regs.nt_select_hi = bits & 2 != 0;
    chip.audio.auto_increment = bits & 1 != 0;
    chip.audio.addr = 0x7F - usize::from(bits & 2);
    session.set_counter(0xFFFF, true);
    session.lend_prg(56, "0*8");
    session
}

fn disagreement(row: &Row, mut session: Session, addr: u16, val: u8) -> Option<String> {
    let expected = row.expected(&session.chip, addr, val);
    let remapped = row.remapped(&session.chip, &expected);
    session.put(addr, val);
    let came = (fields(&session.chip), session.prg(56..57) == ["25"]);
    let expected = (fields(&expected), remapped);
    (came != expected).then(|| format!("{addr:04X}={val:02X}: expected {expected:?}, came {came:?}"))
}

fn fields(chip: &Namco163) -> String {
    format!("{chip:?} {:?}", chip.audio.ram.as_ref() as &[u8])
}
