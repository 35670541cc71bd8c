// SPDX-License-Identifier: MIT OR Apache-2.0
//! M5 on carts without PRG-RAM: results, and lists of writes with the Rust by itself beside them.

use crate::selftest::{
    bench::{D, Handy, N175, N340, NO_CHR, NO_PRG, P, U, changed, loaded, number, pages, refusal, written},
    checks::Checks,
};
use oracle::{
    generate::loads,
    layout::{Load, PAGE},
    rng::Rng,
    session::{Changed, Session},
};
use tetanes::{m019_namco163::Board, mapper::Map};

pub fn check(t: &mut Checks) {
    fresh(t);
    dropped(t);
    dropped_without_chr(t);
    protect(t);
    detection(t);
    some_ram(t);
    lent(t);
    lent_elsewhere(t);
    remapping_writes(t);
    lists(t);
}

const fn without(load: Load) -> Load {
    Load { prg_ram: 0, ..load }
}

const AT_6000: Changed = Changed { mask: 0xFF00_0000, count: 8, lowest: 24 };
const NAMETABLES: Changed = Changed { mask: 0xFF00, count: 8, lowest: 8 };

/// M2, M5: the window at 6000 after a load, on every board.
fn fresh(t: &mut Checks) {
    for load in [P, D, U, N175, N340, Load { chr: 0, ..P }, Load { chr_ram: 1, ..P }, Load { prg_rom: 0, ..P }] {
        let cart = loaded(without(load));
        t.eq(&format!("{:?}", cart.chip.board), cart.prg(24..32), pages("0*8"));
    }
}

fn zeros(session: &Session) -> bool {
    session.arena().iter().all(|byte| *byte == 0)
}

/// M5, L11: a 163 stores nothing at 6000 and notes the write; other windows are as with PRG-RAM.
fn dropped(t: &mut Checks) {
    let mut cart = loaded(without(P));
    for (addr, val) in [(0x6000, 0xAA), (0x67FF, 0xBB), (0x7FFF, 0xCC)] {
        let answer = cart.put(addr, val);
        t.eq(&format!("answer at {addr:04X}"), (answer.prg, answer.chr), (NO_PRG, NO_CHR));
    }
    t.holds("written", cart.chip.prg_ram_written_to);
    for addr in [0x6000, 0x6400, 0x63FF, 0x67FF, 0x7C00, 0x7FFF] {
        t.eq(&format!("read {addr:04X}"), cart.get(addr), 0);
    }
    let answer = cart.put(0xE000, 0x01);
    t.eq("E000=01", (answer.prg, answer.chr), (changed(0xFF_0000_0000, 8, 32), NO_CHR));
    cart.put(0x6000, 0xAA);
    t.eq("read 6000 after it", cart.get(0x6000), 0);
    t.holds("the arena is zeros", zeros(&cart));
}

/// R7: unmapped CHR entries show the same zero page.
fn dropped_without_chr(t: &mut Checks) {
    for chr_ram in [0, 1] {
        let mut cart = written(Load { chr: 0, chr_ram, ..without(P) }, &[(0x6000, 0xAA), (0x67FF, 0xBB)]);
        t.eq("CHR write", refusal(cart.chr_write(0x0000, 0x12)), 0);
        for addr in [0x0000, 0x03FF, 0x2000, 0x3FFF] {
            t.eq(&format!("CHR {addr:04X}"), number(cart.chr_read(addr)), Ok(0));
        }
        t.holds("the arena is zeros", zeros(&cart));
    }
}

/// M5: a 175, whatever its protect byte is and wherever it was written.
fn protect(t: &mut Checks) {
    for val in [0xFE, 0x01, 0xFF, 0x00] {
        for addr in [0xC000, 0xC7FF, 0xC800, 0xDFFF] {
            let mut cart = loaded(without(N175));
            let answer = cart.put(addr, val);
            t.eq("protect", cart.chip.regs.prg_ram_protect, val);
            t.eq(&format!("{addr:04X}={val:02X}"), (answer.prg, answer.chr), (NO_PRG, NO_CHR));
            t.eq("PRG 24..31", cart.prg(24..32), pages("0*8"));
            cart.put(0x6000, 0x55);
            t.eq("read 6000", cart.get(0x6000), 0);
            t.holds("the arena is zeros", zeros(&cart));
        }
    }
}

/// A cart, whose PRG-RAM is left out, writes, one more write, and what this answers of the CHR table and leaves as the board.
type Detection = (Load, &'static [(u16, u8)], (u16, u8), Changed, Board);

/// L11: changes of board, and what a settled 340 keeps.
const DETECTION: &[Detection] = &[
    (D, &[(0x6000, 0x5A)], (0xE000, 0x80), NAMETABLES, Board::Namco340),
    (D, &[(0xE000, 0x80)], (0xC000, 0x01), NO_CHR, Board::Namco175),
    (D, &[(0xE000, 0x80), (0xC000, 0x01)], (0xE000, 0x80), NO_CHR, Board::Namco340),
    (D, &[(0xE000, 0x80), (0xC000, 0x01)], (0x4800, 0x00), NAMETABLES, Board::Namco163),
    (D, &[(0xE000, 0x80)], (0x5000, 0x00), NAMETABLES, Board::Namco163),
    (D, &[(0xE000, 0x80), (0x6000, 0x5A)], (0x5000, 0x00), NO_CHR, Board::Namco340),
    (U, &[], (0xC800, 0xE1), NAMETABLES, Board::Namco163),
    (U, &[], (0xF800, 0x00), NAMETABLES, Board::Namco163),
    (U, &[], (0x5800, 0x00), NAMETABLES, Board::Namco163),
    (U, &[], (0xC000, 0x01), NO_CHR, Board::Namco175),
    (U, &[], (0xC000, 0x00), NO_CHR, Board::Namco175),
    (U, &[(0x6000, 0x5A)], (0xE000, 0xBF), NO_CHR, Board::Namco340),
];

/// M5: no change of board changes PRG 24..31, and what was written to 6000 is nowhere.
fn detection(t: &mut Checks) {
    for (load, before, (addr, val), chr, board) in DETECTION {
        let mut cart = written(without(*load), before);
        let answer = cart.put(*addr, *val);
        let what = format!("{before:04X?}, {addr:04X}={val:02X}");
        t.eq(&what, (cart.chip.board, answer.prg.mask & AT_6000.mask, answer.chr), (*board, 0, *chr));
        t.eq(&what, cart.prg(24..32), pages("0*8"));
        t.eq(&what, cart.get(0x6000), 0);
    }
    let mut d = written(without(D), &[(0x6000, 0x5A)]);
    t.eq("D, E000=80", d.put(0xE000, 0x80).prg, NO_PRG);
    t.holds("a settled 340", d.chip.prg_ram_written_to && d.chip.auto_detect_board);
    t.eq("U, C800=E1", loaded(without(U)).put(0xC800, 0xE1).prg, NO_PRG);
}

/// R2, M5: a byte of PRG-RAM is a page of it. Without PRG-ROM, and with CHR-RAM, that is page 1.
fn some_ram(t: &mut Checks) {
    let mut byte = written(Load { prg_ram: 1, ..P }, &[(0x6000, 0xAA)]);
    t.eq("a byte", byte.prg(24..32), pages("41w*8"));
    t.eq("reads", (byte.get(0x6000), byte.get(0x6400)), (0xAA, 0xAA));
    t.eq("bytes", (byte.arena()[41 * 1024], byte.arena()[0]), (0xAA, 0));
    t.eq("U, C800=E1", loaded(Load { prg_ram: 1, ..U }).put(0xC800, 0xE1).prg, AT_6000);
    for (ram, entries, protected) in [(1, "1w*8", "1*8"), (8_192, "1w..8w", "1..8")] {
        let first = |load| Load { prg_rom: 0, prg_ram: ram, chr_ram: 1, ..load };
        let mut cart = written(first(P), &[(0xE000, 0x01), (0x6000, 0xAA)]);
        t.eq("a 163 with PRG-RAM at page 1", cart.prg(24..32), pages(entries));
        t.eq("its bytes", (cart.get(0x6000), cart.arena()[1024], cart.arena()[0]), (0xAA, 0xAA, 0));
        let mut cart = loaded(first(N175));
        for (val, answer, entries) in [(0x01, AT_6000, entries), (0xFF, NO_PRG, entries), (0xFE, AT_6000, protected)] {
            t.eq(&format!("a 175, C000={val:02X}"), cart.put(0xC000, val).prg, answer);
            t.eq("its entries", cart.prg(24..32), pages(entries));
        }
    }
}

/// R10, M5: an image of an earlier version has the zero page with the flag at 6000. It stores there until a write remaps, and what it has
/// stored stays.
fn lent(t: &mut Checks) {
    for (load, remap) in [(P, (0xE000, 0x00)), (N175, (0xC000, 0x01)), (N340, (0xF000, 0x00)), (U, (0xA000, 0x00))] {
        let mut cart = loaded(without(load));
        cart.lend_prg(24, "0w*8");
        cart.put(0x6000, 0xAA);
        t.eq("stored", (cart.get(0x6000), cart.get(0x6400), cart.arena()[0]), (0xAA, 0xAA, 0xAA));
        t.eq("kept", cart.prg(24..32), pages("0w*8"));
        let answer = cart.put(remap.0, remap.1);
        t.eq("remapped", (answer.prg, answer.chr), (AT_6000, NO_CHR));
        t.eq("unmapped", cart.prg(24..32), pages("0*8"));
        t.eq("the byte stays", (cart.get(0x6000), cart.get(0x6400), cart.arena()[0]), (0xAA, 0xAA, 0xAA));
        cart.put(0x6000, 0x55);
        t.eq("and takes no store", (cart.get(0x6000), cart.arena()[0]), (0xAA, 0xAA));
    }
    let mut ram = loaded(P);
    ram.lend_prg(24, "0w*8");
    t.eq("with PRG-RAM", ram.put(0xE000, 0x00).prg, AT_6000);
    t.eq("PRG 24..31", ram.prg(24..32), pages("41w..48w"));
}

/// R10, L13: resets leave the flag at 6000, and no remapping takes it from PRG 0..23.
fn lent_elsewhere(t: &mut Checks) {
    for kind in [0, 1] {
        let mut cart = loaded(without(P));
        cart.lend_prg(24, "0w*8");
        t.eq("reset", refusal(cart.reset(kind)), 0);
        t.eq("PRG 24..31", cart.prg(24..32), pages("0w*8"));
        t.eq("F000=00", cart.put(0xF000, 0x00).prg, AT_6000);
    }
    let mut cart = loaded(without(P));
    cart.lend_prg(18, "0w");
    t.eq("E000=00", cart.put(0xE000, 0x00).prg, NO_PRG);
    t.eq("PRG 18", cart.prg(18..19), pages("0w"));
    cart.put(0x4800, 0x5A);
    t.eq("4800=5A", (cart.arena()[0], cart.get(0x6000)), (0x5A, 0x5A));
}

/// Boards that a cart can be, and writes to it that make it so.
const BOARDS: &[(Load, &[(u16, u8)])] = &[
    (P, &[]),
    (D, &[]),
    (U, &[]),
    (N175, &[]),
    (N340, &[]),
    (U, &[(0xC000, 0x01)]),
    (U, &[(0xE000, 0x80)]),
    (U, &[(0xE000, 0x80), (0x6000, 0x00)]),
];

/// L11, M5: a lent flag at 6000 goes in exactly the writes in which the Rust remaps; these give the window at E000 its pages again.
fn remapping_writes(t: &mut Checks) {
    let (mut remapped, mut kept) = (0, 0);
    for (load, writes) in BOARDS {
        let mut before = written(without(*load), writes);
        before.lend_prg(24, "0w*8");
        before.lend_prg(56, "0*8");
        for addr in (0x4800..=0xF800).step_by(0x800).flat_map(|first| [first, first + 0x7FF]) {
            for val in [0x00, 0x01, 0x40, 0x80, 0xFF] {
                let (mut ours, mut rust) = (before.clone(), before.clone());
                ours.put(addr, val);
                rust.chip.write_register(&mut rust.memory, addr, val);
                let remaps = rust.prg(56..64) == pages("25..32");
                *(if remaps { &mut remapped } else { &mut kept }) += 1;
                let what = format!("{:?} after {writes:04X?}, {addr:04X}={val:02X}", before.chip.board);
                t.eq(&what, ours.prg(24..32), pages(if remaps { "0*8" } else { "0w*8" }));
                t.eq(&what, ours.prg(32..64), rust.prg(32..64));
            }
        }
    }
    t.holds("both happen", remapped > 0 && kept > 0);
}

const LISTS: usize = 400;
const WRITES: usize = 60;

/// M5: lists of writes and resets. With PRG-RAM all is the Rust's; without it, all but PRG 24..31, which here are always unmapped, and the
/// zero page, which here is always zeros.
fn lists(t: &mut Checks) {
    let mut rng = Rng::new(2);
    let (mut with_ram, mut amended_163, mut amended_175) = (0, 0, 0);
    for list in 0..LISTS {
        let load = loads::accepted(&mut rng);
        let (mut ours, mut rust) = (loaded(load), Session::unamended(&load));
        let mut alike = alike_by_m5(&ours, &rust);
        for _ in 0..WRITES {
            both(&mut rng, &mut ours, &mut rust);
            alike &= alike_by_m5(&ours, &rust);
            let amended = load.prg_ram == 0 && rust.prg(24..32) == pages("0w*8");
            amended_163 += usize::from(amended && rust.chip.board == Board::Namco163);
            amended_175 += usize::from(amended && rust.chip.board == Board::Namco175);
        }
        with_ram += usize::from(load.prg_ram > 0);
        t.holds(&format!("list {list} of {load:?}"), alike);
    }
    t.holds("lists with PRG-RAM, states amended on a 163 and on a 175", with_ram > 0 && amended_163 > 0 && amended_175 > 0);
}

/// The same write, or the same reset, on ours and on the Rust by itself.
fn both(rng: &mut Rng, ours: &mut Session, rust: &mut Session) {
    if rng.once_in(16) {
        let kind = rng.below(2);
        let _ = (ours.reset(kind), rust.reset(kind));
        return;
    }
    let (addr, any) = (rng.address(0x4800, 0xFFFF), rng.byte());
    let val = if rng.once_in(2) { rng.pick(&[0x00, 0x01, 0x40, 0x80, 0xE0, 0xFF]) } else { any };
    ours.put(addr, val);
    rust.memory.prg_write(addr, val);
    rust.chip.write_register(&mut rust.memory, addr, val);
}

fn alike_by_m5(ours: &Session, rust: &Session) -> bool {
    let registers = |session: &Session| format!("{:?} {:?}", session.chip, session.chip.audio.ram.as_ref() as &[u8]);
    let others = |session: &Session| [session.prg(0..24), session.prg(32..64), session.chr(0..16)];
    let zero_page = PAGE as usize;
    let amended = match ours.layout().prg_ram {
        0 => ours.prg(24..32) == pages("0*8") && [pages("0*8"), pages("0w*8")].contains(&rust.prg(24..32)),
        _ => ours.prg(24..32) == rust.prg(24..32) && ours.arena()[..zero_page] == rust.arena()[..zero_page],
    };
    amended
        && registers(ours) == registers(rust)
        && others(ours) == others(rust)
        && ours.arena()[zero_page..] == rust.arena()[zero_page..]
        && ours.arena()[..zero_page].iter().all(|byte| *byte == 0)
}
