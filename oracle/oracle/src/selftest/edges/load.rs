// SPDX-License-Identifier: MIT OR Apache-2.0
//! Results at the edges of the clauses L, on the Rust; the table of L11 has a file of its own.

use crate::selftest::{
    bench::{D, Handy, N175, N340, NO_CHR, NO_PRG, P, U, changed, loaded, pages, refusal, written},
    checks::Checks,
};
use oracle::layout::Load;
use tetanes::{
    m019_namco163::{Board, Namco163},
    ppu::Mirroring,
};

pub fn check(t: &mut Checks) {
    fresh_chip(t);
    flags(t);
    starts(t);
    fresh_tables(t);
    store_comes_first(t);
    reads(t);
    selects(t);
    entries_by_registers(t);
    ciram_banks(t);
    always_remaps(t);
    from_163_to_210(t);
    settled(t);
    reset_opens_detection(t);
    unknown(t);
    stores_by_board(t);
    fixed_175(t);
    sound_is_kept(t);
    write_answer(t);
}

/// L1, S12: the fields after a load; a submapper is kept on mapper 19, too.
fn fresh_chip(t: &mut Checks) {
    let chip = loaded(P).chip;
    t.eq("counter, protect", (chip.regs.irq_counter, chip.regs.prg_ram_protect), (0, 0));
    t.eq("line, selects", (chip.regs.irq_pending, chip.regs.nt_select_lo, chip.regs.nt_select_hi), (false, false, false));
    t.eq("slots", (chip.nt_bank_enable, chip.chr_banks), ([false; 12], [0; 12]));
    t.eq("PRG banks, written", (chip.prg_banks, chip.prg_ram_written_to), ([0; 3], false));
    t.eq("sound RAM", *chip.audio.ram, [0; 128]);
    t.eq("sound address", (chip.audio.addr, chip.audio.auto_increment, chip.audio.disabled), (0, false, false));
    t.eq("sound turn", (chip.audio.update_counter, chip.audio.current_channel), (0, 7));
    t.eq("sound out", (chip.audio.channel_out, chip.audio.out.to_bits()), ([0.0; 8], 0));
    t.eq("phases", *chip.audio.raw_phase_ext(), [0; 8]);
    t.eq("submapper of a 19", loaded(Load { submapper: 255, ..P }).chip.submapper_num, 255);
}

/// L2: with bit 3 the others do not count. A 163 has the mirroring in its field and does not show it (L13).
fn flags(t: &mut Checks) {
    use Mirroring::{FourScreen, Horizontal, Vertical};
    for (flags, mirroring) in
        [(0x00, Horizontal), (0x01, Vertical), (0x08, FourScreen), (0x09, FourScreen), (0xF6, Horizontal), (0xF7, Vertical)]
    {
        for load in [P, U, N175, N340] {
            t.eq(&format!("flags {flags:02X}"), loaded(Load { flags, ..load }).chip.mirroring, mirroring);
        }
    }
    t.eq("a 163 does not use it", loaded(Load { flags: 1, ..P }).chr(8..16), pages("33*8"));
}

/// L3, L4, L5: the board, whether it detects, and how much of the reserve is used.
fn starts(t: &mut Checks) {
    use Board::{Namco163, Namco175, Namco340, Unknown};
    for (mapper, submapper, in_database, start) in [
        (19, 0, 1, (Namco163, false, 128)),
        (19, 0, 256, (Namco163, false, 128)),
        (19, 0, 1 << 32, (Namco163, false, 128)),
        (19, 0, 0, (Namco163, true, 128)),
        (19, 1, 0, (Namco163, true, 128)),
        (210, 1, 0, (Namco175, false, 0)),
        (210, 1, 1, (Namco175, false, 0)),
        (210, 2, 0, (Namco340, false, 0)),
        (210, 2, 1, (Namco340, false, 0)),
        (210, 0, 0, (Unknown, true, 0)),
        (210, 0, 1, (Unknown, true, 0)),
        (210, 3, 1, (Unknown, true, 0)),
        (210, 255, 0, (Unknown, true, 0)),
    ] {
        let cart = loaded(Load { mapper, submapper, in_database, ..P });
        let came = (cart.chip.board, cart.chip.auto_detect_board, *cart.memory.raw_battery_ext_len());
        t.eq(&format!("{mapper}.{submapper}, database {in_database}"), came, start);
    }
    t.eq("no later call changes the used length", *written(U, &[(0x4800, 0)]).memory.raw_battery_ext_len(), 0);
}

/// L1, L13: the tables after a load.
fn fresh_tables(t: &mut Checks) {
    let p = loaded(P);
    t.eq("P, PRG", p.prg(0..64), pages("0*24,41w..48w,1..8,1..8,1..8,25..32"));
    t.eq("P, CHR", p.chr(0..16), pages("33*16"));
    let u = loaded(U);
    t.eq("U, PRG 24..31", u.prg(24..32), pages("0*8"));
    t.eq("U, CHR", u.chr(0..16), pages("33*8,50w,50w,51w,51w,50w,50w,51w,51w"));
    t.eq("175, PRG 24..31", loaded(N175).prg(24..32), pages("41..48"));
}

/// L7: by the table before the write, whatever the address; the register step follows.
fn store_comes_first(t: &mut Checks) {
    let mut p = loaded(P);
    p.lend_prg(56, "41w..48w");
    p.put(0xE000, 0x02);
    let arena = p.memory.raw_data();
    t.eq("PRG-RAM lent at E000: PRG-RAM byte 0", arena[41 * 1024], 0x02);
    t.holds("no ROM byte changes", arena[1024..41 * 1024].iter().all(|byte| *byte == 0));
    t.eq("E000 shows 25..32 again", p.prg(56..64), pages("25..32"));

    let mut p = loaded(P);
    p.lend_prg(32, "1w..8w");
    let answer = p.put(0x8000, 0x02);
    t.eq("8000 lent writable: ROM byte 0", p.memory.raw_data()[1024], 0x02);
    t.eq("CHR 0", p.chr(0..1), pages("35"));
    t.eq("PRG answer", answer.prg, changed(0xFF_0000_0000, 8, 32));
    t.eq("CHR answer", answer.chr, changed(0x0001, 1, 0));

    let mut p = loaded(P);
    p.lend_prg(18, "41w");
    p.put(0x4800, 0x5A);
    t.eq("PRG-RAM lent at 4800", (p.memory.raw_data()[41 * 1024], p.chip.audio.ram[0]), (0x5A, 0x5A));
}

/// L8, S10: the same on all boards, and with memory shown at 4800..5FFF as well.
fn reads(t: &mut Checks) {
    for load in [P, D, U, N175, N340] {
        let mut cart = loaded(load);
        cart.lend_prg(18, "41*6");
        cart.memory.raw_data_mut()[41 * 1024..42 * 1024].fill(0x99);
        cart.chip.regs.irq_counter = 0x1234;
        cart.chip.audio.ram[0x7F] = 0x56;
        (cart.chip.audio.addr, cart.chip.audio.auto_increment) = (0x7F, true);
        for (addr, byte) in [(0x5000, 0x34), (0x57FF, 0x34), (0x5800, 0x12), (0x5FFF, 0x12), (0x4800, 0x56), (0x4FFF, 0x56)] {
            let before = cart.whole();
            t.eq(&format!("peek {addr:04X}"), cart.peek(addr).ok(), Some(byte));
            t.holds("a peek changes nothing", cart.whole() == before);
            if addr >= 0x5000 {
                t.eq(&format!("read {addr:04X}"), cart.get(addr), byte);
                t.holds("another read changes nothing", cart.whole() == before);
            }
        }
        t.eq("the read of 4FFF moves the address", (cart.get(0x4FFF), cart.chip.audio.addr), (0x56, 0));
        cart.chip.audio.auto_increment = false;
        t.eq("without auto it stays", (cart.get(0x4800), cart.chip.audio.addr), (0, 0));
        cart.memory.raw_data_mut()[32 * 1024 + 1023] = 0x44;
        cart.lend_prg(63, "32");
        t.eq("from 6000 on the page", cart.get(0xFFFF), 0x44);
    }
}

/// L12: a select counts in the write of a slot; setting it later moves no entry.
fn selects(t: &mut Checks) {
    let mut p = written(P, &[(0x8000, 0xE1), (0xE800, 0x40)]);
    t.eq("CHR 0 stays", p.chr(0..1), pages("51w"));
    p.put(0x8000, 0xE1);
    t.eq("CHR 0 written again", p.chr(0..1), pages("34"));
}

/// L13: what the tables held before does not count, but for PRG 0..23, which stay.
fn entries_by_registers(t: &mut Checks) {
    let mut p = loaded(P);
    p.lend_prg(0, "1..51,0*13");
    p.chip.chr_banks = [0, 1, 2, 3, 4, 5, 6, 9, 1, 0, 7, 8];
    p.chip.nt_bank_enable = [3, 8, 9].into_iter().fold([false; 12], |mut flags, slot| {
        flags[slot] = true;
        flags
    });
    p.chip.prg_banks = [2, 1, 6];
    p.remap();
    t.eq("PRG", p.prg(0..64), pages("1..24,41w..48w,17..24,9..16,17..24,25..32"));
    t.eq("CHR", p.chr(0..16), pages("33,34,35,51w,37,38,39,34,51w,50w,40,33,51w,50w,40,33"));
    p.chip.board = Board::Namco340;
    p.remap();
    t.eq("PRG of a 340", p.prg(24..32), pages("0*8"));
    t.eq("CHR of a 340", p.chr(0..16), pages("33,34,35,51w,37,38,39,34,50w,50w,51w,51w,50w,50w,51w,51w"));
}

/// M1, L13: a lent bank under a CIRAM flag, by the number of CIRAM pages.
fn ciram_banks(t: &mut Checks) {
    for (ciram, entry) in [(1, "50w"), (2, "51w"), (3, "52w"), (4, "51w")] {
        let mut cart = loaded(Load { ciram: ciram * 1024, ..P });
        (cart.chip.nt_bank_enable[0], cart.chip.chr_banks[0]) = (true, 5);
        cart.remap();
        t.eq(&format!("bank 5 on {ciram} pages"), cart.chr(0..1), pages(entry));
    }
}

/// L14: a write of the bank that is there already shows what a reset left to be mapped (C8); L11 names the writes that map nothing.
fn always_remaps(t: &mut Checks) {
    let mut p = written(P, &[(0xC000, 0x05)]);
    t.eq("CHR 8", p.chr(8..9), pages("38"));
    let entries = (p.prg(0..64), p.chr(0..16));
    t.eq("soft reset", refusal(p.reset(0)), 0);
    t.eq("all entries stay", (p.prg(0..64), p.chr(0..16)), entries.clone());
    p.puts(&[(0x4800, 0), (0x5000, 0), (0x5800, 0), (0x6000, 0), (0xF800, 0)]);
    t.eq("they stay still", (p.prg(0..64), p.chr(0..16)), entries);
    let answer = p.put(0xF000, 0x00);
    t.eq("F000=00", p.chr(8..16), pages("50w*8"));
    t.eq("masks", (answer.prg, answer.chr), (NO_PRG, changed(0xFF00, 8, 8)));

    let mut fixed = loaded(N340);
    fixed.lend_prg(32, "0*8");
    let chip = format!("{:?}", fixed.chip);
    fixed.put(0xC000, 0x07);
    t.eq("a fixed 340 stores nothing at C000", format!("{:?}", fixed.chip), chip);
    t.eq("and still remaps", fixed.prg(32..40), pages("1..8"));
}

/// L11: D as a 340, a 175 and a 163 again. Slots 0..7 that show CIRAM go on showing it until they are written (T13).
fn from_163_to_210(t: &mut Checks) {
    let mut d = written(D, &[(0x8000, 0xE1), (0xB800, 0xE0), (0xC000, 0xE1), (0xC800, 0x05)]);
    let answer = d.put(0xE000, 0x80);
    t.eq("board, mirroring", (d.chip.board, d.chip.mirroring), (Board::Namco340, Mirroring::Horizontal));
    t.eq("CHR", d.chr(0..16), pages("51w,33*6,50w,50w,50w,51w,51w,50w,50w,51w,51w"));
    t.eq("PRG 24..31", d.prg(24..32), pages("0*8"));
    t.eq("answer", (answer.prg, answer.chr), (changed(0xFF00_0000, 8, 24), changed(0xFF00, 8, 8)));
    d.put(0xC000, 0x03);
    t.eq("C000=03", (d.chip.board, d.chip.regs.prg_ram_protect), (Board::Namco175, 0x03));
    t.eq("C000=03", d.prg(24..32), pages("41w..48w"));
    d.put(0x8000, 0xE1);
    t.eq("8000=E1", d.chr(0..1), pages("34"));
    let answer = d.put(0xC800, 0xE0);
    t.eq("C800=E0", d.chip.board, Board::Namco163);
    t.eq("CHR 8, 9", d.chr(8..10), pages("51w,50w"));
    t.eq("mask", answer.chr, changed(0xDD00, 6, 8));

    let d = written(D, &[(0xE000, 0x40)]);
    t.eq("one write makes no 175 of a 163", (d.chip.board, d.chip.audio.disabled), (Board::Namco163, true));
    let p = written(P, &[(0xE000, 0xC0)]);
    t.eq("P: E000=C0", (p.chip.board, p.chip.audio.disabled, p.chip.prg_banks[0]), (Board::Namco163, true, 0));
}

/// L6: a written board that becomes a 340 stays one. L11: it takes sound data and the counter, and nothing at C000..DFFF and F800..FFFF.
fn settled(t: &mut Checks) {
    let mut d = written(D, &[(0x6000, 1), (0xE000, 0x80)]);
    t.eq("340", d.chip.board, Board::Namco340);
    d.puts(&[(0x4800, 0x11), (0x5000, 0x22), (0x5800, 0x33)]);
    t.eq("sound byte and counter", (d.chip.audio.ram[0], d.chip.regs.irq_counter), (0x11, 0x3322));
    let chip = format!("{:?}", d.chip);
    d.puts(&[(0xC000, 0xE1), (0xC800, 0xE1), (0xDFFF, 0xE1), (0xF800, 0xFF)]);
    t.eq("writes to C000..DFFF and F800", format!("{:?}", d.chip), chip);
    t.eq("still a 340", d.chip.board, Board::Namco340);
}

/// C7, L6: the written flag is clear after a reset, so a detecting 340 can be another board again.
fn reset_opens_detection(t: &mut Checks) {
    for kind in [0, 1] {
        let mut u = written(U, &[(0xE000, 0x80), (0x6000, 0x01), (0xC000, 0x01)]);
        t.eq("settled", u.chip.board, Board::Namco340);
        t.eq("reset", refusal(u.reset(kind)), 0);
        u.put(0xC000, 0x01);
        t.eq("after the reset", (u.chip.board, u.chip.regs.prg_ram_protect), (Board::Namco175, 0x01));
    }
}

/// L11: one write to a fresh U each.
fn unknown(t: &mut Checks) {
    let u = written(U, &[(0x8000, 0xE1)]);
    t.eq("8000=E1", (u.chip.board, u.chr(0..1)), (Board::Unknown, pages("34")));
    let u = written(U, &[(0xC000, 0x01)]);
    t.eq("C000=01", (u.chip.board, u.prg(24..32)), (Board::Namco175, pages("41w..48w")));
    let u = written(U, &[(0xC800, 0xE1)]);
    t.eq("C800=E1", (u.chip.board, u.chr(9..10)), (Board::Namco163, pages("51w")));
    let mut u = loaded(U);
    let answer = u.put(0xE000, 0x40);
    t.eq("E000=40", (u.chip.board, u.chip.mirroring), (Board::Namco340, Mirroring::Vertical));
    t.eq("E000=40", answer.chr, changed(0x6600, 4, 9));
    t.eq("E000=3F", written(U, &[(0xE000, 0x3F)]).chip.board, Board::Unknown);
    let regs = written(U, &[(0xE800, 0xC1)]).chip.regs;
    t.eq("E800=C1", (regs.nt_select_lo, regs.nt_select_hi), (false, false));
    let chip = written(U, &[(0xF800, 0x81)]).chip;
    t.eq("F800=81", (chip.board, chip.audio.addr, chip.audio.auto_increment), (Board::Namco163, 1, true));
    t.eq("F800=81", chip.regs.prg_ram_protect, 0x81);
}

/// L11, M9: the written flag is set on each board, the byte stored where the window has the flag (L13).
fn stores_by_board(t: &mut Checks) {
    for (what, cart, stored) in [
        ("163", loaded(P), true),
        ("Unknown", loaded(U), false),
        ("340", loaded(N340), false),
        ("175, protect 0", loaded(N175), false),
        ("175, protect 1", written(N175, &[(0xC000, 1)]), true),
    ] {
        let mut cart = cart;
        cart.put(0x6000, 0x55);
        t.holds(what, cart.chip.prg_ram_written_to);
        t.eq(what, cart.memory.raw_data()[41 * 1024], if stored { 0x55 } else { 0 });
        t.eq(what, cart.memory.raw_data()[0], 0);
    }
}

/// L11: a 175 that does not detect; and the protect byte of a 163 as it becomes a 340 and then a 175.
fn fixed_175(t: &mut Checks) {
    let mut cart = loaded(N175);
    cart.put(0xDFFF, 0xFE);
    t.eq("DFFF=FE", (cart.chip.regs.prg_ram_protect, cart.prg(24..32)), (0xFE, pages("41..48")));
    cart.put(0xC800, 0xE1);
    t.eq("C800=E1", (cart.chip.regs.prg_ram_protect, cart.prg(24..32)), (0xE1, pages("41w..48w")));
    cart.put(0xE000, 0xC5);
    t.eq("E000=C5", (cart.chip.prg_banks[0], cart.chip.mirroring), (0x05, Mirroring::Horizontal));
    let d = written(D, &[(0xF800, 0x41), (0xE000, 0xBF)]);
    t.eq("a 163's protect byte", (d.chip.board, d.chip.regs.prg_ram_protect), (Board::Namco340, 0x41));
    let d = written(D, &[(0xF800, 0x41), (0xE000, 0xBF), (0xC7FF, 0x00)]);
    t.eq("never serves a 175", (d.chip.board, d.prg(24..32)), (Board::Namco175, pages("41..48")));
}

fn sound_fields(chip: &Namco163) -> (usize, bool, bool, u8) {
    (chip.audio.addr, chip.audio.auto_increment, chip.audio.disabled, chip.audio.update_counter)
}

/// C2: a 340 has no sound clock; the sound's fields stay as they were on the 163, for when it is one again.
fn sound_is_kept(t: &mut Checks) {
    let mut d = written(D, &[(0xF800, 0x85)]);
    d.clocks(9);
    d.put(0xE000, 0xC0);
    t.eq("as a 340", (d.chip.board, sound_fields(&d.chip)), (Board::Namco340, (5, true, false, 9)));
    t.eq("no sound clock", (d.clocks(100).made, d.chip.audio.update_counter), (0, 9));
    d.put(0x5000, 0);
    t.eq("goes on as a 163", (d.chip.board, d.clocks(6).made), (Board::Namco163, 1));
    let d = written(D, &[(0xE000, 0x40), (0xE000, 0x80)]);
    t.eq("disabled is kept", (d.chip.board, d.chip.audio.disabled), (Board::Namco340, true));
}

/// L15, R6: a change of the flag shows in the mask; bits 0..23 of the PRG mask are 0 from any state.
fn write_answer(t: &mut Checks) {
    let mut cart = loaded(N175);
    let answer = cart.put(0xC000, 0x01);
    t.eq("175: C000=01", (answer.prg, answer.chr), (changed(0xFF00_0000, 8, 24), NO_CHR));
    let answer = cart.put(0xC000, 0x01);
    t.eq("again", (answer.prg, answer.chr), (NO_PRG, NO_CHR));
    let mut p = loaded(P);
    p.lend_prg(0, "1w..24w");
    for addr in (0x4800..=0xFFFF).step_by(0x400) {
        t.eq("PRG bits 0..23 are never set", p.put(addr, 0x80).prg.mask & 0xFF_FFFF, 0);
    }
}
