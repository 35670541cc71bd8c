// SPDX-License-Identifier: MIT OR Apache-2.0
//! The cases T1 to T12, on the Rust.

use super::{
    bench::{Handy, P, loaded, number, pages, try_load, written},
    checks::{Check, Checks},
    voice::{Voice, lend},
};
use oracle::{layout::Load, session::Ran};

pub const CASES: [(&str, Check); 12] = [
    ("T1: the window at E000 begins with page 25; after E000 = 3F so does the one at 8000", last_bank),
    ("T2: after 8000 = E1 CHR entry 0 is CIRAM page 51", ciram),
    ("T3: after E800 = 40 and 8000 = E1 it is CHR page 34", ciram_selected_off),
    ("T4: after 8000 = DF it is page 40", chr),
    ("T5: from counter FFFE the line is pending after one clock", pends),
    ("T6: from counter 8000 it is clear after 32,766 clocks, and pending after one more", longest),
    ("T7: neither counter 7FFE nor FFFF moves", still),
    ("T8: length byte FC or FF is length 4; 00 or 03 is 256", lengths),
    ("T9: at volume 15 nibbles 0, 7, 8, F have levels 3720, 3825, 0, 105", levels),
    ("T10: of outputs 1, 0, 0 of three channels `out` has bits 3EAAAAAB", thirds),
    ("T11: 14 clocks after a load make no update, 15 make one", first_update),
    ("T12: a reserve of 1 loads as mapper 19; of 0 it is refused by N6", reserve),
];

fn last_bank(t: &mut Checks) {
    let mut p = loaded(P);
    t.eq("PRG 56", p.prg(56..57), pages("25"));
    p.put(0xE000, 0x3F);
    t.eq("PRG 32", p.prg(32..33), pages("25"));
}

fn ciram(t: &mut Checks) {
    let p = written(P, &[(0x8000, 0xE1)]);
    t.eq("CHR 0", p.chr(0..1), pages("51w"));
    t.eq("flag and bank", (p.chip.nt_bank_enable[0], p.chip.chr_banks[0]), (true, 0x01));
}

fn ciram_selected_off(t: &mut Checks) {
    let p = written(P, &[(0xE800, 0x40), (0x8000, 0xE1)]);
    t.eq("CHR 0", p.chr(0..1), pages("34"));
    t.eq("flag and bank", (p.chip.nt_bank_enable[0], p.chip.chr_banks[0]), (false, 0xE1));
}

fn chr(t: &mut Checks) {
    t.eq("CHR 0", written(P, &[(0x8000, 0xDF)]).chr(0..1), pages("40"));
}

/// Counter, line and the clock of the rise after so many clocks from a lent counter with the line clear.
fn after(counter: u16, clocks: u64) -> (u16, bool, u64) {
    let mut p = loaded(P);
    p.set_counter(counter, false);
    let Ran { rise, .. } = p.clocks_in_runs(clocks);
    (p.chip.regs.irq_counter, p.chip.regs.irq_pending, rise)
}

fn pends(t: &mut Checks) {
    t.eq("FFFE", after(0xFFFE, 1), (0xFFFF, true, 1));
}

fn longest(t: &mut Checks) {
    t.eq("32,766 clocks", after(0x8000, 32_766), (0xFFFE, false, 0));
    t.eq("32,767 clocks", after(0x8000, 32_767), (0xFFFF, true, 32_767));
    let mut p = loaded(P);
    p.set_counter(0x8000, false);
    let early = (0..32_766).filter(|_| p.clocks(1).rise > 0).count();
    t.eq("32,766 single clocks", (early, p.chip.regs.irq_counter, p.chip.regs.irq_pending), (0, 0xFFFE, false));
    t.eq("and one more", (p.clocks(1).rise, p.chip.regs.irq_counter, p.chip.regs.irq_pending), (1, 0xFFFF, true));
}

fn still(t: &mut Checks) {
    for counter in [0x7FFE, 0xFFFF] {
        t.eq("one clock", after(counter, 1), (counter, false, 0));
        t.eq("65,536 clocks", after(counter, 65_536), (counter, false, 0));
    }
}

/// A length L shows in the phase: L times 65,536 is reduced to 0, one less stays.
fn lengths(t: &mut Checks) {
    for (byte, length) in [(0xFC, 4), (0xFF, 4), (0x00, 256), (0x03, 256u32)] {
        // At least 1, so that the phase before stays in range.
        let frequency = u32::from(byte & 3) << 16 | 1;
        for (sum, reduced) in [(length << 16, 0), ((length << 16) - 1, (length << 16) - 1)] {
            let mut p = loaded(P);
            lend(&mut p, 7, Voice { length_byte: byte, frequency, phase: sum - frequency, ..Voice::default() });
            p.clocks(15);
            t.eq(&format!("length byte {byte:02X}, sum {sum:X}"), p.chip.audio.raw_phase_ext()[7], reduced);
        }
    }
}

fn levels(t: &mut Checks) {
    for (nibble, level) in [(0x0, 3720.0), (0x7, 3825.0), (0x8, 0.0), (0xF, 105.0)] {
        let mut p = loaded(P);
        lend(&mut p, 7, Voice { volume: 15, nibble, ..Voice::default() });
        p.clocks(15);
        t.eq(&format!("nibble {nibble:X}"), p.chip.audio.channel_out[7], level);
    }
}

fn thirds(t: &mut Checks) {
    let mut p = loaded(P);
    p.chip.audio.channel_out = [9.0, 9.0, 9.0, 9.0, 9.0, 1.0, 0.0, 0.0];
    p.chip.audio.ram[0x7F] = 0x20;
    p.clocks(15);
    t.eq("`out`", p.chip.audio.out.to_bits(), 0x3EAA_AAAB);
}

fn first_update(t: &mut Checks) {
    let mut p = loaded(P);
    t.eq("14 clocks", p.samples(14), vec![]);
    t.eq("update counter", p.chip.audio.update_counter, 14);
    let mut p = loaded(P);
    t.eq("15 clocks", p.samples(15), vec![0]);
    t.eq("update counter", p.chip.audio.update_counter, 0);
}

fn reserve(t: &mut Checks) {
    let pages_of = |battery| number(try_load(Load { battery, ..P })).map(|session| session.layout().total_pages());
    t.eq("reserve 1", pages_of(1), Ok(52));
    t.eq("reserve 0", pages_of(0), Err(6));
}
