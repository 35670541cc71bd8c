// SPDX-License-Identifier: MIT OR Apache-2.0
//! Results at the edges of the clauses C, on the Rust.

use crate::selftest::{
    bench::{D, Handy, N175, N340, P, U, loaded, number, pages, refusal, written},
    checks::Checks,
};
use oracle::{
    layout::Region,
    session::{MOST_SAMPLES, RUN_LIMIT, Ran, Session},
};
use tetanes::m019_namco163::Board;

pub fn check(t: &mut Checks) {
    limit(t);
    rises(t);
    rises_of_longest_runs(t);
    counter_writes(t);
    counter_sentence(t);
    runs(t);
    rooms(t);
    resets(t);
    stale_flag_after_reset(t);
    battery(t);
}

/// C4, C6: the longest run is a video frame, and what it makes at most.
fn limit(t: &mut Checks) {
    t.eq("clocks and samples", (RUN_LIMIT, MOST_SAMPLES), (29_781, 1986));
}

/// Counter and line lent, clocks, then rise, counter and line.
type Rise = (u16, bool, u64, (u64, u16, bool));

const RISES: &[Rise] = &[
    (0xFFF0, true, 100, (15, 0xFFFF, true)),
    (0xFFFE, false, 1, (1, 0xFFFF, true)),
    (0x8000, false, 32_766, (0, 0xFFFE, false)),
    (0x8000, false, 32_767, (32_767, 0xFFFF, true)),
    (0x8000, false, 29_781, (0, 0xF455, false)),
    (0x8BAA, false, 29_781, (29_781, 0xFFFF, true)),
    (0x8BA9, false, 29_781, (0, 0xFFFE, false)),
    (0xFFFD, false, 29_781, (2, 0xFFFF, true)),
    (0x7FFE, false, 29_781, (0, 0x7FFE, false)),
    (0xFFFF, false, 29_781, (0, 0xFFFF, false)),
    (0x0000, false, 29_781, (0, 0x0000, false)),
    (0x8000, false, 65_536, (32_767, 0xFFFF, true)),
    (0xFFFD, false, 65_536, (2, 0xFFFF, true)),
    (0x7FFE, false, 65_536, (0, 0x7FFE, false)),
    (0xFFFF, false, 65_536, (0, 0xFFFF, false)),
    (0x0000, false, 65_536, (0, 0x0000, false)),
];

/// C1, C5: a clock that makes the counter FFFF is a rise, whatever the line was; each board does the same.
fn rises(t: &mut Checks) {
    for (counter, pending, clocks, expected) in RISES {
        for load in [P, U, N175, N340] {
            let mut cart = loaded(load);
            cart.set_counter(*counter, *pending);
            let rise = cart.clocks_in_runs(*clocks).rise;
            let regs = &cart.chip.regs;
            t.eq(&format!("{counter:04X}, {clocks} clocks"), (rise, regs.irq_counter, regs.irq_pending), *expected);
        }
    }
    let mut cart = loaded(N340);
    cart.set_counter(0x8134, false);
    t.eq("340 with 8134", cart.clocks_in_runs(40_000), Ran { made: 0, rise: 32_459 });
}

/// C4, C5: what the longest run answers. A counter of 8000 ends in the run behind it; one of 8BAA on its last clock, one of 8BA9 on the
/// clock after it.
fn rises_of_longest_runs(t: &mut Checks) {
    let with = |counter| {
        let mut p = loaded(P);
        p.set_counter(counter, false);
        p
    };
    let counter = |p: &Session| (p.chip.regs.irq_counter, p.chip.regs.irq_pending);
    let mut p = with(0x8000);
    t.eq("8000, run 29,781", (p.clocks(29_781), counter(&p)), (Ran { made: 1985, rise: 0 }, (0xF455, false)));
    t.eq("then run 2,986", (p.clocks(2_986), counter(&p)), (Ran { made: 199, rise: 2_986 }, (0xFFFF, true)));
    let mut p = with(0x8BAA);
    t.eq("8BAA, run 29,781", (p.clocks(29_781), counter(&p)), (Ran { made: 1985, rise: 29_781 }, (0xFFFF, true)));
    let mut p = with(0x8BA9);
    t.eq("8BA9, run 29,781", (p.clocks(29_781), counter(&p)), (Ran { made: 1985, rise: 0 }, (0xFFFE, false)));
    t.eq("then one clock", (p.clocks(1), counter(&p)), (Ran { made: 0, rise: 1 }, (0xFFFF, true)));
}

/// C3: a write to either half clears the line; and what the counter does from there.
fn counter_writes(t: &mut Checks) {
    let pending = || {
        let mut p = loaded(P);
        p.set_counter(0xFFFF, true);
        p
    };
    let mut p = pending();
    p.put(0x5000, 0x00);
    t.eq("5000=00", (p.chip.regs.irq_counter, p.chip.regs.irq_pending), (0xFF00, false));
    t.eq("rise after 255", p.clocks_in_runs(65_536).rise, 255);
    let mut p = pending();
    p.put(0x5000, 0xFF);
    t.eq("5000=FF", (p.chip.regs.irq_counter, p.chip.regs.irq_pending), (0xFFFF, false));
    t.eq("no rise ever", (p.clocks_in_runs(65_536).rise, p.chip.regs.irq_pending), (0, false));
    let mut p = pending();
    p.put(0x5800, 0x7F);
    t.eq("5800=7F", (p.chip.regs.irq_counter, p.chip.regs.irq_pending), (0x7FFF, false));
    t.eq("stopped", (p.clocks_in_runs(65_536).rise, p.chip.regs.irq_counter), (0, 0x7FFF));
}

/// D3.2: cut runs and other calls do not move the rise.
fn counter_sentence(t: &mut Checks) {
    for n in [0, 1, 0x134, 0x7FF0, 0x7FFE] {
        for load in [P, D, U, N175, N340] {
            let mut cart = loaded(load);
            cart.set_counter(0x8000 + n, false);
            let before = 0x7FFF - u64::from(n) - 1;
            let mut first = cart.clocks(before / 2).rise;
            cart.puts(&[(0x6000, 1), (0xE000, 0x80), (0xC800, 0xE0), (0x8000, 0xE1), (0xF800, 0xFF), (0x4800, 1)]);
            first += cart.clocks(before - before / 2).rise;
            t.eq("until then none, and the line clear", (first, cart.chip.regs.irq_pending), (0, false));
            t.eq("then the rise", (cart.clocks(1).rise, cart.chip.regs.irq_pending), (1, true));
        }
    }
}

/// C4, C6: no clock, and the number of samples.
fn runs(t: &mut Checks) {
    let mut p = loaded(P);
    p.set_counter(0x8000, false);
    let before = p.whole();
    t.eq("n = 0", (p.clocks(0), p.whole()), (Ran { made: 0, rise: 0 }, before));
    for u in 0..15 {
        for clocks in [0, 1, 14 - u, 15 - u, 16, 29, 30, 29_780, 29_781] {
            let mut p = loaded(P);
            p.chip.audio.update_counter = u as u8;
            t.eq("floor((u + n) / 15)", p.clocks(clocks).made, (u + clocks) / 15);
        }
    }
    let mut d = written(D, &[(0xE000, 0x80)]);
    t.eq("not a 163", d.clocks(29_781).made, 0);
    let mut p = written(P, &[(0xE000, 0x40)]);
    t.eq("disabled", p.clocks(29_781).made, 0);
}

fn with_update_counter(update_counter: u8) -> Session {
    let mut p = loaded(P);
    p.chip.audio.update_counter = update_counter;
    p
}

/// N11: room for the samples and for one less; C4: places behind the samples keep what they held.
fn rooms(t: &mut Checks) {
    for (u, room, made) in [
        (0, 1984, Err(11)),
        (0, 1985, Ok(1985)),
        (8, 1985, Ok(1985)),
        (9, 1985, Err(11)),
        (9, 1986, Ok(1986)),
        (14, 1985, Err(11)),
        (14, 1986, Ok(1986)),
    ] {
        let mut p = with_update_counter(u);
        let before = p.whole();
        let mut samples = vec![7.0; room];
        let answer = number(p.run(29_781, &mut samples)).map(|ran| ran.made);
        t.eq(&format!("u = {u}, room {room}"), answer, made);
        if made.is_err() {
            t.eq("a refused run alters nothing", (p.whole(), samples), (before, vec![7.0; room]));
        }
    }
    let mut samples = [7.0; 4];
    t.eq("run 30", number(loaded(P).run(30, &mut samples)), Ok(Ran { made: 2, rise: 0 }));
    t.eq("the rest is untouched", samples, [0.0, 0.0, 7.0, 7.0]);
    let mut p = loaded(P);
    t.eq("fresh 163: run 10, room 0", refusal(p.run(10, &mut [])), 0);
    t.eq("once more", refusal(p.run(10, &mut [])), 11);
}

/// A cart with every field that a reset might touch set.
fn busy() -> Session {
    let mut d = loaded(D);
    d.puts(&[(0xF800, 0x85), (0x4800, 0x77), (0x8000, 0xE1), (0xC000, 0x05), (0xE800, 0xC2), (0xF000, 0x03)]);
    d.puts(&[(0x6000, 0x99), (0x5000, 0xFE), (0x5800, 0xFF), (0xE000, 0x41)]);
    d.clocks(1);
    d
}

/// C7, C8: what each kind of reset sets, and that the rest stays.
fn resets(t: &mut Checks) {
    for kind in [0, 1] {
        let before = busy();
        let mut after = before.clone();
        t.eq("reset", refusal(after.reset(kind)), 0);
        let (old, new) = (&before.chip, &after.chip);
        let audio = &new.audio;
        t.eq("sound RAM, address", (*audio.ram, audio.addr, audio.auto_increment), ([0; 128], 0, false));
        t.eq("turn", (audio.disabled, audio.update_counter, audio.current_channel), (false, 0, 7));
        t.eq("flags 8..11", new.nt_bank_enable[8..].to_vec(), vec![true; 4]);
        t.eq("banks 8..11", new.chr_banks[8..].to_vec(), vec![0; 4]);
        t.eq("slots 0..7", (&new.nt_bank_enable[..8], &new.chr_banks[..8]), (&old.nt_bank_enable[..8], &old.chr_banks[..8]));
        t.eq("written", new.prg_ram_written_to, false);
        t.eq("board, detecting, mirroring", (new.board, new.auto_detect_board, new.mirroring), (old.board, true, old.mirroring));
        t.eq("PRG banks", new.prg_banks, [0x01, 0x02, 0x03]);
        t.eq("entries", (after.prg(0..64), after.chr(0..16)), (before.prg(0..64), before.chr(0..16)));
        t.eq("arena", after.memory.raw_data(), before.memory.raw_data());
        t.eq("used length", *after.memory.raw_battery_ext_len(), 128);
        let regs = (new.regs.irq_counter, new.regs.irq_pending, new.regs.nt_select_lo, new.regs.nt_select_hi, new.regs.prg_ram_protect);
        let expected = if kind == 0 { (0xFFFF, true, true, true, 0x85) } else { (0, false, false, false, 0) };
        t.eq("Regs, kept by soft", regs, expected);
    }
}

/// C8: protect is 0 after a hard reset, but a 175's window has the flag until a write makes the tables anew.
fn stale_flag_after_reset(t: &mut Checks) {
    let mut cart = written(N175, &[(0xC000, 1)]);
    t.eq("hard reset", refusal(cart.reset(1)), 0);
    t.eq("still writable", cart.prg(24..32), pages("41w..48w"));
    cart.put(0x6001, 0x44);
    t.eq("stored", cart.get(0x6001), 0x44);
    cart.put(0x8000, 0x00);
    t.eq("remapped", cart.prg(24..32), pages("41..48"));
}

/// C9, on a 163 and on a 340 that was one at load; N12 is about the used bytes and not about the board.
fn battery(t: &mut Checks) {
    for writes in [&[] as &[(u16, u8)], &[(0xE000, 0x80)]] {
        let mut cart = written(D, writes);
        for place in 0..128 {
            cart.chip.audio.ram[place] = place as u8 + 1;
        }
        let mut arena = cart.memory.raw_data().clone();
        t.eq("sync", refusal(cart.sync_battery()), 0);
        for place in 0..128 {
            arena[50_176 + place] = place as u8 + 1;
        }
        t.eq("128 bytes and no other", cart.memory.raw_data(), &arena);

        t.eq("fill", refusal(cart.fill(Region::Battery, &[0x5C; 128])), 0);
        let mut expected = cart.clone();
        expected.chip.audio.ram.as_mut().fill(0x5C);
        t.eq("restore", refusal(cart.restore_battery()), 0);
        t.eq("the sound RAM and nothing else", cart.whole(), expected.whole());
    }
    let mut u = written(U, &[(0x4800, 1)]);
    t.eq("U as a 163", u.chip.board, Board::Namco163);
    t.eq("its sync and restore", (refusal(u.sync_battery()), refusal(u.restore_battery())), (12, 12));
}
