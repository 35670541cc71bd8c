// SPDX-License-Identifier: MIT OR Apache-2.0
//! Results at the edges of the clauses S, on the Rust.

use crate::selftest::{
    bench::{D, Handy, P, loaded, written},
    checks::Checks,
    voice::{Voice, lend},
};
use oracle::session::Session;
use tetanes::{m019_namco163::Board, mapper::Map};

pub fn check(t: &mut Checks) {
    updates(t);
    turns(t);
    lent_channels(t);
    phases(t);
    nibbles(t);
    levels(t);
    channel_count_later(t);
    quotients(t);
    divisions(t);
    outputs(t);
    port(t);
}

/// S1, C2: clocks while the sound is off leave the update counter.
fn updates(t: &mut Checks) {
    let mut p = loaded(P);
    t.eq("run 7", p.clocks(7).made, 0);
    p.put(0xE000, 0x40);
    t.eq("disabled", (p.clocks(100).made, p.chip.audio.update_counter), (0, 7));
    p.put(0xE000, 0x00);
    t.eq("run 8", (p.clocks(8).made, p.chip.audio.update_counter), (1, 0));
}

/// The channels that make the next updates.
fn turn(session: &mut Session, updates: usize) -> Vec<i8> {
    let mut channels = Vec::new();
    for _ in 0..updates {
        channels.push(session.chip.audio.current_channel);
        session.clocks(15);
    }
    channels
}

/// S2: turns with 8, 3, 2 and 1 channels, and with fewer channels from then on.
fn turns(t: &mut Checks) {
    for (c, channels) in [(7, vec![7, 6, 5, 4, 3, 2, 1, 0, 7]), (2, vec![7, 6, 5, 7]), (1, vec![7, 6, 7, 6]), (0, vec![7, 7, 7])] {
        let mut p = loaded(P);
        p.chip.audio.ram[0x7F] = c << 4;
        t.eq(&format!("c = {c}"), turn(&mut p, channels.len()), channels);
    }
    let mut p = loaded(P);
    p.chip.audio.ram[0x7F] = 0x70;
    turn(&mut p, 4);
    t.eq("channel 3", p.chip.audio.current_channel, 3);
    p.chip.audio.ram[0x7F] = 0x10;
    t.eq("c set to 1", turn(&mut p, 2), vec![3, 7]);
}

/// S2, S7: a current channel below 7 - c is updated all the same and gives way to 7; `out` does not count it.
fn lent_channels(t: &mut Checks) {
    let mut p = loaded(P);
    lend(&mut p, 0, Voice { frequency: 0x1_2345, volume: 15, nibble: 0xF, ..Voice::default() });
    p.chip.audio.channel_out[7] = 17.0;
    p.clocks(15);
    let audio = &p.chip.audio;
    t.eq("its update", (audio.channel_out[0], audio.raw_phase_ext()[0]), (105.0, 0x1_2345));
    t.eq("then 7", (audio.current_channel, audio.out), (7, 17.0));
}

/// S4: the phase, also where the length gets less.
fn phases(t: &mut Checks) {
    let mut p = loaded(P);
    lend(&mut p, 7, Voice { frequency: 0x3_FFFF, length_byte: 0xFC, ..Voice::default() });
    let mut came = vec![p.chip.audio.raw_phase_ext()[7]];
    for _ in 0..3 {
        p.clocks(15);
        came.push(p.chip.audio.raw_phase_ext()[7]);
    }
    t.eq("length 4, frequency 3FFFF", came, vec![0, 0x3_FFFF, 0x3_FFFE, 0x3_FFFD]);

    let mut p = loaded(P);
    lend(&mut p, 7, Voice { frequency: 0x3_FFFF, ..Voice::default() });
    p.clocks(60);
    t.eq("length 256, four updates", p.chip.audio.raw_phase_ext()[7], 0xF_FFFC);
    // S3: the byte has two bits of the frequency, too, which stay.
    p.chip.audio.ram[0x7C] |= 0xFC;
    p.clocks(15);
    t.eq("then length 4", p.chip.audio.raw_phase_ext()[7], 0x3_FFFB);

    let mut p = loaded(P);
    p.clocks(150);
    t.eq("frequency 0", *p.chip.audio.raw_phase_ext(), [0; 8]);
}

/// Channel 7's output after an update with a wave address and volume 1, from sound RAM set by `set`.
fn heard(wave_address: u8, frequency_high: u8, set: &[(usize, u8)]) -> f32 {
    let mut p = loaded(P);
    p.chip.audio.ram[0x7C] = frequency_high;
    p.chip.audio.ram[0x7E] = wave_address;
    p.chip.audio.ram[0x7F] = 1;
    for (place, byte) in set {
        p.chip.audio.ram[*place] = *byte;
    }
    p.clocks(15);
    p.chip.audio.channel_out[7]
}

/// S5: both halves of a byte, the new phase, a sample in a register's byte, and an x that wraps.
fn nibbles(t: &mut Checks) {
    t.eq("even, low", heard(0x20, 0, &[(0x10, 0xA9)]), 1.0);
    t.eq("odd, high", heard(0x21, 0, &[(0x10, 0xA9)]), 2.0);
    t.eq("at the new phase", heard(0x20, 1, &[(0x10, 0xA9)]), 2.0);
    t.eq("x = FF: the high half of byte 7F", heard(0xFF, 0, &[(0x7F, 0xF1)]), 7.0);
    t.eq("the sum wraps at 256", heard(0xFF, 1, &[(0x00, 0x0B)]), 3.0);
}

/// S6, for every volume and nibble.
fn levels(t: &mut Checks) {
    for volume in 0..16u8 {
        for nibble in 0..16u8 {
            let mut p = loaded(P);
            lend(&mut p, 7, Voice { volume, nibble, ..Voice::default() });
            p.clocks(15);
            let level = (u32::from(nibble) + 248) % 256 * u32::from(volume);
            t.eq(&format!("nibble {nibble}, volume {volume}"), p.chip.audio.channel_out[7], level as f32);
        }
    }
}

/// S7: `out` is made in an update, so a new c shows there and not before.
fn channel_count_later(t: &mut Checks) {
    let mut p = loaded(P);
    lend(&mut p, 7, Voice { volume: 15, ..Voice::default() });
    p.clocks(15);
    p.puts(&[(0xF800, 0x7F), (0x4800, 0x1F)]);
    t.eq("the write", p.chip.audio.out, 3720.0);
    p.clocks(14);
    t.eq("before the update", p.chip.audio.out, 3720.0);
    p.clocks(1);
    t.eq("the update", p.chip.audio.out, 1860.0);
}

/// S7: `out`, by bits, of channel outputs with channel 7 silent: c, outputs of channels 0..7.
fn quotients(t: &mut Checks) {
    for (c, outputs, bits) in [
        (2, [9.0, 9.0, 9.0, 9.0, 9.0, 1.0, 0.0, 0.0], 0x3EAA_AAAB),
        (2, [9.0, 9.0, 9.0, 9.0, 9.0, 1.0, 1.0, 0.0], 0x3F2A_AAAB),
        (2, [9.0, 9.0, 9.0, 9.0, 9.0, 3720.0, 1.0, 0.0], 0x449B_0AAB),
        (4, [9.0, 9.0, 9.0, 0.0, 1.0, 0.0, 0.0, 0.0], 0x3E4C_CCCD),
        (6, [9.0, 1.0, 0.0, 0.0, 0.0, 0.0, 0.0, 0.0], 0x3E12_4925),
        (6, [9.0, 0.0, 3720.0, 0.0, 0.0, 0.0, 0.0, 0.0], 0x4404_DB6E),
    ] {
        let mut p = loaded(P);
        p.chip.audio.ram[0x7F] = c << 4;
        p.chip.audio.channel_out = outputs;
        p.clocks(15);
        t.eq(&format!("c = {c}, {outputs:?}"), p.chip.audio.out.to_bits(), bits);
    }
    let mut p = loaded(P);
    p.clocks(15);
    t.eq("the sum's -0 never shows", p.chip.audio.out.to_bits(), 0);
}

/// S7: one division, of 2 to 8 channels. The f64 quotient, rounded, is the f32 quotient; with 2, 4 or 8 no bit is lost.
fn divisions(t: &mut Checks) {
    for c in 1..8u8 {
        let mut came = Vec::new();
        let mut expected = Vec::new();
        let mut exact = true;
        for level in (0..=3825u16).step_by(17) {
            let mut p = loaded(P);
            p.chip.audio.ram[0x7F] = c << 4;
            p.chip.audio.channel_out[7 - usize::from(c)] = f32::from(level);
            p.clocks(15);
            came.push(p.chip.audio.out);
            let quotient = f64::from(level) / f64::from(c + 1);
            expected.push(quotient as f32);
            exact &= f64::from(p.chip.audio.out) == quotient;
        }
        t.eq(&format!("levels divided by {}", c + 1), came, expected);
        t.eq("exact quotients", exact, (c + 1).is_power_of_two());
    }
}

/// S8: `output` is one product.
fn outputs(t: &mut Checks) {
    t.eq("0.0001", 0.0001f32.to_bits(), 0x38D1_B717);
    for (out, bits) in
        [(1.0 / 3.0, 0x380B_CF65), (1.0 / 7.0, 0x376F_ACAD), (105.0, 0x3C2C_0831), (3720.0, 0x3EBE_76C8), (3825.0, 0x3EC3_D70A)]
    {
        let mut p = loaded(P);
        p.chip.audio.out = out;
        t.eq(&format!("output of {out}"), p.chip.output().to_bits(), bits);
        t.eq("the product", (0.0001f32 * out).to_bits(), bits);
    }
}

/// S10, S11: writes and reads go on to the next address where auto-increment is set, a 340's reads too.
fn port(t: &mut Checks) {
    let p = written(P, &[(0xF800, 0xFF), (0x4800, 0x5A)]);
    t.eq("F800=FF, 4800=5A", (p.chip.audio.ram[0x7F], p.chip.audio.addr), (0x5A, 0));
    let p = written(P, &[(0xF800, 0x7F), (0x4800, 0x5A), (0x4FFF, 0x5B)]);
    t.eq("without auto", (p.chip.audio.ram[0x7F], p.chip.audio.addr), (0x5B, 0x7F));
    let mut d = written(D, &[(0xF800, 0xFE), (0xE000, 0x80)]);
    d.get(0x4800);
    t.eq("a 340", (d.chip.board, d.chip.audio.addr), (Board::Namco340, 0x7F));
    d.get(0x4FFF);
    t.eq("7F goes to 0", d.chip.audio.addr, 0);
}
