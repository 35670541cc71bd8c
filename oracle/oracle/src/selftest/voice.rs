// SPDX-License-Identifier: MIT OR Apache-2.0
//! Lends one sound channel's registers (S3).

use oracle::session::Session;

/// A channel's registers. The wave address is 0, so the nibble is put where the coming update reads.
#[derive(Default, Clone, Copy)]
pub struct Voice {
    pub frequency: u32,
    pub length_byte: u8,
    pub volume: u8,
    pub nibble: u8,
    pub phase: u32,
}

/// Sets channel `channel` of a session, and makes it the current one.
pub fn lend(session: &mut Session, channel: usize, voice: Voice) {
    let audio = &mut session.chip.audio;
    let base = 0x40 + 8 * channel;
    let [_, high, middle, low] = voice.frequency.to_be_bytes();
    audio.ram[base] = low;
    audio.ram[base + 2] = middle;
    audio.ram[base + 4] = voice.length_byte & 0xFC | high & 3;
    audio.ram[base + 6] = 0;
    audio.ram[base + 7] = audio.ram[base + 7] & 0xF0 | voice.volume;
    let length = 256 - u32::from(voice.length_byte & 0xFC);
    let place = ((voice.phase + voice.frequency) % (length << 16)) >> 16;
    let byte = &mut audio.ram[place as usize / 2];
    *byte = if place % 2 == 1 { *byte & 0x0F | voice.nibble << 4 } else { *byte & 0xF0 | voice.nibble };
    audio.raw_phase_ext_mut()[channel] = voice.phase;
    audio.current_channel = channel as i8;
}
