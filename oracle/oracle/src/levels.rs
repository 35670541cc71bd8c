// SPDX-License-Identifier: MIT OR Apache-2.0
//! Levels and sums by a load's choice (S6, S7, S13 to S15): they are put in place of the Rust's behind each clock of its that made an
//! update. What is not chosen otherwise has to be the Rust's own, bit by bit, and each update tests that.

use crate::options::Options;
use tetanes::m019_namco163::Audio;

/// Behind an update of this channel.
pub fn amend(audio: &mut Audio, channel: usize, options: Options) {
    let (level, out) = (audio.channel_out[channel], audio.out);
    audio.channel_out[channel] = self::level(nibble(audio, channel), volume(audio, channel), options.signed_levels) as f32;
    audio.out = mixed(audio, options.plain_sum);
    if !options.signed_levels {
        assert_eq!(audio.channel_out[channel].to_bits(), level.to_bits(), "a wrapping level is the Rust's");
        assert!(options.plain_sum || audio.out.to_bits() == out.to_bits(), "an average of wrapping levels is the Rust's");
    }
}

/// S6, S14: the volume times the nibble less 8, a whole number; that difference has its sign, or is a byte.
pub fn level(nibble: u8, volume: u8, signed: bool) -> i32 {
    let difference = i32::from(nibble) - 8;
    i32::from(volume) * if signed { difference } else { difference.rem_euclid(256) }
}

/// S5: what the channel's last update has read, at the phase that it has left.
fn nibble(audio: &Audio, channel: usize) -> u8 {
    let wave = u32::from(audio.ram[0x46 + 8 * channel]);
    let place = ((audio.raw_phase_ext()[channel] >> 16) + wave) as usize % 256;
    let byte = audio.ram[place / 2];
    if place % 2 == 1 { byte >> 4 } else { byte & 0x0F }
}

fn volume(audio: &Audio, channel: usize) -> u8 {
    audio.ram[0x47 + 8 * channel] & 0x0F
}

/// S7, S15: of the channels in use, from +0 on.
fn mixed(audio: &Audio, plain_sum: bool) -> f32 {
    let c = usize::from(audio.ram[0x7F] >> 4 & 7);
    let sum = audio.channel_out[7 - c..].iter().fold(0.0, |sum, output| sum + output);
    if plain_sum { sum } else { sum / (c + 1) as f32 }
}
