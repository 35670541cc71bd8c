// SPDX-License-Identifier: MIT OR Apache-2.0
//! Sounds around the choices of levels and sums (S13 to S17): channels at the ends of their levels, channels that cancel each other,
//! silent ones, and what resets and the battery leave of it.

use super::{Action, battery, reset};
use crate::{generate::Generator, layout::Region, session::SOUND_RAM, text::Call};
use tetanes::m019_namco163::Board;

pub const LEVEL_ACTIONS: &[Action] = &[loudest, loudest, cancelling, cancelling, silent, mixed, mixed, over_a_reset];

/// A channel's nibble and volume.
type Voice = (u8, u8);

/// 128 bytes of sound RAM in which each channel plays its one nibble at every phase: its wave is four nibbles long and they are alike.
fn sound_ram(voices: [Voice; 8], c: u8) -> Vec<u8> {
    let mut ram = vec![0; SOUND_RAM];
    for (channel, (nibble, volume)) in voices.into_iter().enumerate() {
        ram[2 * channel..2 * channel + 2].fill(nibble << 4 | nibble);
        let base = 0x40 + 8 * channel;
        (ram[base + 4], ram[base + 6], ram[base + 7]) = (0xFC, 4 * channel as u8, volume);
    }
    ram[0x7F] |= c << 4;
    ram
}

/// Plays c + 1 of the voices for a turn or more, and looks at the image. The reserve is the way into sound RAM; without one the port
/// changes channel 7 alone.
fn play(g: &mut Generator, voices: [Voice; 8], c: u8) {
    let ram = sound_ram(voices, c);
    if g.region_len(Region::Battery) > 0 {
        g.say(Call::Fill(Region::Battery, ram));
        g.say(Call::RestoreBattery);
    } else {
        let last = ram[SOUND_RAM - 1];
        g.put(0xF800, 0x7F);
        g.put(0x4800, last);
    }
    if g.loaded().chip.board != Board::Namco163 {
        g.put(0xF800, 0x40);
    }
    if g.loaded().chip.audio.disabled {
        g.put(0xE000, 0x05);
    }
    // The current channel may be one that is in use no more, and then gives way to channel 7.
    for clocks in [15, 15 * (u64::from(c) + 1), g.rng.pick(&[0, 14, 15, 30])] {
        g.run_clocks(clocks);
    }
    if g.rng.once_in(2) {
        g.say(Call::Image(Some(308)));
    }
}

fn some_channels(g: &mut Generator) -> u8 {
    let any = g.rng.below(8) as u8;
    g.rng.pick(&[7, 7, 7, any])
}

/// Every channel at one end of its level.
fn loudest(g: &mut Generator) {
    let nibble = g.rng.pick(&[0x0, 0x0, 0x7, 0x7, 0xF, 0xF, 0x8]);
    let c = some_channels(g);
    play(g, [(nibble, 15); 8], c);
}

/// Neighbouring channels of which one takes away what the other adds, where levels are signed.
fn cancelling(g: &mut Generator) {
    let (nibble, volume) = (g.rng.between(1, 7) as u8, g.rng.between(1, 15) as u8);
    let c = g.rng.pick(&[1, 3, 5, 7, 2]);
    play(g, std::array::from_fn(|channel| (if channel % 2 == 0 { nibble } else { 16 - nibble }, volume)), c);
}

/// S16: a nibble below 8 at volume 0.
fn silent(g: &mut Generator) {
    let (nibble, c) = (g.rng.below(8) as u8, some_channels(g));
    play(g, [(nibble, 0); 8], c);
}

fn mixed(g: &mut Generator) {
    let voices = std::array::from_fn(|_| (g.rng.below(16) as u8, g.rng.pick(&[0, 1, 2, 7, 14, 15])));
    let c = g.rng.below(8) as u8;
    play(g, voices, c);
}

/// S17: a sound, a reset or a battery call, an image, and a sound again.
fn over_a_reset(g: &mut Generator) {
    mixed(g);
    let between: Action = g.rng.pick(&[reset, reset, battery]);
    between(g);
    g.say(Call::Image(Some(308)));
    mixed(g);
}
