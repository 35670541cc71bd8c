// SPDX-License-Identifier: MIT OR Apache-2.0
//! When a state is in range: R9, and R11 of its levels.

use crate::{
    layout::{Layout, PAGE},
    options::Options,
};
use std::ops::RangeInclusive;
use tetanes::{
    m019_namco163::{Audio, Namco163},
    memory::{Memory, Page},
};

const UNUSED_BIT: u32 = 1 << 30;
const WRITABLE_BIT: u32 = 1 << 31;

/// R11: the ends of an output and of `out`.
pub struct Ends {
    pub output: RangeInclusive<f32>,
    pub out: RangeInclusive<f32>,
}

impl Ends {
    pub fn of(options: Options) -> Self {
        let (least, greatest) = if options.signed_levels { (-120.0, 105.0) } else { (0.0, 3825.0) };
        let channels = if options.plain_sum { 8.0 } else { 1.0 };
        Self { output: least..=greatest, out: least * channels..=greatest * channels }
    }
}

pub fn in_range(chip: &Namco163, memory: &Memory, options: Options) -> bool {
    let layout = Layout::of(memory);
    let mut entries = memory.prg_pages().iter().chain(memory.chr_pages());
    chip_in_range(chip)
        && audio_in_range(&chip.audio, &Ends::of(options))
        && layout_in_range(&layout)
        && used_in_range(*memory.raw_battery_ext_len(), &layout)
        && entries.all(|page| entry_in_range(*page, &layout))
}

fn chip_in_range(chip: &Namco163) -> bool {
    matches!(chip.mapper_num, 19 | 210) && chip.prg_banks.iter().all(|bank| *bank <= 63)
}

fn audio_in_range(audio: &Audio, ends: &Ends) -> bool {
    audio.addr <= 127
        && audio.update_counter <= 14
        && (0..=7).contains(&audio.current_channel)
        && audio.channel_out.iter().all(|level| level_in_range(*level, &ends.output) && level.fract() == 0.0)
        && level_in_range(audio.out, &ends.out)
        && audio.raw_phase_ext().iter().all(|phase| *phase < 1 << 24)
}

/// NaN fails the comparison; negative zero would pass it and is refused by its sign.
fn level_in_range(level: f32, ends: &RangeInclusive<f32>) -> bool {
    ends.contains(&level) && (level != 0.0 || level.is_sign_positive())
}

fn layout_in_range(layout: &Layout) -> bool {
    layout.prg_rom <= 512 && layout.prg_ram <= 128 && layout.battery <= 1 && layout.chr <= 256 && (1..=4).contains(&layout.ciram)
}

fn used_in_range(used: usize, layout: &Layout) -> bool {
    used == 0 || (used == Audio::RAM_SIZE && layout.battery == 1)
}

fn entry_in_range(page: Page, layout: &Layout) -> bool {
    let raw = *page.raw();
    let offset = u64::from(raw & !WRITABLE_BIT & !UNUSED_BIT);
    raw & UNUSED_BIT == 0 && offset % PAGE == 0 && offset < layout.arena_len()
}
