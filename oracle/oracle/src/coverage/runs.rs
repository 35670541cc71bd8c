// SPDX-License-Identifier: MIT OR Apache-2.0
//! Runs: lengths, rooms, rises, updates.

use super::{BOARDS, Counter, Played, View};
use crate::{
    session::{MOST_SAMPLES, RUN_LIMIT, samples_made},
    text::Call,
};

/// Lengths of accepted runs, each a class.
const LENGTHS: [u64; 6] = [0, 1, 14, 15, RUN_LIMIT - 1, RUN_LIMIT];
/// Lengths that 10 refuses, each a class: one above the limit, and some far above it.
const TOO_LONG: [u64; 4] = [RUN_LIMIT + 1, 40_000, 65_536, 65_537];

pub fn classes() -> Vec<String> {
    let mut classes: Vec<String> = [
        "run right in its low 32 bits refused by 10",
        "run refused by 10, without room, too",
        "room exact",
        "room larger",
        "room 0 and no sample",
        "room one short refused by 11",
        "room 0 refused by 11",
        "rise on the first of several clocks",
        "rise on the last of several clocks",
        "rise on the last clock of the longest run",
        "a run at or one below the limit ends a clock before the rise",
        "rise between",
        "rise on a single clock",
        "rise with the sound disabled",
        "counter moves without a rise",
        "counter stopped below 8000",
        "counter stopped at FFFF",
        "clocks with the sound disabled",
        "an update begun in one run ends in another",
        "clocks on another board with an update begun",
        "a run of 1986 samples",
        "a channel below 7 - c makes an update",
        "a phase is reduced by its length",
        "a mean that is no whole number",
        "level of a nibble below 8",
        "level of a nibble from 8 on",
    ]
    .map(String::from)
    .into();
    classes.extend(LENGTHS.map(|clocks| format!("run of {clocks}")));
    classes.extend(TOO_LONG.map(|clocks| format!("run of {clocks} refused by 10")));
    // An Unknown has no rise: a write to its counter makes it a 163.
    classes.extend(["163", "175", "340"].map(|board| format!("rise on a {board}")));
    classes.extend(BOARDS.map(|board| format!("run of {RUN_LIMIT} on a {board}")));
    classes.extend((0..8).map(|c| format!("sample other than 0 with c = {c}")));
    classes.extend((0..8).map(|channel| format!("update of channel {channel}")));
    classes
}

pub fn observe(played: &Played, counter: &mut Counter) {
    let (Call::Run { clocks, room }, Some(before), Some(after)) = (played.call, played.before, played.after) else { return };
    if played.refused(10) {
        counter.hit_if(TOO_LONG.contains(clocks), format!("run of {clocks} refused by 10"));
        counter.hit_if(u64::from(*clocks as u32) <= RUN_LIMIT, "run right in its low 32 bits refused by 10");
        counter.hit_if(*room == 0, "run refused by 10, without room, too");
    } else if played.refused(11) {
        let made = samples_made(&before.chip, *clocks);
        counter.hit_if(*room + 1 == made, "room one short refused by 11");
        counter.hit_if(*room == 0, "room 0 refused by 11");
    } else {
        lengths(played, *clocks, *room, before, counter);
        rises(played, *clocks, before, after, counter);
        sound(played, *clocks, before, after, counter);
        single_update(played, before, after, counter);
    }
}

fn number(played: &Played, place: usize) -> u64 {
    played.words()[place].parse().expect("a run answers made and rise")
}

fn lengths(played: &Played, clocks: u64, room: u64, before: &View, counter: &mut Counter) {
    let made = number(played, 0);
    counter.hit_if(LENGTHS.contains(&clocks), format!("run of {clocks}"));
    counter.hit_if(clocks == RUN_LIMIT, format!("run of {RUN_LIMIT} on a {}", before.board()));
    counter.hit_if(made == MOST_SAMPLES as u64, "a run of 1986 samples");
    counter.hit_if(made > 0 && room == made, "room exact");
    counter.hit_if(made > 0 && room > made, "room larger");
    counter.hit_if(clocks > 0 && made == 0 && room == 0, "room 0 and no sample");
}

fn rises(played: &Played, clocks: u64, before: &View, after: &View, counter: &mut Counter) {
    let rise = number(played, 1);
    if rise > 0 {
        counter.hit(format!("rise on a {}", before.board()));
        counter.never(before.chip.regs.irq_pending, "a rise with the line pending");
        counter.hit(match (rise, clocks) {
            (1, 1) => "rise on a single clock",
            (1, _) => "rise on the first of several clocks",
            (rise, clocks) if rise == clocks => "rise on the last of several clocks",
            _ => "rise between",
        });
        counter.hit_if(before.board() == "163" && before.chip.audio.disabled, "rise with the sound disabled");
        counter.hit_if(rise == RUN_LIMIT, "rise on the last clock of the longest run");
    } else if clocks > 0 {
        let start = before.chip.regs.irq_counter;
        counter.hit_if(start != after.chip.regs.irq_counter, "counter moves without a rise");
        counter.hit_if(start > 0 && start < 0x8000, "counter stopped below 8000");
        counter.hit_if(start == 0xFFFF, "counter stopped at FFFF");
        counter.hit_if(
            clocks >= RUN_LIMIT - 1 && after.chip.regs.irq_counter == 0xFFFE,
            "a run at or one below the limit ends a clock before the rise",
        );
    }
}

fn sound(played: &Played, clocks: u64, before: &View, after: &View, counter: &mut Counter) {
    let audio = &before.chip.audio;
    let sounding = before.board() == "163" && !audio.disabled;
    counter.hit_if(clocks > 0 && before.board() == "163" && audio.disabled, "clocks with the sound disabled");
    counter.hit_if(sounding && clocks < 15 && number(played, 0) > 0, "an update begun in one run ends in another");
    counter.hit_if(clocks > 0 && before.board() != "163" && audio.update_counter > 0, "clocks on another board with an update begun");
    let c = audio.ram[0x7F] >> 4 & 7;
    let heard = played.words()[2..].iter().any(|sample| *sample != "$00000000");
    counter.hit_if(heard, format!("sample other than 0 with c = {c}"));
    counter.hit_if(heard && after.chip.audio.out.fract() != 0.0, "a mean that is no whole number");
}

/// A run that made one update shows which channel made it, and how.
fn single_update(played: &Played, before: &View, after: &View, counter: &mut Counter) {
    if number(played, 0) != 1 {
        return;
    }
    let audio = &before.chip.audio;
    let channel = audio.current_channel as usize;
    let base = 0x40 + 8 * channel;
    let byte = |place: usize| u32::from(audio.ram[base + place]);
    let frequency = (byte(4) & 3) << 16 | byte(2) << 8 | byte(0);
    let length = (256 - (byte(4) & 0xFC)) << 16;
    let level = after.chip.audio.channel_out[channel];
    let volume = (byte(7) & 0x0F) as f32;
    counter.hit(format!("update of channel {channel}"));
    counter.hit_if(channel + usize::from(audio.ram[0x7F] >> 4 & 7) < 7, "a channel below 7 - c makes an update");
    counter.hit_if(audio.raw_phase_ext()[channel] + frequency >= length, "a phase is reduced by its length");
    counter.hit_if(volume > 0.0 && level >= 248.0 * volume, "level of a nibble below 8");
    counter.hit_if(volume > 0.0 && level > 0.0 && level <= 7.0 * volume, "level of a nibble from 8 on");
}
