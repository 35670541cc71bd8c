// SPDX-License-Identifier: MIT OR Apache-2.0
//! Options of loads (L19, S13), and by the choice of levels and sums: updates, outputs, `out`, samples, resets, images.

use super::{Counter, Played, View};
use crate::{
    image::{LEN, LENGTHS},
    layout::LONG_PRG_RAM,
    options::{CHOICES, Options},
    range::Ends,
    text::Call,
};

const BOARDS: [&str; 5] = ["163", "detecting 163", "detecting Unknown", "175", "340"];
/// Calls behind which the sound is another, and the options stay.
const KEEPING: [&str; 3] = ["soft reset", "hard reset", "restored battery"];
/// Once for each choice.
const EACH: [&str; 9] = [
    "level of a nibble below 8",
    "level of a nibble above 8",
    "level of a nibble of 8",
    "a nibble below 8 at volume 0",
    "`out` at its greatest",
    "`out` of 0 from outputs that are 0",
    "a channel not in use is updated",
    "outputs that differ",
    "a run of several turns",
];
/// Where levels are signed.
const SIGNED: [&str; 6] = [
    "`out` at its least",
    "`out` of 0 from outputs that are not",
    "a negative sample",
    "a positive sample",
    "outputs of both signs",
    "an image with a negative output",
];
/// Where `out` is an average.
const AVERAGE: [&str; 1] = ["`out` that is no whole number"];

pub fn classes() -> Vec<String> {
    let mut classes = Vec::new();
    for options in Options::all() {
        let byte = options.byte();
        classes.extend(BOARDS.map(|board| format!("load of a {board}, options {byte:02X}")));
        classes.extend(KEEPING.map(|call| format!("{call} of a board with outputs, options {byte:02X}")));
        classes.push(format!("samples other than 0, options {byte:02X}"));
        classes.push(format!("load with options {byte:02X}"));
        classes.push(format!("image of 308 bytes, options {byte:02X}"));
        classes.push(format!("image of 307 bytes{}, options {byte:02X}", if options.any() { " refused by 1" } else { "" }));
    }
    for (index, choice) in CHOICES.into_iter().enumerate() {
        let (signed, average) = (index >= 2, index % 2 == 0);
        classes.extend(EACH.map(|class| format!("{class}, {choice}")));
        classes.extend(SIGNED.iter().filter(|_| signed).map(|class| format!("{class}, {choice}")));
        classes.extend(AVERAGE.iter().filter(|_| average).map(|class| format!("{class}, {choice}")));
        classes.extend((0..8).map(|c| format!("sample other than 0 with c = {c}, {choice}")));
        classes.extend((0..8).map(|channel| format!("update of channel {channel}, {choice}")));
    }
    classes
}

pub fn observe(played: &Played, counter: &mut Counter) {
    let Some(after) = played.after else { return };
    let byte = after.options.byte();
    let keeping = match played.call {
        Call::Image(length) => return image(played, after, length.unwrap_or(LEN as u64), counter),
        _ if !played.accepted() => return,
        Call::Load(load) => return loaded(after, load.options(), counter),
        Call::Run { .. } => return run(played, after, counter),
        Call::ResetSoft => "soft reset",
        Call::ResetHard => "hard reset",
        Call::RestoreBattery => "restored battery",
        _ => return,
    };
    let sounds = played.before.is_some_and(|before| before.chip.audio.channel_out != [0.0; 8]);
    counter.hit_if(sounds, format!("{keeping} of a board with outputs, options {byte:02X}"));
}

fn loaded(after: &View, options: Options, counter: &mut Counter) {
    let detecting = if after.chip.auto_detect_board { "detecting " } else { "" };
    counter.hit(format!("load with options {:02X}", after.options.byte()));
    counter.hit(format!("load of a {detecting}{}, options {:02X}", after.board(), after.options.byte()));
    counter.never(after.options != options, "a load with other options than it was told");
}

/// Of the two lengths; one that cannot hold the options is refused. Where it is PRG-RAM that needs the longer, H12's rows have it.
fn image(played: &Played, after: &View, length: u64, counter: &mut Counter) {
    let for_its_ram = !after.options.any() && after.layout.prg_ram == LONG_PRG_RAM;
    if for_its_ram || !LENGTHS.contains(&(length as usize)) {
        return;
    }
    let refused = if played.accepted() { "" } else { " refused by 1" };
    counter.hit(format!("image of {length} bytes{refused}, options {:02X}", after.options.byte()));
    let negative = after.chip.audio.channel_out.iter().any(|output| *output < 0.0);
    counter.hit_if(played.accepted() && negative, format!("an image with a negative output, {}", CHOICES[after.options.choice()]));
}

fn run(played: &Played, after: &View, counter: &mut Counter) {
    let Some(before) = played.before else { return };
    let (audio, ends) = (&after.chip.audio, Ends::of(after.options));
    let zeros = audio.channel_out.iter().chain([&audio.out]).filter(|level| **level == 0.0);
    counter.never(zeros.clone().any(|zero| zero.is_sign_negative()), "an output or `out` of -0");
    counter.never(!ends.out.contains(&audio.out), "an `out` beyond its ends");
    counter.never(audio.channel_out.iter().any(|output| !ends.output.contains(output)), "an output beyond its ends");
    let samples = played.words()[2..].to_vec();
    counter.never(samples.contains(&"$80000000"), "a sample of -0");
    if !samples.is_empty() {
        heard(&samples, before, after, counter);
        mixed(after, &ends, counter);
    }
    if samples.len() == 1 {
        update(before, after, counter);
    }
}

fn heard(samples: &[&str], before: &View, after: &View, counter: &mut Counter) {
    let choice = CHOICES[after.options.choice()];
    let c = usize::from(before.chip.audio.ram[0x7F] >> 4 & 7);
    counter.hit_if(samples.len() > 2 * c + 2, format!("a run of several turns, {choice}"));
    if samples.iter().all(|sample| *sample == "$00000000") {
        return;
    }
    counter.hit(format!("samples other than 0, options {:02X}", after.options.byte()));
    counter.hit(format!("sample other than 0 with c = {c}, {choice}"));
    if after.options.signed_levels {
        let negative = samples.iter().any(|sample| sample.starts_with("$B"));
        counter.hit(format!("a {} sample, {choice}", if negative { "negative" } else { "positive" }));
    }
}

/// `out` and the outputs of the channels in use.
fn mixed(after: &View, ends: &Ends, counter: &mut Counter) {
    let (audio, choice) = (&after.chip.audio, CHOICES[after.options.choice()]);
    let used = &audio.channel_out[7 - usize::from(audio.ram[0x7F] >> 4 & 7)..];
    let silent = used.iter().all(|output| *output == 0.0);
    counter.hit_if(audio.out == *ends.out.end(), format!("`out` at its greatest, {choice}"));
    counter.hit_if(audio.out == 0.0 && silent, format!("`out` of 0 from outputs that are 0, {choice}"));
    counter.hit_if(audio.out.fract() != 0.0, format!("`out` that is no whole number, {choice}"));
    counter.hit_if(used.iter().any(|output| *output != used[0]), format!("outputs that differ, {choice}"));
    if after.options.signed_levels {
        let some = |sign: f32| used.iter().any(|output| output * sign > 0.0);
        counter.hit_if(audio.out == *ends.out.start(), format!("`out` at its least, {choice}"));
        counter.hit_if(audio.out == 0.0 && !silent, format!("`out` of 0 from outputs that are not, {choice}"));
        counter.hit_if(some(1.0) && some(-1.0), format!("outputs of both signs, {choice}"));
    }
}

/// A run of one update shows the level that it made.
fn update(before: &View, after: &View, counter: &mut Counter) {
    let (audio, choice) = (&after.chip.audio, CHOICES[after.options.choice()]);
    let channel = before.chip.audio.current_channel as usize;
    let volume = f32::from(audio.ram[0x47 + 8 * channel] & 0x0F);
    let place = ((audio.raw_phase_ext()[channel] >> 16) + u32::from(audio.ram[0x46 + 8 * channel])) as usize % 256;
    let nibble = audio.ram[place / 2] >> (place % 2 * 4) & 0x0F;
    counter.hit(format!("update of channel {channel}, {choice}"));
    counter.hit_if(channel + usize::from(audio.ram[0x7F] >> 4 & 7) < 7, format!("a channel not in use is updated, {choice}"));
    counter.hit(match (nibble, volume == 0.0) {
        (0..8, true) => format!("a nibble below 8 at volume 0, {choice}"),
        (0..8, false) => format!("level of a nibble below 8, {choice}"),
        (8, _) => format!("level of a nibble of 8, {choice}"),
        _ => format!("level of a nibble above 8, {choice}"),
    });
}
