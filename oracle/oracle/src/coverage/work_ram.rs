// SPDX-License-Identifier: MIT OR Apache-2.0
//! PRG-RAM of more than 64 pages (R1, H12): loads, images of both lengths, and calls on what lies beyond the first 64.

use super::{Counter, Played, View};
use crate::{
    image::{LEN, OPTIONS_LEN},
    layout::{LONG_PRG_RAM, Load, PAGE, Region},
    text::Call,
};

const BOARDS: [&str; 5] = ["163", "detecting 163", "detecting Unknown", "175", "340"];
const COUNTS: [&str; 2] = ["65 to 127 pages of PRG-RAM", "128 pages of PRG-RAM"];
const OPTIONS: [&str; 2] = ["no option", "an option"];
/// With each count.
const EACH: [&str; 6] = [
    "a fill of PRG-RAM",
    "a region peek beyond the first 64",
    "a region write beyond the first 64",
    "sram",
    "a store at 6000",
    "a load with CHR-RAM",
];
/// The first arena page that no layout of 64 pages of PRG-RAM has.
const FAR_PAGE: u64 = 838;
const ONCE: [&str; 4] = [
    "an entry of a page from 838 on",
    "load of 130,049 bytes of PRG-RAM",
    "load of 130,048 bytes of PRG-RAM",
    "load of 131,072 bytes of PRG-RAM",
];

pub fn classes() -> Vec<String> {
    let mut classes: Vec<String> = ONCE.map(String::from).into();
    for count in COUNTS {
        classes.extend(BOARDS.map(|board| format!("load of a {board}, {count}")));
        classes.extend(EACH.map(|what| format!("{what}, {count}")));
        classes.extend(OPTIONS.map(|option| format!("load with {option}, {count}")));
        classes.extend(OPTIONS.map(|option| format!("image of {OPTIONS_LEN} bytes, {option}, {count}")));
        for option in OPTIONS {
            let refused = if count == COUNTS[1] || option == OPTIONS[1] { " refused by 1" } else { "" };
            classes.push(format!("image of {LEN} bytes{refused}, {option}, {count}"));
        }
    }
    classes
}

pub fn observe(played: &Played, counter: &mut Counter) {
    let Some(after) = played.after else { return };
    let pages = after.layout.prg_ram;
    counter.never(pages > LONG_PRG_RAM, "a state of more than 128 pages of PRG-RAM");
    if pages <= 64 {
        return;
    }
    let count = COUNTS[usize::from(pages == LONG_PRG_RAM)];
    let option = OPTIONS[usize::from(after.options.any())];
    if let Call::Image(length) = played.call {
        return image(played, length.unwrap_or(LEN as u64), option, count, counter);
    }
    if !played.accepted() {
        return;
    }
    far_entries(after, counter);
    let far = |offset: u64| offset % (pages * PAGE) >= 64 * PAGE;
    match played.call {
        Call::Load(load) => loaded(after, load, option, count, counter),
        Call::Fill(Region::PrgRam, _) => counter.hit(format!("a fill of PRG-RAM, {count}")),
        Call::RegionPeek(Region::PrgRam, offset) => counter.hit_if(far(*offset), format!("a region peek beyond the first 64, {count}")),
        Call::RegionWrite(Region::PrgRam, offset, _) => {
            counter.hit_if(far(*offset), format!("a region write beyond the first 64, {count}"));
        }
        Call::Sram => sram(played, after, count, counter),
        Call::Write(addr, _) if (0x6000..0x8000).contains(addr) => {
            let stored = played.before.is_some_and(|before| before.prg_entry(*addr).is_writable());
            counter.hit_if(stored, format!("a store at 6000, {count}"));
        }
        _ => (),
    }
}

fn loaded(after: &View, load: &Load, option: &str, count: &str, counter: &mut Counter) {
    let detecting = if after.chip.auto_detect_board { "detecting " } else { "" };
    counter.hit(format!("load of a {detecting}{}, {count}", after.board()));
    counter.hit(format!("load with {option}, {count}"));
    counter.hit_if(after.layout.chr_ram, format!("a load with CHR-RAM, {count}"));
    for (bytes, class) in [(130_049, ONCE[1]), (130_048, ONCE[2]), (131_072, ONCE[3])] {
        counter.hit_if(load.prg_ram == bytes, class);
    }
}

/// N1: of the two lengths.
fn image(played: &Played, length: u64, option: &str, count: &str, counter: &mut Counter) {
    if [LEN, OPTIONS_LEN].contains(&(length as usize)) {
        let refused = if played.accepted() { "" } else { " refused by 1" };
        counter.hit(format!("image of {length} bytes{refused}, {option}, {count}"));
        counter.never(!played.accepted() && !played.refused(1), "an image that is refused by another number");
    }
}

/// M13: all pages and the used bytes behind them.
fn sram(played: &Played, after: &View, count: &str, counter: &mut Counter) {
    let start = after.layout.first_page(Region::PrgRam) * PAGE;
    let length = after.layout.prg_ram * PAGE + after.used as u64;
    counter.hit(format!("sram, {count}"));
    counter.never(played.answer != format!("ok {start} {length}"), "an sram that does not hold all pages");
}

/// L13: the window at 6000 shows the first eight pages on a 163 and a 175.
fn far_entries(after: &View, counter: &mut Counter) {
    let far = |page: &tetanes::memory::Page| page.offset() as u64 >= FAR_PAGE * PAGE;
    counter.hit_if(after.prg.iter().chain(&after.chr).any(far), ONCE[0]);
    let first = after.layout.first_page(Region::PrgRam) * PAGE;
    let shown = after.prg[24].offset() as u64;
    counter.never(shown != 0 && shown != first, "a window at 6000 that shows other pages than the first eight");
}
