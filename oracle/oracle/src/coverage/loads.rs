// SPDX-License-Identifier: MIT OR Apache-2.0
//! Loads: boards, sizes, refusals.

use super::{Counter, Played};
use crate::{
    layout::{BATTERY_LIMIT, CHR_LIMIT, CIRAM_LIMIT, Load, PAGE, PRG_RAM_LIMIT, PRG_ROM_LIMIT},
    player::NO_CARTRIDGE,
    text::Call,
};

const STARTS: [&str; 5] = ["163", "detecting 163", "detecting Unknown", "175", "340"];
const SUBMAPPERS: [u8; 5] = [0, 1, 2, 3, 255];
const PRG_ROM_PAGES: [u64; 14] = [0, 1, 3, 7, 8, 9, 12, 15, 16, 17, 20, 23, 24, 512];
const PRG_RAM_PAGES: [u64; 10] = [0, 1, 2, 3, 8, 9, 64, 65, 127, 128];
const CHR_PAGES: [u64; 5] = [0, 1, 3, 8, 256];
const RESERVES: [u64; 5] = [0, 1, 127, 128, 1024];

fn sizes(load: &Load) -> [(&'static str, u64, u64); 5] {
    [
        ("PRG-ROM", load.prg_rom, PRG_ROM_LIMIT),
        ("PRG-RAM", load.prg_ram, PRG_RAM_LIMIT),
        ("reserve", load.battery, BATTERY_LIMIT),
        ("CHR", load.chr, CHR_LIMIT),
        ("CIRAM", load.ciram, CIRAM_LIMIT),
    ]
}

pub fn classes() -> Vec<String> {
    let mut classes: Vec<String> = [
        "a call without a cartridge",
        "load accepted",
        "load over a cartridge",
        "load refused without a cartridge",
        "load refused over a cartridge",
        "load of an Unknown with a database entry",
        "load refused by 4",
        "load refused by 4, a size above its limit, too",
        "load refused by 4, right in its low 16 bits",
        "load refused by 5",
        "load refused by 5, no reserve, too",
        "load refused by 5, right in its low 32 bits",
        "load refused by 6",
        "load with CIRAM of 0 bytes",
    ]
    .map(String::from)
    .into();
    classes.extend(STARTS.map(|start| format!("load of a {start}")));
    classes.extend(SUBMAPPERS.iter().flat_map(|number| [19, 210].map(|mapper| format!("load of {mapper}.{number}"))));
    classes.extend([0, 1, 256].map(|entry| format!("load with database number {entry}")));
    classes.extend([0, 1, 8, 9].map(|flags| format!("load with flags & 09 = {flags:02X}")));
    classes.extend(PRG_ROM_PAGES.map(|pages| format!("load with PRG-ROM of {pages} pages")));
    classes.extend(PRG_RAM_PAGES.map(|pages| format!("load with PRG-RAM of {pages} pages")));
    classes.extend(CHR_PAGES.iter().flat_map(|pages| ["ROM", "RAM"].map(|kind| format!("load with CHR-{kind} of {pages} pages"))));
    classes.extend((1..=4).map(|pages| format!("load with CIRAM of {pages} pages")));
    classes.extend(RESERVES.map(|bytes| format!("load with a reserve of {bytes} bytes")));
    for (size, ..) in sizes(&Load::default()) {
        classes.push(format!("load with {size} at its limit"));
        classes.push(format!("load with {size} in no whole pages"));
        classes.push(format!("load refused by 5, {size} 1 above its limit"));
    }
    classes
}

pub fn observe(played: &Played, counter: &mut Counter) {
    counter.hit_if(played.answer == NO_CARTRIDGE, "a call without a cartridge");
    match played.call {
        Call::Load(load) if played.accepted() => accepted(played, load, counter),
        Call::Load(load) => refused(played, load, counter),
        _ => (),
    }
}

fn accepted(played: &Played, load: &Load, counter: &mut Counter) {
    let Some(after) = played.after else { return };
    let detecting = if after.chip.auto_detect_board { "detecting " } else { "" };
    counter.hit("load accepted");
    counter.hit(format!("load of a {detecting}{}", after.board()));
    counter.hit_if(played.before.is_some(), "load over a cartridge");
    counter.hit_if(after.board() == "Unknown" && load.in_database != 0, "load of an Unknown with a database entry");
    counter.hit(format!("load of {}.{}", load.mapper, load.submapper));
    counter.hit(format!("load with database number {}", load.in_database));
    counter.hit(format!("load with flags & 09 = {:02X}", load.flags & 9));
    accepted_sizes(played, load, counter);
}

fn accepted_sizes(played: &Played, load: &Load, counter: &mut Counter) {
    let Some(layout) = played.after.map(|after| after.layout) else { return };
    let kind = if layout.chr_ram { "RAM" } else { "ROM" };
    counter.hit_if(PRG_ROM_PAGES.contains(&layout.prg_rom), format!("load with PRG-ROM of {} pages", layout.prg_rom));
    counter.hit_if(PRG_RAM_PAGES.contains(&layout.prg_ram), format!("load with PRG-RAM of {} pages", layout.prg_ram));
    counter.hit_if(CHR_PAGES.contains(&layout.chr), format!("load with CHR-{kind} of {} pages", layout.chr));
    counter.hit(format!("load with CIRAM of {} pages", layout.ciram));
    counter.hit_if(load.ciram == 0, "load with CIRAM of 0 bytes");
    counter.hit_if(RESERVES.contains(&load.battery), format!("load with a reserve of {} bytes", load.battery));
    for (size, bytes, limit) in sizes(load) {
        counter.hit_if(bytes == limit, format!("load with {size} at its limit"));
        counter.hit_if(bytes % PAGE != 0, format!("load with {size} in no whole pages"));
    }
}

fn refused(played: &Played, load: &Load, counter: &mut Counter) {
    let place = if played.before.is_some() { "over" } else { "without" };
    counter.hit(format!("load refused {place} a cartridge"));
    let too_large = load.layout().is_none();
    if played.refused(4) {
        counter.hit("load refused by 4");
        counter.hit_if(too_large, "load refused by 4, a size above its limit, too");
        counter.hit_if(load.mapper != 19 && load.mapper as u16 == 19, "load refused by 4, right in its low 16 bits");
    }
    if played.refused(5) {
        counter.hit("load refused by 5");
        counter.hit_if(load.mapper == 19 && load.battery == 0, "load refused by 5, no reserve, too");
        for (size, bytes, limit) in sizes(load) {
            counter.hit_if(bytes > limit && u64::from(bytes as u32) <= limit, "load refused by 5, right in its low 32 bits");
            counter.hit_if(bytes == limit + 1, format!("load refused by 5, {size} 1 above its limit"));
        }
    }
    counter.hit_if(played.refused(6), "load refused by 6");
}
