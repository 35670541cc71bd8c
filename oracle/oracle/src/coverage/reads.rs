// SPDX-License-Identifier: MIT OR Apache-2.0
//! Reads, peeks and the addresses of all CPU calls: edges of every range, the sound port, CHR.

use super::{BOARDS, Counter, Played, View};
use crate::text::Call;

/// First and last address of each register range, each 800 long.
fn edges() -> impl Iterator<Item = u16> {
    (0x4800..=0xF800).step_by(0x800).flat_map(|first: u16| [first, first + 0x7FF])
}

pub fn classes() -> Vec<String> {
    let mut classes: Vec<String> = [
        "peek with auto set",
        "read of 4800..4FFF without auto",
        "read goes from 7F to 0",
        "write goes from 7F to 0",
        "counter's low byte read, not 0",
        "counter's high byte read, not 0",
        "sound byte read, not 0",
        "CHR address of 4000 or more",
        "CHR write into CHR-RAM",
        "CHR write into CIRAM",
        "CHR write dropped by CHR-ROM",
        "CHR write dropped by the zero page",
        "CHR read of the zero page, written",
    ]
    .map(String::from)
    .into();
    for name in ["read", "peek", "write", "preview"] {
        classes.extend(edges().map(|addr| format!("{name} {addr:04X}")));
        classes.push(format!("{name} refused at 47FF"));
        classes.push(format!("{name} refused below 47FF"));
    }
    classes.extend(["163", "175", "340"].map(|board| format!("read moves the sound address of a {board}")));
    classes.extend(["PRG-ROM", "PRG-RAM"].map(|shown| format!("read of {shown}, not 0")));
    classes.extend(["CHR-ROM", "CHR-RAM", "CIRAM"].map(|shown| format!("CHR read of {shown}, not 0")));
    classes.extend(BOARDS.map(|board| format!("{board}: 6000 reads the zero page, written")));
    classes.extend((0..16).flat_map(|entry| [format!("CHR read in entry {entry}"), format!("CHR write in entry {entry}")]));
    classes
}

pub fn observe(played: &Played, counter: &mut Counter) {
    let (Some(before), Some(after)) = (played.before, played.after) else { return };
    match played.call {
        Call::Read(addr) => {
            address("read", played, *addr, counter);
            if played.accepted() {
                read(played, before, after, *addr, counter);
            }
        }
        Call::Peek(addr) => {
            address("peek", played, *addr, counter);
            counter.hit_if((0x4800..0x5000).contains(addr) && before.chip.audio.auto_increment, "peek with auto set");
        }
        Call::Write(addr, _) => {
            address("write", played, *addr, counter);
            let wraps = before.chip.audio.addr == 0x7F && after.chip.audio.addr == 0;
            counter.hit_if((0x4800..0x5000).contains(addr) && wraps, "write goes from 7F to 0");
        }
        Call::Preview(addr, _) => address("preview", played, *addr, counter),
        Call::ChrRead(addr) => chr_read(played, before, *addr, counter),
        Call::ChrWrite(addr, _) => chr_write(before, *addr, counter),
        _ => (),
    }
}

fn address(name: &str, played: &Played, addr: u16, counter: &mut Counter) {
    if played.refused(8) {
        let place = if addr == 0x47FF { "at" } else { "below" };
        counter.hit(format!("{name} refused {place} 47FF"));
    } else if matches!(addr % 0x800, 0 | 0x7FF) {
        counter.hit(format!("{name} {addr:04X}"));
    }
}

fn read(played: &Played, before: &View, after: &View, addr: u16, counter: &mut Counter) {
    let some = played.answer != "ok $00";
    match addr {
        0x4800..=0x4FFF => {
            let (from, to) = (before.chip.audio.addr, after.chip.audio.addr);
            counter.hit_if(some, "sound byte read, not 0");
            counter.hit_if(from != to, format!("read moves the sound address of a {}", before.board()));
            counter.hit_if(!before.chip.audio.auto_increment, "read of 4800..4FFF without auto");
            counter.hit_if(from == 0x7F && to == 0, "read goes from 7F to 0");
        }
        0x5000..=0x57FF => counter.hit_if(some, "counter's low byte read, not 0"),
        0x5800..=0x5FFF => counter.hit_if(some, "counter's high byte read, not 0"),
        _ => {
            let shown = before.shows(before.prg_entry(addr));
            let zero_page = shown == "the zero page";
            counter.never(some && zero_page, "a read of the zero page, not 0");
            counter.hit_if(some && !zero_page, format!("read of {shown}, not 0"));
            let written = addr < 0x8000 && before.chip.prg_ram_written_to;
            counter.hit_if(zero_page && written, format!("{}: 6000 reads the zero page, written", before.board()));
        }
    }
}

fn chr_read(played: &Played, before: &View, addr: u16, counter: &mut Counter) {
    counter.hit(format!("CHR read in entry {}", addr / 0x400 % 16));
    counter.hit_if(addr >= 0x4000, "CHR address of 4000 or more");
    let (shown, some) = (before.shows(before.chr_entry(addr)), played.answer != "ok $00");
    let zero_page = shown == "the zero page";
    counter.never(some && zero_page, "a CHR read of the zero page, not 0");
    counter.hit_if(some && !zero_page, format!("CHR read of {shown}, not 0"));
    counter.hit_if(zero_page && before.chip.prg_ram_written_to, "CHR read of the zero page, written");
}

fn chr_write(before: &View, addr: u16, counter: &mut Counter) {
    let page = before.chr_entry(addr);
    counter.hit(format!("CHR write in entry {}", addr / 0x400 % 16));
    let fate = if page.is_writable() { "into" } else { "dropped by" };
    counter.hit(format!("CHR write {fate} {}", before.shows(page)));
}
