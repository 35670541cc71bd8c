// SPDX-License-Identifier: MIT OR Apache-2.0
//! The editions (L19 to L22) and the image's lengths (H9, N1): loads, F800, what it protects, resets, boards that become a 163, images.

use super::{Counter, Played, View};
use crate::{
    image::{LEN, OPTIONS_LEN},
    layout::{LONG_PRG_RAM, PAGE, Region},
    session::{F800, PART, PARTS, RAM_WINDOW, unprotected},
    text::{Call, IMAGE_LIMIT},
};
use tetanes::m019_namco163::Board;

const EDITIONS: [&str; 2] = ["old", "new"];
const BOARDS: [&str; 5] = ["163", "detecting 163", "detecting Unknown", "175", "340"];
const RAM_PAGES: [u64; 6] = [0, 1, 2, 3, 8, 128];
const IMAGES: [u64; 6] = [0, 306, LEN as u64, OPTIONS_LEN as u64, 309, IMAGE_LIMIT];

/// Of the new edition, where nothing else is said.
const ONCE: [&str; 30] = [
    "F800 opens parts and protects others",
    "F800 of the byte that is there changes nothing",
    "F800 of another byte that protects all changes nothing",
    "F800 changes entries of both tables",
    "F800 with auto-increment protects what was open",
    "F800 without PRG-RAM, 40..4F",
    "F800 on a 163 in the old edition changes no flag",
    "F800 on a settled 340",
    "F800 on a fixed 175",
    "F800 on a 175 that a hard reset left open",
    "F800 on a fixed 340",
    "an open 175 with a byte of 40..4F",
    "a protected 175 with a byte of 40..4F",
    "a store is dropped on a 163 that no F800 was written to",
    "a write to 8000..F7FF leaves a part protected",
    "a write to 8000..F7FF leaves a part open",
    "a write to 4800..7FFF leaves a part protected",
    "hard reset of an open 163",
    "soft reset of an open 163",
    "a store between a hard reset and the next mapping",
    "F800 protects what a hard reset left open",
    "a write to 8000..F7FF protects what a hard reset left open",
    "a store behind a soft reset",
    "F800 behind a reset changes CHR 8..15",
    "F800 behind a reset leaves CHR 8..15, in the old edition",
    "a page of PRG-RAM is open and protected",
    "a store at an open address of a page that is protected elsewhere",
    "a store is dropped at a protected address of a page that is open elsewhere",
    "a store at an open address drops a block at a protected one",
    "a store that protection drops, and a block there stays",
];

pub fn classes() -> Vec<String> {
    let mut classes: Vec<String> = ONCE.map(String::from).into();
    for edition in EDITIONS {
        classes.extend(BOARDS.map(|board| format!("load of a {board}, {edition} edition")));
        classes.extend(RAM_PAGES.map(|pages| format!("load with {pages} pages of PRG-RAM, {edition} edition")));
        classes.extend([4, 5, 6].map(|number| format!("load refused by {number}, {edition} edition")));
        classes.extend(IMAGES.map(|length| format!("image {length}, {edition} edition")));
        classes.push(format!("image alone, {edition} edition"));
    }
    classes.extend((0..16).map(|low| format!("F800 of 4{low:X}")));
    classes.extend((0..16).filter(|high| *high != 4).map(|high| format!("F800 of {high:X}x")));
    for part in 0..PARTS {
        classes.extend(["opens", "protects"].map(|does| format!("F800 {does} part {part}")));
        classes.extend(["is stored in", "is dropped in"].map(|fate| format!("a byte {fate} part {part}")));
        classes.push(format!("a preview of F800 shows part {part}"));
        classes.push(format!("F800 drops a block over part {part}"));
    }
    for from in ["Unknown", "175", "340"] {
        classes.push(format!("{from} becomes a 163 by F800"));
        classes.extend(["open", "protected"].map(|is| format!("{from} becomes a 163 by another write, its work RAM {is}")));
    }
    // An Unknown has no byte but 0.
    classes.retain(|class| class != "Unknown becomes a 163 by another write, its work RAM open");
    classes
}

pub fn observe(played: &Played, counter: &mut Counter) {
    match played.call {
        Call::Load(load) => {
            let edition = EDITIONS[usize::from(load.options().f800_protects)];
            if let (true, Some(after)) = (played.accepted(), played.after) {
                loaded(after, edition, counter);
            } else {
                counter.hit(format!("load {}, {edition} edition", played.answer.replace("refused ", "refused by ")));
            }
        }
        Call::Image(length) => image(played, *length, counter),
        Call::Preview(addr, _) if *addr >= F800 => preview(played, counter),
        Call::Write(addr, val) if played.accepted() => write(played, *addr, *val, counter),
        Call::ResetSoft | Call::ResetHard => reset(played, counter),
        _ => (),
    }
    if let (Some(before), Some(after), false) = (played.before, played.after, matches!(played.call, Call::Load(_))) {
        counter.never(before.options != after.options, "a call that changes an option");
    }
}

fn loaded(after: &View, edition: &str, counter: &mut Counter) {
    let detecting = if after.chip.auto_detect_board { "detecting " } else { "" };
    let pages = after.layout.prg_ram;
    counter.hit(format!("load of a {detecting}{}, {edition} edition", after.board()));
    counter.hit_if(RAM_PAGES.contains(&pages), format!("load with {pages} pages of PRG-RAM, {edition} edition"));
}

/// N1: accepted where the length holds the state.
fn image(played: &Played, length: Option<u64>, counter: &mut Counter) {
    let Some(before) = played.before else { return };
    let edition = EDITIONS[usize::from(before.options.f800_protects)];
    match length {
        None => counter.hit(format!("image alone, {edition} edition")),
        Some(length) => counter.hit_if(IMAGES.contains(&length), format!("image {length}, {edition} edition")),
    }
    let fits = match length.unwrap_or(LEN as u64) as usize {
        LEN => !before.options.any() && before.layout.prg_ram != LONG_PRG_RAM,
        length => length == OPTIONS_LEN,
    };
    counter.never(played.accepted() != fits, "an image of a length that does not hold it, or a refused one that would");
}

/// Whether F800 protects a board as it is.
fn protects(view: &View) -> bool {
    view.options.f800_protects && view.chip.board == Board::Namco163
}

/// The flags of the four parts, each by its first entry.
fn open(view: &View) -> [bool; PARTS as usize] {
    std::array::from_fn(|part| view.prg[RAM_WINDOW.start + 2 * part].is_writable())
}

fn preview(played: &Played, counter: &mut Counter) {
    let Some(before) = played.before.filter(|before| protects(before)) else { return };
    let mask = u64::from_str_radix(&played.words()[0][1..], 16).unwrap_or(0);
    counter.never(before.layout.prg_ram == 0 && mask & 0xFF00_0000 != 0, "a mask of 6000 without PRG-RAM");
    for part in 0..PARTS {
        counter.hit_if(mask >> (RAM_WINDOW.start as u16 + 2 * part) & 3 == 3, format!("a preview of F800 shows part {part}"));
    }
}

fn write(played: &Played, addr: u16, val: u8, counter: &mut Counter) {
    let (Some(before), Some(after)) = (played.before, played.after) else { return };
    if addr >= F800 {
        f800(before, after, val, counter);
    } else if protects(after) && after.layout.prg_ram > 0 {
        other_write(before, after, addr, counter);
    }
    if (0x6000..0x8000).contains(&addr) && protects(before) && before.layout.prg_ram > 0 {
        store(before, after, addr, counter);
    }
    let regs = &after.chip.regs;
    if after.options.f800_protects && after.board() == "175" && regs.prg_ram_protect >> 4 == 4 && after.layout.prg_ram > 0 {
        counter.hit(if open(after)[0] { "an open 175 with a byte of 40..4F" } else { "a protected 175 with a byte of 40..4F" });
    }
}

fn f800(before: &View, after: &View, val: u8, counter: &mut Counter) {
    let behind_reset = before.board() == "163" && stale(before);
    if !after.options.f800_protects {
        let flags = before.board() == "163" && before.layout.prg_ram > 0;
        counter.hit_if(flags, "F800 on a 163 in the old edition changes no flag");
        counter.hit_if(behind_reset, "F800 behind a reset leaves CHR 8..15, in the old edition");
        counter.never(before.board() == "163" && before.prg != after.prg, "F800 that maps in the old edition");
        return;
    }
    if after.board() != "163" {
        let fixed = !after.chip.auto_detect_board;
        let waits = after.board() == "175" && after.chip.regs.prg_ram_protect == 0 && open(after)[0];
        counter.hit_if(waits, "F800 on a 175 that a hard reset left open");
        counter.hit(match (after.board(), fixed) {
            ("175", _) => "F800 on a fixed 175",
            (_, true) => "F800 on a fixed 340",
            _ => "F800 on a settled 340",
        });
        counter.never(before.prg != after.prg || before.chr != after.chr, "F800 that maps on another board than a 163");
        return;
    }
    counter.hit_if(before.board() != "163", format!("{} becomes a 163 by F800", before.board()));
    counter.hit(if val >> 4 == 4 { format!("F800 of {val:02X}") } else { format!("F800 of {:X}x", val >> 4) });
    counter.hit_if(behind_reset && before.chr != after.chr, "F800 behind a reset changes CHR 8..15");
    counter.hit_if(before.prg != after.prg && before.chr != after.chr, "F800 changes entries of both tables");
    counter.hit_if(after.layout.prg_ram == 0 && val >> 4 == 4, "F800 without PRG-RAM, 40..4F");
    if after.layout.prg_ram > 0 && before.board() == "163" {
        flags(before, after, val, counter);
    }
}

/// Whether the slots of the nametables are as a reset leaves them.
fn nametables_of_a_reset(view: &View) -> bool {
    view.chip.nt_bank_enable[8..] == [true; 4] && view.chip.chr_banks[8..] == [0; 4]
}

/// Whether they are, and CHR 8..15 do not show it yet.
fn stale(view: &View) -> bool {
    let first = view.layout.first_page(Region::CiRam) * PAGE;
    nametables_of_a_reset(view) && view.chr[8..].iter().any(|page| page.offset() as u64 != first)
}

/// F800 on a 163 with PRG-RAM.
fn flags(before: &View, after: &View, val: u8, counter: &mut Counter) {
    let (was, is, byte) = (open(before), open(after), before.chip.regs.prg_ram_protect);
    for part in 0..PARTS {
        let index = usize::from(part);
        counter.hit_if(!was[index] && is[index], format!("F800 opens part {part}"));
        counter.hit_if(was[index] && !is[index], format!("F800 protects part {part}"));
        counter.never(is[index] != unprotected(val, part), "a flag that is not the byte's behind F800");
        let pages = RAM_WINDOW.start + 2 * index..RAM_WINDOW.start + 2 * index + 2;
        let over = |view: &View| view.directory.blocks().filter(|block| block.pages().any(|page| pages.contains(&page))).count();
        counter.hit_if(was[index] != is[index] && over(before) > over(after), format!("F800 drops a block over part {part}"));
    }
    let gains = (0..4).any(|part| !was[part] && is[part]);
    let loses = (0..4).any(|part| was[part] && !is[part]);
    counter.hit_if(gains && loses, "F800 opens parts and protects others");
    counter.hit_if(byte == val && was == is, "F800 of the byte that is there changes nothing");
    counter.hit_if(byte != val && was == is && is == [false; 4], "F800 of another byte that protects all changes nothing");
    counter.hit_if(val & 0x80 != 0 && loses, "F800 with auto-increment protects what was open");
    counter.hit_if(byte == 0 && was != [false; 4] && is == [false; 4], "F800 protects what a hard reset left open");
}

/// Another write that leaves or makes a 163.
fn other_write(before: &View, after: &View, addr: u16, counter: &mut Counter) {
    let (was, is) = (open(before), open(after));
    if before.board() != "163" {
        let shown = if is == [false; 4] { "protected" } else { "open" };
        return counter.hit(format!("{} becomes a 163 by another write, its work RAM {shown}", before.board()));
    }
    let stays = |flag: bool| (0..4).any(|part| was[part] == flag && is[part] == flag);
    let byte = before.chip.regs.prg_ram_protect;
    if addr < 0x8000 {
        return counter.hit_if(stays(false), "a write to 4800..7FFF leaves a part protected");
    }
    counter.hit_if(stays(false) && byte >> 4 == 4, "a write to 8000..F7FF leaves a part protected");
    counter.hit_if(stays(true), "a write to 8000..F7FF leaves a part open");
    counter.hit_if(byte == 0 && was != [false; 4] && is == [false; 4], "a write to 8000..F7FF protects what a hard reset left open");
    counter.never(byte >> 4 != 4 && is != [false; 4], "a part that is open behind a mapping, whatever the byte");
}

/// A write to the work RAM of a 163.
fn store(before: &View, after: &View, addr: u16, counter: &mut Counter) {
    let (part, page) = ((addr - 0x6000) / PART, before.prg_entry(addr));
    let regs = &before.chip.regs;
    let elsewhere =
        |writable: bool| before.prg[RAM_WINDOW].iter().any(|other| other.offset() == page.offset() && other.is_writable() == writable);
    let fate = if page.is_writable() { "is stored in" } else { "is dropped in" };
    counter.hit(format!("a byte {fate} part {part}"));
    counter.hit_if(elsewhere(true) && elsewhere(false), "a page of PRG-RAM is open and protected");
    if page.is_writable() {
        counter.hit_if(elsewhere(false), "a store at an open address of a page that is protected elsewhere");
        counter.hit_if(!unprotected(regs.prg_ram_protect, part), "a store between a hard reset and the next mapping");
        let soft = nametables_of_a_reset(before) && before.chip.audio.addr == 0 && regs.prg_ram_protect >> 4 == 4;
        counter.hit_if(soft, "a store behind a soft reset");
        let gone = before.directory.blocks().filter(|block| after.directory.find(block.start).is_none());
        let protected = |page: usize| RAM_WINDOW.contains(&page) && !before.prg[page].is_writable();
        counter.hit_if(
            gone.into_iter().any(|block| block.pages().all(protected)),
            "a store at an open address drops a block at a protected one",
        );
    } else {
        counter.hit_if(elsewhere(true), "a store is dropped at a protected address of a page that is open elsewhere");
        counter.hit_if(regs.prg_ram_protect == 0, "a store is dropped on a 163 that no F800 was written to");
        let there = before.directory.blocks().any(|block| block.pages().contains(&(usize::from(addr) / PAGE as usize)));
        counter.hit_if(there && before.directory == after.directory, "a store that protection drops, and a block there stays");
    }
}

fn reset(played: &Played, counter: &mut Counter) {
    let (Some(before), Some(after)) = (played.before, played.after) else { return };
    let kind = if matches!(played.call, Call::ResetHard) { "hard" } else { "soft" };
    counter.hit_if(protects(before) && open(before) != [false; 4], format!("{kind} reset of an open 163"));
    counter.never(before.prg != after.prg || before.chr != after.chr, "a reset that maps");
}
