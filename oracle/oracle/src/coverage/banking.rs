// SPDX-License-Identifier: MIT OR Apache-2.0
//! CPU writes: ranges and their edges, boards and how they are found, slots, masks, mirrorings, stores.

use super::{Counter, Played, View};
use crate::{session::RAM_WINDOW, text::Call};
use tetanes::{m019_namco163::Board, memory::Page, ppu::Mirroring};

/// L11's rows; 8000..BFFF is two, by the selects of L12.
pub const ROWS: [(&str, u16, u16); 12] = [
    ("4800..4FFF", 0x4800, 0x4FFF),
    ("5000..57FF", 0x5000, 0x57FF),
    ("5800..5FFF", 0x5800, 0x5FFF),
    ("6000..7FFF", 0x6000, 0x7FFF),
    ("8000..9FFF", 0x8000, 0x9FFF),
    ("A000..BFFF", 0xA000, 0xBFFF),
    ("C000..C7FF", 0xC000, 0xC7FF),
    ("C800..DFFF", 0xC800, 0xDFFF),
    ("E000..E7FF", 0xE000, 0xE7FF),
    ("E800..EFFF", 0xE800, 0xEFFF),
    ("F000..F7FF", 0xF000, 0xF7FF),
    ("F800..FFFF", 0xF800, 0xFFFF),
];

/// Boards as they can be: an Unknown is always detecting.
const KINDS: [&str; 7] = ["163", "detecting 163", "detecting Unknown", "175", "detecting 175", "340", "detecting 340"];

/// Every change of board that detection can make: rows, from, to.
pub const CHANGES: [(&[&str], &str, &str); 8] = [
    (&["4800..4FFF", "5000..57FF", "5800..5FFF", "C800..DFFF", "F800..FFFF"], "Unknown", "163"),
    (&["4800..4FFF", "5000..57FF", "5800..5FFF", "C800..DFFF", "F800..FFFF"], "175", "163"),
    (&["4800..4FFF", "5000..57FF", "5800..5FFF", "C800..DFFF", "F800..FFFF"], "340", "163"),
    (&["C000..C7FF"], "Unknown", "175"),
    (&["C000..C7FF"], "340", "175"),
    (&["E000..E7FF with bit 7"], "163", "340"),
    (&["E000..E7FF with bit 7", "E000..E7FF with bit 6"], "Unknown", "340"),
    (&["E000..E7FF with bit 7", "E000..E7FF with bit 6"], "175", "340"),
];

const SETTLED_ROWS: [&str; 6] = ["4800..4FFF", "5000..57FF", "5800..5FFF", "C000..C7FF", "C800..DFFF", "F800..FFFF"];
const SLOT_GROUPS: [&str; 3] = ["0..3", "4..7", "8..11"];

pub fn classes() -> Vec<String> {
    let mut classes: Vec<String> = [
        "a written 163 becomes a 340",
        "a settled 340 is reset",
        "slot value DF",
        "slot value E0",
        "slot flag cleared on another board",
        "slot flag kept as the board becomes a 340",
        "counter written while pending",
        "sound disabled",
        "sound enabled again",
        "pages changed in both tables",
        "pages changed in neither table",
        "the flag alone changed at 6000",
        "entries changed by the write after a reset",
        "a 163 protect byte kept by a 340",
    ]
    .map(String::from)
    .into();
    for (row, ..) in ROWS {
        classes.extend(KINDS.map(|kind| format!("write {row} on a {kind}")));
    }
    for (rows, from, to) in CHANGES {
        classes.extend(rows.iter().map(|row| format!("{from} to {to} by {row}")));
    }
    classes.extend(SETTLED_ROWS.map(|row| format!("a settled 340 is kept at {row}")));
    for value in ["below E0", "from E0 on"] {
        classes.extend(SLOT_GROUPS.iter().map(|group| format!("163, slots {group}, select clear, value {value}")));
        classes.extend(SLOT_GROUPS[..2].iter().map(|group| format!("163, slots {group}, select set, value {value}")));
    }
    classes.extend(["24..31", "32..39", "40..47", "48..55"].map(|pages| format!("PRG {pages} changed")));
    classes.extend(["0..7", "8..15"].map(|pages| format!("CHR {pages} changed")));
    for pages in 1..=4 {
        classes.extend(MIRRORINGS.map(|mirroring| format!("{mirroring:?} on {pages} CIRAM pages")));
    }
    classes.extend(stores());
    classes.extend(boards_without_ram());
    classes
}

const MIRRORINGS: [Mirroring; 5] =
    [Mirroring::Vertical, Mirroring::Horizontal, Mirroring::SingleScreenA, Mirroring::SingleScreenB, Mirroring::FourScreen];

/// Boards, the 175 by its protect byte, which lets stores into PRG-RAM through where it is odd.
const RAM_KINDS: [&str; 5] = ["Unknown", "163", "175, protect even", "175, protect odd", "340"];

fn ram_kind(view: &View) -> &'static str {
    match view.chip.board {
        Board::Unknown => "Unknown",
        Board::Namco163 => "163",
        Board::Namco175 if view.chip.regs.prg_ram_protect & 1 == 0 => "175, protect even",
        Board::Namco175 => "175, protect odd",
        Board::Namco340 => "340",
    }
}

/// What can become of a byte written to 6000..7FFF.
fn stores() -> Vec<String> {
    let ram = ["163", "175"].into_iter().flat_map(|board| [("stores into PRG-RAM", board), ("drops, PRG-RAM shown", board)]);
    let ram = ram.map(|(fate, board)| format!("{board}: 6000 {fate}"));
    let unmapped = RAM_KINDS.map(|kind| format!("{kind}: 6000 drops, the zero page shown"));
    ram.chain(unmapped).collect()
}

fn boards_without_ram() -> impl Iterator<Item = String> {
    let changes = CHANGES.into_iter().map(|(_, from, to)| format!("{from} to {to} without PRG-RAM"));
    changes.chain(RAM_KINDS.map(|kind| format!("{kind}: remapped without PRG-RAM")))
}

pub fn observe(played: &Played, counter: &mut Counter) {
    let (Some(before), Some(after)) = (played.before, played.after) else { return };
    match played.call {
        Call::Write(addr, val) if played.accepted() => {
            ranges(before, after, *addr, counter);
            boards(before, after, *addr, *val, counter);
            slots(before, after, *addr, *val, counter);
            masks(before, after, counter);
            without_ram(before, after, *addr, counter);
            store(before, *addr, counter);
        }
        Call::ResetSoft | Call::ResetHard => counter.hit_if(settled(before), "a settled 340 is reset"),
        _ => (),
    }
    never_from_a_load(after, counter);
    if after.chip.board != Board::Namco163 {
        counter.hit(format!("{:?} on {} CIRAM pages", after.chip.mirroring, after.layout.ciram));
    }
}

fn never_from_a_load(after: &View, counter: &mut Counter) {
    let mut slots = after.chip.nt_bank_enable.iter().zip(after.chip.chr_banks);
    counter.never(slots.any(|(flag, bank)| *flag && bank > 1), "a CIRAM bank above 1");
    counter.never(after.prg[..24].iter().any(|page| *page != Page::UNMAPPED), "PRG 0..23 mapped");
    counter.never(after.board() == "Unknown" && !after.chip.auto_detect_board, "an Unknown that does not detect");
    let ram_window = after.prg[RAM_WINDOW].iter().any(|page| *page != Page::UNMAPPED);
    counter.never(after.layout.prg_ram == 0 && ram_window, "PRG 24..31 mapped without PRG-RAM");
    let writable = after.prg.iter().chain(&after.chr).any(|page| page.offset() == 0 && page.is_writable());
    counter.never(writable, "the zero page with the flag");
    counter.never(!after.zeros, "a byte other than 0 in the zero page");
}

pub fn row(addr: u16) -> &'static str {
    let within = |(_, first, last): &&(&str, u16, u16)| (*first..=*last).contains(&addr);
    ROWS.iter().find(within).map_or("below 4800", |(name, ..)| name)
}

fn settled(view: &View) -> bool {
    view.chip.board == Board::Namco340 && view.chip.auto_detect_board && view.chip.prg_ram_written_to
}

fn ranges(before: &View, after: &View, addr: u16, counter: &mut Counter) {
    let detecting = if before.chip.auto_detect_board { "detecting " } else { "" };
    counter.hit(format!("write {} on a {detecting}{}", row(addr), before.board()));
    counter.hit_if((0x5000..0x6000).contains(&addr) && before.chip.regs.irq_pending, "counter written while pending");
    let (was, is) = (before.chip.audio.disabled, after.chip.audio.disabled);
    counter.hit_if(!was && is, "sound disabled");
    counter.hit_if(was && !is, "sound enabled again");
}

fn boards(before: &View, after: &View, addr: u16, val: u8, counter: &mut Counter) {
    let (from, to) = (before.board(), after.board());
    if from != to {
        let bit = match row(addr) {
            "E000..E7FF" if val & 0x80 != 0 => " with bit 7",
            "E000..E7FF" => " with bit 6",
            _ => "",
        };
        counter.hit(format!("{from} to {to} by {}{bit}", row(addr)));
        counter.hit_if(from == "163" && before.chip.prg_ram_written_to, "a written 163 becomes a 340");
        let flagged = before.chip.nt_bank_enable[..8].contains(&true);
        counter.hit_if(from == "163" && flagged, "slot flag kept as the board becomes a 340");
        counter.hit_if(from == "163" && before.chip.regs.prg_ram_protect != 0, "a 163 protect byte kept by a 340");
    } else if settled(before) && SETTLED_ROWS.contains(&row(addr)) {
        counter.hit(format!("a settled 340 is kept at {}", row(addr)));
    }
}

fn slots(before: &View, after: &View, addr: u16, val: u8, counter: &mut Counter) {
    let slot = usize::from(addr.wrapping_sub(0x8000) / 0x800);
    if !(0x8000..0xE000).contains(&addr) {
        return;
    }
    if after.board() == "163" {
        let regs = &after.chip.regs;
        let (group, select) = match slot {
            0..=3 => ("0..3", regs.nt_select_lo),
            4..=7 => ("4..7", regs.nt_select_hi),
            _ => ("8..11", false),
        };
        let select = if select { "set" } else { "clear" };
        let value = if val >= 0xE0 { "from E0 on" } else { "below E0" };
        counter.hit(format!("163, slots {group}, select {select}, value {value}"));
        counter.hit_if(val == 0xDF, "slot value DF");
        counter.hit_if(val == 0xE0, "slot value E0");
    } else {
        counter.hit_if(before.chip.nt_bank_enable[slot] && !after.chip.nt_bank_enable[slot], "slot flag cleared on another board");
    }
}

fn masks(before: &View, after: &View, counter: &mut Counter) {
    let prg: Vec<usize> = (0..64).filter(|page| before.prg[*page] != after.prg[*page]).collect();
    let chr: Vec<usize> = (0..16).filter(|page| before.chr[*page] != after.chr[*page]).collect();
    for (first, pages) in [(24, "24..31"), (32, "32..39"), (40, "40..47"), (48, "48..55")] {
        counter.hit_if(prg.iter().any(|page| (first..first + 8).contains(page)), format!("PRG {pages} changed"));
    }
    for (first, pages) in [(0, "0..7"), (8, "8..15")] {
        counter.hit_if(chr.iter().any(|page| (first..first + 8).contains(page)), format!("CHR {pages} changed"));
    }
    counter.hit_if(!prg.is_empty() && !chr.is_empty(), "pages changed in both tables");
    counter.hit_if(prg.is_empty() && chr.is_empty(), "pages changed in neither table");
    let flag_alone = prg.contains(&24) && before.prg[24].offset() == after.prg[24].offset();
    counter.hit_if(flag_alone, "the flag alone changed at 6000");
    let fresh_from_reset = before.chip.nt_bank_enable[8..] == [true; 4] && before.chip.chr_banks[8..] == [0; 4];
    let nametables = chr.iter().any(|page| *page >= 8);
    let stays_163 = before.board() == "163" && after.board() == "163";
    counter.hit_if(fresh_from_reset && nametables && stays_163, "entries changed by the write after a reset");
}

/// M5: boards that a cartridge without PRG-RAM goes through.
fn without_ram(before: &View, after: &View, addr: u16, counter: &mut Counter) {
    if after.layout.prg_ram > 0 {
        return;
    }
    let (from, to) = (before.board(), after.board());
    counter.hit_if(from != to, format!("{from} to {to} without PRG-RAM"));
    let remapped = (0x8000..=0xF7FF).contains(&addr) || from != to;
    counter.hit_if(remapped, format!("{}: remapped without PRG-RAM", ram_kind(after)));
}

fn store(before: &View, addr: u16, counter: &mut Counter) {
    let (board, page) = (before.board(), before.prg_entry(addr));
    if !(0x6000..0x8000).contains(&addr) {
        counter.never(page.is_writable(), "a store outside 6000..7FFF");
        return;
    }
    let shown = before.shows(page);
    counter.never(page.is_writable() && shown == "the zero page", "a store into the zero page");
    counter.hit(match (page.is_writable(), shown) {
        (true, _) => format!("{board}: 6000 stores into {shown}"),
        (false, "the zero page") => format!("{}: 6000 drops, {shown} shown", ram_kind(before)),
        (false, _) => format!("{board}: 6000 drops, {shown} shown"),
    });
}
