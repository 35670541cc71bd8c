// SPDX-License-Identifier: MIT OR Apache-2.0
//! The directory (K): registering, looking up, and the other calls while blocks are held.

use super::{BOARDS, Counter, Played, View};
use crate::{
    directory::{Block, CPU_PAGES, LONGEST, PLACES},
    layout::{PAGE, Region},
    session::touched,
    text::Call,
};

/// Calls that hand the directory on (K7).
const HANDED_ON: [&str; 11] =
    ["read", "peek", "preview", "chr-read", "region-peek", "sram", "run", "soft reset", "hard reset", "restore", "image"];

const REGISTERED: [&str; 15] = [
    "register: a new start",
    "register: a new start into a place that was dropped",
    "register: a new start into the last free place",
    "register: a held start",
    "register: a held start in a full directory",
    "register: up to FFFF",
    "register refused by 8",
    "register refused by 14",
    "register refused by 13: below 6000",
    "register refused by 13: no byte",
    "register refused by 13: too long",
    "register refused by 13: right in its low 16 bits",
    "register refused by 13: beyond FFFF",
    "register refused by 13: a held start",
    "register refused by 13: in a full directory",
];

const LOOKED_UP: [&str; 9] = [
    "lookup: a block",
    "lookup: a block of a full directory",
    "lookup: none",
    "lookup: none inside a block",
    "lookup: none below 6000",
    "lookup refused by 8",
    "directory: empty",
    "directory: some places",
    "directory: full",
];

const DROPPED: [&str; 16] = [
    "a flag alone drops a block",
    "entries change, and every block stays",
    "CHR entries change alone, and every block stays",
    "a store drops a block",
    "a store of the byte that is there drops a block",
    "a store drops a block that does not cover its address",
    "a store drops a block of another CPU page",
    "a store, and every block stays",
    "a store that is dropped, and a block there stays",
    "a block goes by its first page alone",
    "a block goes by its last page alone",
    "a block stays that ends right before a touched page",
    "a block stays that begins right behind a touched page",
    "a block of five pages goes",
    "a region-write drops blocks of two CPU pages or more",
    "a write changes the board and drops a block",
];

const DROPPED_ALL: [&str; 9] = [
    "a fill of no byte drops all blocks",
    "a fill of no byte into an empty region drops all blocks",
    "a refused fill, and every block stays",
    "sync drops all blocks",
    "a refused sync, and every block stays",
    "a load empties the directory",
    "a refused load, and every block stays",
    "a CHR write, and every block stays",
    "a region-write into an empty region, and every block stays",
];

/// The windows whose entries change after a load.
const WINDOWS: [&str; 4] = ["6000", "8000", "A000", "C000"];

pub fn classes() -> Vec<String> {
    let mut classes: Vec<String> = [&REGISTERED[..], &LOOKED_UP, &DROPPED, &DROPPED_ALL].concat().into_iter().map(String::from).collect();
    classes.extend([1, LONGEST].map(|length| format!("register: {length} bytes")));
    classes.extend((1..=5).map(|pages| format!("register: over {pages} pages")));
    classes.extend(BOARDS.map(|board| format!("an entry changes on a {board} and drops a block")));
    classes.extend(WINDOWS.map(|window| format!("an entry of {window} changes and drops a block")));
    classes.extend(["163", "175"].map(|board| format!("a store on a {board} drops a block")));
    classes.extend(["prg-rom", "prg-ram"].map(|region| format!("region-write {region} drops a block")));
    classes.extend(Region::ALL.map(|region| format!("region-write {}, and every block stays", region.word())));
    classes.extend(Region::ALL.map(|region| format!("fill {} drops all blocks", region.word())));
    classes.extend(HANDED_ON.map(|name| format!("{name} with blocks held")));
    classes
}

pub fn observe(played: &Played, counter: &mut Counter) {
    let (Some(before), Some(after)) = (played.before, played.after) else { return };
    let held = !before.directory.is_empty();
    let same = before.directory == after.directory;
    counter.never(!played.accepted() && !same, "a refused call that alters the directory");
    counter.never(!after.directory.fit(), "a directory that is not fit");
    match played.call {
        Call::Register { start, length, .. } => register(played, before, after, (*start, *length), counter),
        Call::Lookup(start) => lookup(played, before, *start, counter),
        Call::Directory => counter.hit(match before.directory.blocks().count() {
            0 => "directory: empty",
            PLACES => "directory: full",
            _ => "directory: some places",
        }),
        _ if !held => (),
        Call::Load(_) => counter.hit(if same { "a refused load, and every block stays" } else { "a load empties the directory" }),
        Call::Write(addr, val) if played.accepted() => write(before, after, (*addr, *val), counter),
        Call::ChrWrite(..) => {
            counter.hit("a CHR write, and every block stays");
            counter.never(!same, "a CHR write that drops a block");
        }
        Call::RegionWrite(region, offset, _) => region_write(before, after, *region, *offset, counter),
        Call::Fill(region, bytes) => fill(played, before, *region, bytes.len(), counter),
        Call::SyncBattery => {
            counter.hit(if played.accepted() { "sync drops all blocks" } else { "a refused sync, and every block stays" });
        }
        call => handed_on(call, same, counter),
    }
    let drops_all = matches!(played.call, Call::Load(_) | Call::Fill(..) | Call::SyncBattery) && played.accepted();
    counter.never(drops_all && !after.directory.is_empty(), "a call that drops all blocks and leaves one");
}

fn handed_on(call: &Call, same: bool, counter: &mut Counter) {
    let name = match call {
        Call::Read(_) => "read",
        Call::Peek(_) => "peek",
        Call::Preview(..) => "preview",
        Call::ChrRead(_) => "chr-read",
        Call::RegionPeek(..) => "region-peek",
        Call::Sram => "sram",
        Call::Run { .. } => "run",
        Call::ResetSoft => "soft reset",
        Call::ResetHard => "hard reset",
        Call::RestoreBattery => "restore",
        Call::Image(_) => "image",
        _ => return,
    };
    counter.hit(format!("{name} with blocks held"));
    counter.never(!same, "a call that alters the directory and is to hand it on");
}

fn register(played: &Played, before: &View, after: &View, (start, length): (u16, u64), counter: &mut Counter) {
    let directory = &before.directory;
    let (count, held) = (directory.blocks().count(), directory.find(start).is_some());
    counter.hit_if(played.refused(8), "register refused by 8");
    counter.hit_if(played.refused(14), "register refused by 14");
    if played.refused(13) {
        return refused_13(start, length, count, held, counter);
    }
    if !played.accepted() {
        return;
    }
    counter.hit(if held { "register: a held start" } else { "register: a new start" });
    counter.hit_if(held && count == PLACES, "register: a held start in a full directory");
    let place = after.directory.places.iter().position(|place| Block::held(*place).is_some_and(|block| block.start == start));
    let behind = directory.places.iter().rposition(|place| *place != 0);
    counter.hit_if(!held && place < behind, "register: a new start into a place that was dropped");
    counter.hit_if(!held && count == PLACES - 1, "register: a new start into the last free place");
    counter.hit_if([1, LONGEST].contains(&length), format!("register: {length} bytes"));
    counter.hit_if(u64::from(start) + length == 0x1_0000, "register: up to FFFF");
    let pages = Block { start, length: length as u16, number: 0 }.pages().count();
    counter.hit(format!("register: over {pages} pages"));
}

fn refused_13(start: u16, length: u64, count: usize, held: bool, counter: &mut Counter) {
    let low = length & 0xFFFF;
    let right = start >= 0x6000 && (1..=LONGEST).contains(&length);
    counter.hit_if(start < 0x6000, "register refused by 13: below 6000");
    counter.hit_if(length == 0, "register refused by 13: no byte");
    counter.hit_if(length == LONGEST + 1, "register refused by 13: too long");
    counter.hit_if(length > 0xFFFF && (1..=LONGEST).contains(&low), "register refused by 13: right in its low 16 bits");
    counter.hit_if(right, "register refused by 13: beyond FFFF");
    counter.hit_if(held, "register refused by 13: a held start");
    counter.hit_if(count == PLACES, "register refused by 13: in a full directory");
}

fn lookup(played: &Played, before: &View, start: u16, counter: &mut Counter) {
    let covers = |block: Block| block.start < start && start - block.start < block.length;
    let inside = before.directory.blocks().any(covers);
    match played.answer {
        "refused 8" => counter.hit("lookup refused by 8"),
        "ok none" => {
            counter.hit("lookup: none");
            counter.hit_if(inside, "lookup: none inside a block");
            counter.hit_if(start < 0x6000, "lookup: none below 6000");
        }
        _ => {
            counter.hit("lookup: a block");
            counter.hit_if(before.directory.blocks().count() == PLACES, "lookup: a block of a full directory");
        }
    }
}

fn fill(played: &Played, before: &View, region: Region, count: usize, counter: &mut Counter) {
    if !played.accepted() {
        return counter.hit("a refused fill, and every block stays");
    }
    let empty = before.region_len(region) == 0;
    counter.hit_if(count == 0 && !empty, "a fill of no byte drops all blocks");
    counter.hit_if(count == 0 && empty, "a fill of no byte into an empty region drops all blocks");
    counter.hit_if(count > 0, format!("fill {} drops all blocks", region.word()));
}

/// The blocks that a call dropped.
fn gone(before: &View, after: &View) -> Vec<Block> {
    let stays = |block: &Block| after.directory.find(block.start).is_some();
    before.directory.blocks().filter(|block| !stays(block)).collect()
}

/// K5 once more, here by the tables alone: the byte that is stored into, and then the pages that are touched.
fn by_the_tables(before: &View, after: &View, stored: Option<usize>, counter: &mut Counter) -> [bool; CPU_PAGES] {
    let touched = touched(&before.prg, &after.prg, stored);
    let mut expected = before.directory.clone();
    expected.drop_over(&touched);
    counter.never(expected != after.directory, "a write that drops other blocks than those over touched pages");
    touched
}

fn region_write(before: &View, after: &View, region: Region, offset: u64, counter: &mut Counter) {
    let (word, len) = (region.word(), before.region_len(region));
    let first = before.layout.first_page(region) * PAGE;
    let stored = (len > 0).then(|| (first + offset % len) as usize);
    by_the_tables(before, after, stored, counter);
    let gone = gone(before, after);
    counter.hit_if(len == 0 && gone.is_empty(), "a region-write into an empty region, and every block stays");
    counter.hit_if(len > 0 && gone.is_empty(), format!("region-write {word}, and every block stays"));
    let pages = |block: &Block| block.pages().collect::<Vec<_>>();
    counter.hit_if(gone.iter().any(|block| pages(block) != pages(&gone[0])), "a region-write drops blocks of two CPU pages or more");
    counter.hit_if(!gone.is_empty(), format!("region-write {word} drops a block"));
}

fn write(before: &View, after: &View, (addr, val): (u16, u8), counter: &mut Counter) {
    let page = before.prg_entry(addr);
    let stored = page.is_writable().then(|| page.offset() + usize::from(addr) % PAGE as usize);
    let touched = by_the_tables(before, after, stored, counter);
    let gone = gone(before, after);
    let changed = before.prg != after.prg;
    counter.never(stored.is_some() && changed, "a write that stores and changes an entry");
    counter.never(before.prg[56..] != after.prg[56..], "a write that changes an entry of E000");
    match stored {
        Some(byte) => store(before, &gone, (addr, before.arena[byte] == val), counter),
        None if changed => entries(before, after, &gone, counter),
        None => {
            counter.hit_if(before.chr != after.chr, "CHR entries change alone, and every block stays");
            let there = |block: Block| block.pages().contains(&(usize::from(addr) / PAGE as usize));
            let work_ram = (0x6000..0x8000).contains(&addr);
            counter.hit_if(work_ram && before.directory.blocks().any(there), "a store that is dropped, and a block there stays");
        }
    }
    pages_of_blocks(before, &gone, &touched, counter);
}

fn store(before: &View, gone: &[Block], (addr, same): (u16, bool), counter: &mut Counter) {
    if gone.is_empty() {
        return counter.hit("a store, and every block stays");
    }
    let covers = |block: &Block| (u64::from(block.start)..u64::from(block.start) + u64::from(block.length)).contains(&addr.into());
    let there = |block: &Block| block.pages().contains(&(usize::from(addr) / PAGE as usize));
    counter.hit("a store drops a block");
    counter.hit(format!("a store on a {} drops a block", before.board()));
    counter.hit_if(same, "a store of the byte that is there drops a block");
    counter.hit_if(gone.iter().any(|block| !covers(block)), "a store drops a block that does not cover its address");
    counter.hit_if(gone.iter().any(|block| !there(block)), "a store drops a block of another CPU page");
}

fn entries(before: &View, after: &View, gone: &[Block], counter: &mut Counter) {
    if gone.is_empty() {
        return counter.hit("entries change, and every block stays");
    }
    let board = before.board();
    counter.hit(format!("an entry changes on a {board} and drops a block"));
    counter.hit_if(board != after.board(), "a write changes the board and drops a block");
    let offsets = |view: &View| view.prg.map(|page| page.offset());
    counter.hit_if(offsets(before) == offsets(after), "a flag alone drops a block");
    for (index, window) in WINDOWS.into_iter().enumerate() {
        let pages = 24 + 8 * index..32 + 8 * index;
        let changed = |page: usize| pages.contains(&page) && before.prg[page] != after.prg[page];
        let drops = gone.iter().any(|block| block.pages().any(changed));
        counter.hit_if(drops, format!("an entry of {window} changes and drops a block"));
    }
}

/// Which pages of the blocks were touched, and which blocks lie beside a touched page.
fn pages_of_blocks(before: &View, gone: &[Block], touched: &[bool; CPU_PAGES], counter: &mut Counter) {
    let ends = |block: &Block| (*block.pages().start(), *block.pages().end());
    let alone = |block: &Block, page: usize| ends(block).0 < ends(block).1 && block.pages().all(|under| touched[under] == (under == page));
    counter.hit_if(gone.iter().any(|block| alone(block, ends(block).0)), "a block goes by its first page alone");
    counter.hit_if(gone.iter().any(|block| alone(block, ends(block).1)), "a block goes by its last page alone");
    counter.hit_if(gone.iter().any(|block| block.pages().count() == 5), "a block of five pages goes");
    let stays: Vec<Block> = before.directory.blocks().filter(|block| !gone.contains(block)).collect();
    let at = |page: usize| touched.get(page).is_some_and(|touched| *touched);
    let last = |block: &Block| usize::from(block.start) + usize::from(block.length) - 1;
    let up_to_it = |block: &Block| last(block) % PAGE as usize == PAGE as usize - 1 && at(ends(block).1 + 1);
    let from_it_on = |block: &Block| block.start % PAGE as u16 == 0 && at(ends(block).0 - 1);
    counter.hit_if(stays.iter().any(up_to_it), "a block stays that ends right before a touched page");
    counter.hit_if(stays.iter().any(from_it_on), "a block stays that begins right behind a touched page");
}
