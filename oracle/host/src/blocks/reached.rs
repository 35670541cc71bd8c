// SPDX-License-Identifier: MIT OR Apache-2.0
//! What calls with a directory have to reach: blocks that go for each cause, and blocks that stay.

use crate::{
    counts::Counts,
    pair::{Compared, Pair},
};
use oracle::{
    directory::{Directory, PLACES},
    host::BlockCall,
    layout::PAGE,
    session::{Session, entry},
};

const NEW: &str = "registers of a new start";
const LAST: &str = "registers into the last free place";
const BETWEEN: &str = "registers in front of a held block";
const REPLACED: &str = "registers of a held start";
const REPLACED_FULL: &str = "registers of a held start with all places held";
const REGISTERS: [&str; 5] = [NEW, LAST, BETWEEN, REPLACED, REPLACED_FULL];

const LOOKED_UP: &str = "lookups of a block";
const LOOKED_UP_NONE: &str = "lookups of none";
const FOUND: &str = "finds of a block";
const FOUND_NONE: &str = "finds of none";
const FOUND_UNFIT: &str = "finds in an unfit directory";
const FOUND_LOW: &str = "finds below 4800";
const LOOKUPS: [&str; 6] = [LOOKED_UP, LOOKED_UP_NONE, FOUND, FOUND_NONE, FOUND_UNFIT, FOUND_LOW];

const BY_ENTRY: &str = "writes that drop a block by an entry";
const BY_STORE: &str = "writes that drop a block by a store";
const BY_SAME: &str = "writes that drop a block by a store of the byte that is there";
const BY_BOTH: &str = "writes that store, remap and drop a block";
const KEPT_STORE: &str = "writes that store and drop none of the blocks held";
const KEPT_ENTRY: &str = "writes that remap and drop none of the blocks held";
const KEPT: &str = "writes that do neither, with blocks held";
const REFUSED: &str = "refused writes with blocks held";
const WRITES: [&str; 8] = [BY_ENTRY, BY_STORE, BY_SAME, BY_BOTH, KEPT_STORE, KEPT_ENTRY, KEPT, REFUSED];

const STORED: &str = "stored calls that drop a block";
const STORED_KEPT: &str = "stored calls that drop none of the blocks held";
const STORED_BEHIND: &str = "stored calls behind the arena, with blocks held";
const EMPTIED: &str = "loads that empty a fit directory";
const EMPTIED_UNFIT: &str = "loads that empty an unfit directory";
const LOAD_REFUSED: &str = "loads refused by 2";
const LOAD_KEPT: &str = "loads refused by 4 to 7 with blocks held";
const OTHERS: [&str; 7] = [STORED, STORED_KEPT, STORED_BEHIND, EMPTIED, EMPTIED_UNFIT, LOAD_REFUSED, LOAD_KEPT];

pub fn want(counts: &mut Counts) {
    for wanted in [&REGISTERS[..], &LOOKUPS, &WRITES, &OTHERS] {
        counts.want(wanted);
    }
}

/// Makes a call and counts what it reached.
pub fn call(pair: &mut Pair, call: BlockCall) -> Compared<u64> {
    let before = pair.host().directory.clone();
    let store = pair.host().session().and_then(|session| store(session, call));
    let word = pair.call_blocks(call)?;
    let after = pair.host().directory.clone();
    let seen = Seen { held: before.blocks().count(), gone: before != after, store, before };
    match call {
        BlockCall::Register { start, .. } if word == 0 => register(&mut pair.counts, &seen.before, &after, start),
        BlockCall::Lookup(_) if word as u8 == 0 => pair.counts.reach(if word == 0 { LOOKED_UP_NONE } else { LOOKED_UP }),
        BlockCall::Find(start) => find(&mut pair.counts, &seen.before, start, word),
        BlockCall::Write(..) if seen.held > 0 => write(&mut pair.counts, &seen, word),
        BlockCall::Stored(offset) if seen.held > 0 && word == 0 => {
            let behind = offset >= pair.host().session().map_or(0, |session| session.layout().arena_len());
            pair.counts.reach(if seen.gone { STORED } else { STORED_KEPT });
            pair.counts.reach_if(behind, STORED_BEHIND);
        }
        BlockCall::Load(_) => load(&mut pair.counts, &seen, word),
        _ => (),
    }
    Ok(word)
}

/// What a call met and did.
struct Seen {
    before: Directory,
    held: usize,
    gone: bool,
    /// Of a write that stores, whether the byte is there already.
    store: Option<bool>,
}

/// Of a write through an entry with the flag, whether its byte is there already.
fn store(session: &Session, call: BlockCall) -> Option<bool> {
    let BlockCall::Write(addr, val) = call else { return None };
    let (page, writable) = entry(session.memory.prg_pages()[usize::from(addr) / PAGE as usize]);
    let byte = page * PAGE + u64::from(addr) % PAGE;
    session.arena().get(byte as usize).filter(|_| writable).map(|byte| *byte == val)
}

fn register(counts: &mut Counts, before: &Directory, after: &Directory, start: u16) {
    let held = before.blocks().count();
    if before.find(start).is_some() {
        counts.reach(REPLACED);
        return counts.reach_if(held == PLACES, REPLACED_FULL);
    }
    let place = (0..PLACES).find(|place| before.places[*place] != after.places[*place]);
    let last_held = before.places.iter().rposition(|place| *place != 0);
    counts.reach(NEW);
    counts.reach_if(held == PLACES - 1, LAST);
    counts.reach_if(place < last_held, BETWEEN);
}

fn find(counts: &mut Counts, directory: &Directory, start: u16, word: u64) {
    counts.reach(if word == 0 { FOUND_NONE } else { FOUND });
    counts.reach_if(word != 0 && !directory.fit(), FOUND_UNFIT);
    counts.reach_if(start < 0x4800, FOUND_LOW);
}

fn write(counts: &mut Counts, seen: &Seen, word: u64) {
    if word as u8 != 0 {
        return counts.reach(REFUSED);
    }
    let remaps = word >> 24 != 0;
    match (seen.gone, remaps, seen.store) {
        (true, true, None) => counts.reach(BY_ENTRY),
        (true, true, Some(_)) => counts.reach(BY_BOTH),
        (true, false, same) => {
            counts.reach(BY_STORE);
            counts.reach_if(same == Some(true), BY_SAME);
        }
        (false, true, _) => counts.reach(KEPT_ENTRY),
        (false, false, Some(_)) => counts.reach(KEPT_STORE),
        (false, false, None) => counts.reach(KEPT),
    }
}

fn load(counts: &mut Counts, seen: &Seen, word: u64) {
    let fit = seen.before.fit();
    match word {
        0 if seen.held > 0 => counts.reach(if fit { EMPTIED } else { EMPTIED_UNFIT }),
        2 => counts.reach(LOAD_REFUSED),
        4..=7 => counts.reach_if(seen.held > 0, LOAD_KEPT),
        _ => (),
    }
}
