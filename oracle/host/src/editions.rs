// SPDX-License-Identifier: MIT OR Apache-2.0
//! What calls have to reach of the editions (L19 to L22) and of the two lengths of an image (H9, H10).

use crate::counts::Counts;
use oracle::{
    host::{BlockCall, Host, HostCall},
    image::{LEN, OPTIONS_LEN, PRG_RAM_HIGH},
    layout::{Load, PAGE},
    options::{F800_PROTECTS, Options},
    session::{F800, Session, entry},
};
use tetanes::m019_namco163::Board;

const LOADED: [&str; 3] = [
    "loads without an option into 307 bytes, by the call with options",
    "loads without an option into 308 bytes, by either call",
    "loads with an option into 308 bytes",
];
const OPTION_REFUSED: &str = "loads with an option refused by 1 for 307 bytes";
const OPTION_REFUSED_FIRST: &str = "loads with an option refused by 1 for 307 bytes, and by 4, 5 or 6 with more";
const BLOCKS_LOADED: &str = "loads with an option and a directory";
const BLOCKS_REFUSED: &str = "loads with an option and a directory refused by 1 for 307 bytes";
const CALLS: [&str; 3] =
    ["accepted calls on 307 bytes", "accepted calls on 308 bytes, old edition", "accepted calls on 308 bytes, new edition"];
const UNUSED_BIT: &str = "calls refused by 2 for an unused bit of the options";
const FLAGS: &str = "F800 writes that change flags";
const NO_FLAGS: &str = "F800 writes to a 163 of the new edition that change none";
const OLD_F800: &str = "F800 writes to a 163 of the old edition";
const STORED: &str = "writes to 6000..7FFF of a 163 of the new edition that store";
const DROPPED: &str = "writes to 6000..7FFF of a 163 of the new edition that are dropped";
const NAMETABLES: &str = "F800 writes that change CHR entries";
const OTHERS: [&str; 11] = [
    OPTION_REFUSED,
    OPTION_REFUSED_FIRST,
    BLOCKS_LOADED,
    BLOCKS_REFUSED,
    UNUSED_BIT,
    FLAGS,
    NO_FLAGS,
    OLD_F800,
    STORED,
    DROPPED,
    NAMETABLES,
];

pub fn want(counts: &mut Counts) {
    for wanted in [&LOADED[..], &CALLS, &OTHERS] {
        counts.want(wanted);
    }
}

/// What is lent to a call.
pub struct Before {
    image_len: usize,
    options: u8,
    /// Where the image can be read.
    session: Option<State>,
}

struct State {
    protects: bool,
    /// A 163 of the old edition.
    old_163: bool,
    ram: bool,
    writable: [bool; 64],
}

pub fn seen(host: &Host) -> Before {
    let state = |session: &Session| State {
        protects: session.protects(),
        old_163: !session.options.f800_protects && session.chip.board == Board::Namco163,
        ram: session.layout().prg_ram > 0,
        writable: session.memory.prg_pages().map(|page| entry(page).1),
    };
    let options = host.image().get(LEN).copied().unwrap_or(0);
    Before { image_len: host.image().len(), options, session: host.session().map(state) }
}

pub fn count(counts: &mut Counts, before: &Before, call: HostCall, word: u64) {
    let accepted = word as u8 == 0;
    match call {
        HostCall::Load(_) => return counts.reach_if(accepted && before.image_len == OPTIONS_LEN, LOADED[1]),
        HostCall::LoadOptions(load) => return loaded(counts, before.image_len, &load, word),
        HostCall::Write(addr, _) if accepted => write(counts, before, addr, word),
        _ => (),
    }
    let unused = before.image_len == OPTIONS_LEN && Options::of_byte(before.options & !PRG_RAM_HIGH).is_none();
    counts.reach_if(unused && word == 2, UNUSED_BIT);
    if accepted {
        counts.reach(CALLS[usize::from(before.image_len == OPTIONS_LEN) + usize::from(before.options & F800_PROTECTS != 0)]);
    }
}

fn loaded(counts: &mut Counts, image_len: usize, load: &Load, word: u64) {
    match (image_len, load.options().any(), word) {
        (LEN, false, 0) => counts.reach(LOADED[0]),
        (OPTIONS_LEN, false, 0) => counts.reach(LOADED[1]),
        (OPTIONS_LEN, true, 0) => counts.reach(LOADED[2]),
        (LEN, true, 1) => {
            counts.reach(OPTION_REFUSED);
            counts.reach_if(Session::load(load, load.arena_len()).is_err(), OPTION_REFUSED_FIRST);
        }
        _ => (),
    }
}

fn write(counts: &mut Counts, before: &Before, addr: u16, word: u64) {
    let Some(state) = &before.session else { return };
    if addr >= F800 {
        let flags = word & 0xFF00_0000 != 0;
        counts.reach_if(state.protects, if flags { FLAGS } else { NO_FLAGS });
        counts.reach_if(state.protects && word >> 8 & 0xFFFF != 0, NAMETABLES);
        counts.reach_if(state.old_163, OLD_F800);
    }
    if (0x6000..0x8000).contains(&addr) && state.protects && state.ram {
        counts.reach(if state.writable[usize::from(addr) / PAGE as usize] { STORED } else { DROPPED });
    }
}

pub fn count_blocks(counts: &mut Counts, image_len: usize, call: BlockCall, word: u64) {
    if let BlockCall::Load(load) = call {
        counts.reach_if(load.options().any() && word == 0, BLOCKS_LOADED);
        counts.reach_if(load.options().any() && image_len == LEN && word == 1, BLOCKS_REFUSED);
    }
}
