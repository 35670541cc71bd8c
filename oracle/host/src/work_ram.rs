// SPDX-License-Identifier: MIT OR Apache-2.0
//! What calls have to reach of PRG-RAM of more than 64 pages (R1, H12, N1).

use crate::counts::Counts;
use oracle::{
    host::{BlockCall, Host, HostCall},
    image::{LEN, OPTIONS_LEN, PRG_RAM_HIGH},
    layout::{LONG_PRG_RAM, Load, PAGE, PRG_RAM_LIMIT},
    session::Session,
};

/// By the call: without options, with them, with a directory.
const LONG_LOADED: [&str; 3] = [
    "loads of 128 pages of PRG-RAM into 308 bytes, by the call without options",
    "loads of 128 pages of PRG-RAM into 308 bytes, by the call with options",
    "loads of 128 pages of PRG-RAM into 308 bytes, with a directory",
];
const LONG_REFUSED: [&str; 3] = [
    "loads of 128 pages of PRG-RAM refused by 1 for 307 bytes, by the call without options",
    "loads of 128 pages of PRG-RAM refused by 1 for 307 bytes, by the call with options and with none set",
    "loads of 128 pages of PRG-RAM refused by 1 for 307 bytes, with a directory",
];
const REFUSED_FIRST: &str = "loads of 128 pages of PRG-RAM refused by 1 for 307 bytes, and by 4 or more with more";
const BEYOND: [&str; 2] = [
    "loads of more than 131,072 bytes of PRG-RAM refused by 5, 307 bytes",
    "loads of more than 131,072 bytes of PRG-RAM refused by 5, 308 bytes",
];
const LOADED: [&str; 2] = ["loads of 65 to 127 pages of PRG-RAM into 307 bytes", "loads of 65 to 127 pages of PRG-RAM into 308 bytes"];
/// Of the calls that read an image.
const CALLS: [&str; 4] = [
    "accepted calls on 65 to 127 pages of PRG-RAM, 307 bytes",
    "accepted calls on 65 to 127 pages of PRG-RAM, 308 bytes",
    "accepted calls on 128 pages of PRG-RAM, no option",
    "accepted calls on 128 pages of PRG-RAM, an option",
];
const COUNTS: &str = "calls refused by 2 for 129 to 255 pages of PRG-RAM";

pub fn want(counts: &mut Counts) {
    for wanted in [&LONG_LOADED[..], &LONG_REFUSED, &[REFUSED_FIRST], &BEYOND, &LOADED, &CALLS, &[COUNTS]] {
        counts.want(wanted);
    }
}

/// `image` is what was lent; the host has what the call left.
pub fn count(counts: &mut Counts, image: &[u8], host: &Host, call: HostCall, word: u64) {
    match call {
        HostCall::Load(load) => return loaded(counts, image.len(), &load, 0, word),
        HostCall::LoadOptions(load) => return loaded(counts, image.len(), &load, 1, word),
        _ => (),
    }
    counts.reach_if(word == 2 && pages_of(image) > Some(LONG_PRG_RAM), COUNTS);
    let Some(session) = host.session().filter(|_| word as u8 == 0) else { return };
    match session.layout().prg_ram {
        65..LONG_PRG_RAM => counts.reach(CALLS[usize::from(image.len() == OPTIONS_LEN)]),
        LONG_PRG_RAM => counts.reach(CALLS[2 + usize::from(session.options.any())]),
        _ => (),
    }
}

pub fn count_blocks(counts: &mut Counts, image_len: usize, call: BlockCall, word: u64) {
    if let BlockCall::Load(load) = call {
        loaded(counts, image_len, &load, 2, word);
    }
}

/// H1, H12: the count in an image of one of the two lengths.
fn pages_of(image: &[u8]) -> Option<u64> {
    let low = u64::from(image.get(304)? & 0x3F) << 1 | u64::from(image.get(305)? >> 7);
    let high = image.get(LEN).is_some_and(|last| last & PRG_RAM_HIGH != 0);
    (LEN..=OPTIONS_LEN).contains(&image.len()).then_some(low + if high { LONG_PRG_RAM } else { 0 })
}

fn loaded(counts: &mut Counts, image_len: usize, load: &Load, by: usize, word: u64) {
    let optional = by != 0 && load.options().any();
    match (image_len, load.prg_ram.div_ceil(PAGE), word) {
        (LEN, LONG_PRG_RAM, 1) => {
            counts.reach_if(!optional, LONG_REFUSED[by]);
            counts.reach_if(Session::load(load, load.arena_len()).is_err(), REFUSED_FIRST);
        }
        (OPTIONS_LEN, LONG_PRG_RAM, 0) => counts.reach(LONG_LOADED[by]),
        (LEN | OPTIONS_LEN, 65..LONG_PRG_RAM, 0) => counts.reach(LOADED[usize::from(image_len == OPTIONS_LEN)]),
        (LEN | OPTIONS_LEN, _, 5) => counts.reach_if(load.prg_ram > PRG_RAM_LIMIT, BEYOND[usize::from(image_len == OPTIONS_LEN)]),
        _ => (),
    }
}
