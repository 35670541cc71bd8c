// SPDX-License-Identifier: MIT OR Apache-2.0
//! Previews (L18): their word, that they leave each byte that is lent, and that the write behind them answers the same.

use crate::pair::{Compared, Pair};
use oracle::{
    host::HostCall,
    layout::PAGE,
    rng::Rng,
    session::{Session, entry},
};

const PRG: &str = "previews that show PRG pages alone";
const CHR: &str = "previews that show CHR pages alone";
const BOTH: &str = "previews that show pages of both tables";
const NEITHER: &str = "previews that show no page";
const REFUSED: [&str; 4] = ["previews refused by 1", "previews refused by 2", "previews refused by 7", "previews refused by 8"];
const SHOWN: [&str; 4] = [PRG, CHR, BOTH, NEITHER];

const WRITTEN: &str = "previews and then their write";
const TWICE: &str = "two previews and then their write";
const REFUSED_WRITTEN: &str = "refused previews and then their write, refused, too";
const STORES: &str = "previews of a write that stores";
const BOARDS: &str = "previews of a write that changes the board";
const THEN: [&str; 5] = [WRITTEN, TWICE, REFUSED_WRITTEN, STORES, BOARDS];

/// A preview: the pair compares both sides; besides, the archive's bytes are what they were.
pub fn preview(pair: &mut Pair, addr: u16, val: u8) -> Compared<u64> {
    let before = pair.lent().map(<[u8]>::to_vec);
    let word = pair.call(HostCall::Preview(addr, val))?;
    if pair.lent() != before.each_ref().map(Vec::as_slice) {
        return Err(format!("the preview of {addr:04X}={val:02X} altered what was lent"));
    }
    pair.counts.want(&SHOWN);
    pair.counts.want(&REFUSED);
    pair.counts.reach(shown(word));
    Ok(word)
}

/// H6: what a preview's word is counted as.
fn shown(word: u64) -> &'static str {
    let [by_1, by_2, by_7, by_8] = REFUSED;
    match (word as u8, word >> 24 != 0, word >> 8 & 0xFFFF != 0) {
        (0, true, false) => PRG,
        (0, false, true) => CHR,
        (0, true, true) => BOTH,
        (0, false, false) => NEITHER,
        (1, ..) => by_1,
        (2, ..) => by_2,
        (7, ..) => by_7,
        (8, ..) => by_8,
        (number, ..) => unreachable!("the Rust refuses no preview by {number}"),
    }
}

/// A preview, at times a second one, and the write: one word.
pub fn then_write(pair: &mut Pair, rng: &mut Rng, addr: u16, val: u8) -> Compared<u64> {
    let stores = pair.host().session().is_some_and(|session| stores(session, addr));
    let board = pair.host().session().map(|session| session.chip.board);
    let word = preview(pair, addr, val)?;
    let twice = rng.once_in(3);
    let again = if twice { preview(pair, addr, val)? } else { word };
    let written = pair.call(HostCall::Write(addr, val))?;
    if (again, written) != (word, word) {
        return Err(format!("{addr:04X}={val:02X}: previews {word:016X} and {again:016X}, but its write {written:016X}"));
    }
    let accepted = word as u8 == 0;
    let becomes = pair.host().session().map(|session| session.chip.board);
    pair.counts.want(&THEN);
    pair.counts.reach_if(accepted, if twice { TWICE } else { WRITTEN });
    pair.counts.reach_if(!accepted, REFUSED_WRITTEN);
    pair.counts.reach_if(accepted && stores, STORES);
    pair.counts.reach_if(accepted && becomes != board, BOARDS);
    Ok(written)
}

/// Whether a write there stores.
fn stores(session: &Session, addr: u16) -> bool {
    entry(session.memory.prg_pages()[usize::from(addr) / PAGE as usize]).1
}
