// SPDX-License-Identifier: MIT OR Apache-2.0
//! L18: previews on each board, what they show, and what comes behind them.

use super::{
    BOARDS, Counter, Played, View,
    banking::{CHANGES, ROWS, row},
};
use crate::text::Call;

const SHOWN: [&str; 4] = ["PRG pages alone", "CHR pages alone", "pages of both tables", "no page"];

pub fn classes() -> Vec<String> {
    let mut classes = Vec::new();
    for board in BOARDS {
        classes.extend(SHOWN.map(|shown| format!("preview on a {board} shows {shown}")));
        classes.extend(ROWS.map(|(row, ..)| format!("preview of {row} on a {board}")));
        classes.push(format!("preview refused by 8 on a {board}"));
        classes.push(format!("two previews of a write on a {board}"));
        classes.push(format!("a preview and its write on a {board}"));
        classes.push(format!("{board}: 6000 would drop, previewed, then read"));
    }
    classes.extend(CHANGES.map(|(_, from, to)| format!("a preview and its write, {from} to {to}")));
    classes.extend(["163", "175"].map(|board| format!("{board}: a store into PRG-RAM, previewed, is not read")));
    classes
}

pub fn observe(played: &Played, counter: &mut Counter) {
    let (Some(before), Some(after)) = (played.before, played.after) else { return };
    if let Call::Preview(addr, _) = played.call {
        preview(played, before, *addr, counter);
    }
    let Some((Call::Preview(addr, val), answer)) = played.last else { return };
    match played.call {
        Call::Preview(again, same) if (again, same) == (addr, val) => {
            counter.hit(format!("two previews of a write on a {}", before.board()));
            counter.never(answer != played.answer, "two previews that differ");
        }
        Call::Write(written, same) if (written, same) == (addr, val) => {
            counter.never(answer != played.answer, "a preview that its write differs from");
            if played.accepted() {
                its_write(before, after, counter);
            }
        }
        Call::Read(read) if read == addr && (0x6000..0x8000).contains(addr) => its_read(played, before, *addr, *val, counter),
        _ => (),
    }
}

fn preview(played: &Played, before: &View, addr: u16, counter: &mut Counter) {
    let board = before.board();
    if !played.accepted() {
        counter.hit_if(played.refused(8), format!("preview refused by 8 on a {board}"));
        return;
    }
    let words = played.words();
    let shown = match (words[1], words[4]) {
        ("0", "0") => "no page",
        (_, "0") => "PRG pages alone",
        ("0", _) => "CHR pages alone",
        _ => "pages of both tables",
    };
    counter.hit(format!("preview on a {board} shows {shown}"));
    counter.hit(format!("preview of {} on a {board}", row(addr)));
}

fn its_write(before: &View, after: &View, counter: &mut Counter) {
    let (from, to) = (before.board(), after.board());
    counter.hit(format!("a preview and its write on a {from}"));
    counter.hit_if(from != to, format!("a preview and its write, {from} to {to}"));
}

/// The read right behind a preview of 6000..7FFF. Where the byte is another, it was not stored.
fn its_read(played: &Played, before: &View, addr: u16, val: u8, counter: &mut Counter) {
    let (board, page) = (before.board(), before.prg_entry(addr));
    let other = played.answer != format!("ok ${val:02X}");
    match page.is_writable() {
        true => counter.hit_if(other, format!("{board}: a store into {}, previewed, is not read", before.shows(page))),
        false => counter.hit(format!("{board}: 6000 would drop, previewed, then read")),
    }
}
