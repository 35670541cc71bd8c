// SPDX-License-Identifier: MIT OR Apache-2.0
//! Results at the edges of the clauses of docs/SCOPE.md, on the Rust: a file for each letter, one for L11, one for L18, one for the new
//! edition, one for signed levels and plain sums, one for M5 without PRG-RAM, and one for more than 64 pages of it.

mod blocks;
mod clock;
mod host;
mod levels;
mod load;
mod memory;
mod no_ram;
mod preview;
mod protection;
mod records;
mod refusals;
mod registers;
mod sound;
mod work_ram;

use super::checks::Check;

pub const SECTIONS: [(&str, Check); 14] = [
    ("R: records", records::check),
    ("M: memory", memory::check),
    ("M5: carts without PRG-RAM", no_ram::check),
    ("R1, H12: PRG-RAM of more than 64 pages", work_ram::check),
    ("L: load, detection and banking", load::check),
    ("L11: register writes", registers::check),
    ("L18: previews", preview::check),
    ("L19 to L24: the new edition", protection::check),
    ("S: sound", sound::check),
    ("S13 to S17: signed levels and plain sums", levels::check),
    ("C: clocks, reset, battery", clock::check),
    ("H: host and image", host::check),
    ("N: refused calls", refusals::check),
    ("B: the directory", blocks::check),
];
