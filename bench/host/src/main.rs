// SPDX-License-Identifier: MIT OR Apache-2.0
//! The archive and the unchanged Rust on the same work, in one process: every answer and sample is compared first, then both are timed.

mod archive;
mod blocks;
#[allow(dead_code)]
#[path = "../../../oracle/host/src/functions.rs"]
mod functions;
mod reference;

use archive::Archive;
use reference::Reference;
use std::{hint::black_box, time::Instant};

pub const PRG_ROM: usize = 32_768;
pub const PRG_RAM: usize = 8_192;
pub const RESERVE: usize = 128;
pub const CHR: usize = 8_192;
pub const CIRAM: usize = 2_048;
/// The zero page and the five regions.
pub const ARENA: usize = 1_024 + PRG_ROM + PRG_RAM + 1_024 + CHR + CIRAM;
/// Of the longest run (C4, C6).
pub const MOST_SAMPLES: usize = (14 + 29_781) / 15;

const RUNS: [u64; 4] = [1, 15, 114, 29_781];
/// 65,536 clocks, in runs as long as they may be (C4). The goals for single calls are parts of the Rust's time for them.
const THREE_RUNS: [u64; 3] = [29_781, 29_781, 5_974];

/// Register writes that turn on so many channels, with notes of their own, and leave the counter clear.
fn tune(channels: u8) -> Vec<(u16, u8)> {
    let mut writes = vec![(0xE000, 0x00), (0xF800, 0x80)];
    let ram = (0..128u8).map(|place| match place {
        0..64 => place.wrapping_mul(37) ^ place >> 3,
        _ => match place % 8 {
            0 => place.wrapping_mul(29),
            2 => place.wrapping_mul(13),
            4 => 0xE1,
            6 => place / 2,
            7 => (channels - 1) << 4 | 0x0F,
            _ => 0,
        },
    });
    writes.extend(ram.map(|byte| (0x4800, byte)));
    writes
}

fn sides(channels: u8) -> (Archive, Reference) {
    let (mut ours, mut theirs) = (Archive::new(), Reference::load());
    assert_eq!(ours.load(), 0);
    for (addr, val) in tune(channels) {
        assert_eq!(ours.write(addr, val) & 0xFF, 0);
        theirs.write(addr, val);
    }
    (ours, theirs)
}

fn compare(channels: u8) {
    let (mut ours, mut theirs) = sides(channels);
    for clocks in RUNS.into_iter().chain(THREE_RUNS).cycle().take(28) {
        let answer = ours.run(clocks);
        assert_eq!(answer, theirs.run_by_calls(clocks), "run of {clocks}");
        let made = (answer >> 8 & 0xFF_FFFF) as usize;
        for (bytes, sample) in ours.samples.chunks(4).zip(&theirs.samples).take(made) {
            assert_eq!(bytes, sample.to_bits().to_be_bytes(), "a sample of a run of {clocks}");
        }
        assert_eq!(ours.read(0x4800), u64::from(theirs.read(0x4800)) << 8);
    }
}

/// Nanoseconds a call, the least of several rounds.
fn time<T>(mut call: impl FnMut() -> T) -> f64 {
    let mut call = || _ = black_box(call());
    let start = Instant::now();
    call();
    let once = start.elapsed().as_secs_f64().max(2e-8);
    let calls = ((0.02 / once) as u64).clamp(1, 200_000);
    let round = |call: &mut dyn FnMut()| {
        let start = Instant::now();
        (0..calls).for_each(|_| call());
        start.elapsed().as_secs_f64() * 1e9 / calls as f64
    };
    (0..15).map(|_| round(&mut call)).fold(f64::INFINITY, f64::min)
}

/// Prints a row for each run and one for the three; answers the Rust's time for the three, by calls.
fn runs(channels: u8) -> f64 {
    println!("\n{channels} channel{}", if channels == 1 { "" } else { "s" });
    println!("{:>8} {:>12} {:>12} {:>8} {:>12} {:>8}", "a run of", "archive", "by calls", "ratio", "in a loop", "ratio");
    let row = |clocks: u64, a: f64, r: f64, l: f64| println!("{clocks:>8} {a:>12.0} {r:>12.0} {:>8.2} {l:>12.0} {:>8.2}", r / a, l / a);
    for clocks in RUNS {
        let (mut ours, mut theirs) = sides(channels);
        let a = time(|| ours.run(clocks));
        let r = time(|| theirs.run_by_calls(clocks));
        let l = time(|| theirs.run_in_a_loop(clocks));
        row(clocks, a, r, l);
    }
    let (mut ours, mut theirs) = sides(channels);
    let a = time(|| THREE_RUNS.map(|clocks| ours.run(clocks)));
    let r = time(|| THREE_RUNS.map(|clocks| theirs.run_by_calls(clocks)));
    let l = time(|| THREE_RUNS.map(|clocks| theirs.run_in_a_loop(clocks)));
    row(THREE_RUNS.iter().sum(), a, r, l);
    r
}

/// `three_runs` is the Rust's time for 65,536 clocks.
fn others(three_runs: f64) {
    let (mut ours, mut theirs) = sides(8);
    let line = |name: &str, a: f64, r: f64| println!("{name:>22} {a:>8.0} {r:>8.0}   1/{:.0}", three_runs / a);
    println!("\nSingle calls, and the archive's time as part of the Rust's for 65,536 clocks at 8 channels");
    println!("{:>22} {:>8} {:>8}", "", "archive", "Rust");
    let read = |ours: &mut Archive, addr| time(|| ours.read(black_box(addr)));
    line("read of 8000", read(&mut ours, 0x8000), time(|| theirs.read(black_box(0x8000))));
    line("read of 4800", read(&mut ours, 0x4800), time(|| theirs.read(black_box(0x4800))));
    let mut bank = 0;
    let a = time(|| {
        bank ^= 1;
        ours.write(0xE000, bank)
    });
    let r = time(|| {
        bank ^= 1;
        theirs.write(0xE000, black_box(bank));
    });
    line("write of E000, a bank", a, r);
    line("load", time(|| ours.load()), time(Reference::load));
}

/// C25: boards whose sound does not step, with the counter that their runs begin with.
const IDLE: [(&str, u16, u8, &[(u16, u8)], u16); 2] = [
    ("a 340, counter stopped", 210, 2, &[], 0),
    ("a 163, sound off, counter from 8000", 19, 0, &[(0xE000, 0x40), (0x5000, 0x00), (0x5800, 0x80)], 0x8000),
];

/// C25: runs that end early or count alone, each on the same image, which is lent anew for each call. A run of no clock is a run's fixed
/// part; what the others cost beyond it is shown.
fn idles() {
    println!("\nRuns without sound, and what the archive's cost beyond a run of 0 clocks");
    println!("{:>36} {:>8} {:>8} {:>8} {:>8}", "", "clocks", "archive", "Rust", "beyond");
    for (name, mapper, submapper, writes, counter) in IDLE {
        let (mut ours, mut theirs) = (Archive::new(), Reference::load_as(mapper, submapper));
        assert_eq!(ours.load_as(mapper.into(), submapper), 0);
        for &(addr, val) in writes {
            ours.write(addr, val);
            theirs.write(addr, val);
        }
        let image = ours.image;
        let mut fixed = 0.0;
        for clocks in [0, 114, 29_781] {
            let mut run = || {
                ours.image = black_box(image);
                ours.run(black_box(clocks))
            };
            let mut stepped = || {
                theirs.restart(black_box(counter));
                theirs.run_by_calls(black_box(clocks))
            };
            assert_eq!(run(), stepped(), "{name}, a run of {clocks}");
            let (a, r) = (time(run), time(stepped));
            fixed = if clocks == 0 { a } else { fixed };
            println!("{name:>36} {clocks:>8} {a:>8.0} {r:>8.0} {:>8.0}", a - fixed);
        }
    }
}

/// Writes of each kind: one that stores, three of registers alone, and three that map.
const PREVIEWED: [(&str, u16, u8); 7] = [
    ("6000=12, a store", 0x6000, 0x12),
    ("4800=5A, a sound byte", 0x4800, 0x5A),
    ("5000=FE, the counter", 0x5000, 0xFE),
    ("F800=80, the address", 0xF800, 0x80),
    ("8000=E1, a CHR slot", 0x8000, 0xE1),
    ("C000=E0, a nametable", 0xC000, 0xE0),
    ("E000=01, a bank", 0xE000, 0x01),
];

/// L18: a preview beside the write that it previews, each on the same image, which is lent anew for each call on both sides; the words are
/// compared first. The goal is that a preview costs no more.
fn previews() {
    let (mut ours, _) = sides(8);
    let image = ours.image;
    println!("\nA preview and its write, by the archive; a ratio is the preview's time divided by the write's, and at most 1 is the goal");
    println!("{:>22} {:>8} {:>8} {:>8}", "", "preview", "write", "ratio");
    let mut most = 0.0f64;
    for (name, addr, val) in PREVIEWED {
        let preview = |ours: &mut Archive| {
            ours.image = black_box(image);
            ours.preview(black_box(addr), black_box(val))
        };
        let write = |ours: &mut Archive| {
            ours.image = black_box(image);
            ours.write(black_box(addr), black_box(val))
        };
        assert_eq!(preview(&mut ours), write(&mut ours), "{name}");
        let (p, w) = (time(|| preview(&mut ours)), time(|| write(&mut ours)));
        most = most.max(p / w);
        println!("{name:>22} {p:>8.0} {w:>8.0} {:>8.2}", p / w);
    }
    println!("The largest ratio is {most:.2}: a preview costs {} its write", if most <= 1.0 { "no more than" } else { "MORE than" });
}

fn main() {
    [1, 8].into_iter().for_each(compare);
    println!("Answers and samples agree. Times are ns a call; a ratio is the Rust's time divided by the archive's.");
    println!("The Rust is stepped with one call for each clock, and then with all clocks in one loop.");
    println!("65,536 clocks are three runs on both sides: {THREE_RUNS:?}.");
    runs(1);
    let three_runs = runs(8);
    others(three_runs);
    idles();
    previews();
    blocks::blocks();
}
