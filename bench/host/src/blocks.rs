// SPDX-License-Identifier: MIT OR Apache-2.0
//! The calls with a directory of 256 blocks, beside a read and beside the writes without a directory.

use crate::{archive::Archive, sides, time};
use std::hint::black_box;

/// Blocks of 96 bytes fill A000..FFFF: they lie over no page that a timed write touches, so none goes.
const FIRST: u16 = 0xA000;
const LENGTH: u16 = 96;
/// Inside a block, so the start of none.
const NOT_HELD: u16 = FIRST + 128 * LENGTH + 1;

/// Goals: a find of at most half a read, a write of at most twice the one without a directory.
const FIND: f64 = 0.5;
const WRITE: f64 = 2.0;

/// A write of each kind: one that stores, one of registers alone, and one that maps.
const WRITES: [(&str, u16, u8); 3] =
    [("write of 6000, a store", 0x6000, 0x12), ("write of 5000, the counter", 0x5000, 0xFE), ("write of E000, a bank", 0xE000, 0x01)];

fn ascending() -> Vec<u16> {
    (0..256).map(|block| FIRST + block * LENGTH).collect()
}

/// The same starts in another order, by a generator with a fixed seed.
fn shuffled() -> Vec<u16> {
    let (mut starts, mut seed) = (ascending(), 163u64);
    for last in (1..starts.len()).rev() {
        seed = seed.wrapping_mul(6_364_136_223_846_793_005).wrapping_add(1_442_695_040_888_963_407);
        starts.swap(last, (seed >> 33) as usize % (last + 1));
    }
    starts
}

/// The host's number of a block.
fn number(start: u16) -> u32 {
    0xB10C_0000 | u32::from(start)
}

/// Registers the blocks, and compares what a find and a lookup answer of each.
fn hold(ours: &mut Archive, starts: &[u16]) {
    for &start in starts {
        assert_eq!(ours.register(start, LENGTH.into(), number(start)), 0, "register {start:04X}");
    }
    for &start in starts {
        let word = u64::from(number(start)) << 32 | u64::from(LENGTH) << 8;
        assert_eq!((ours.find(start), ours.lookup(start)), (word, word), "{start:04X}");
    }
    assert_eq!((ours.find(NOT_HELD), ours.lookup(NOT_HELD)), (0, 0), "{NOT_HELD:04X}");
}

/// A write with the directory and one without, each on the same image, which is lent anew for each call on both sides; answer, image and
/// arena are compared first, and that no block goes.
fn written(ours: &mut Archive, addr: u16, val: u8) -> (f64, f64) {
    let (image, held) = (ours.image, ours.directory);
    let with = |ours: &mut Archive| {
        ours.image = black_box(image);
        ours.write_blocks(black_box(addr), black_box(val))
    };
    let without = |ours: &mut Archive| {
        ours.image = black_box(image);
        ours.write(black_box(addr), black_box(val))
    };
    let arena = ours.arena.clone();
    let left = (with(ours), ours.image, ours.arena.clone());
    ours.arena = arena;
    assert_eq!((without(ours), ours.image, ours.arena.clone()), left, "{addr:04X}");
    assert_eq!(ours.directory, held, "{addr:04X}");
    let times = pair(ours, with, without);
    ours.image = image;
    times
}

fn pair(ours: &mut Archive, call: impl Fn(&mut Archive) -> u64, beside: impl Fn(&mut Archive) -> u64) -> (f64, f64) {
    (time(|| call(ours)), time(|| beside(ours)))
}

/// K: each call's time, that of the call beside it, their ratio and its goal; the last line says which rows miss theirs.
pub fn blocks() {
    println!("\nWith a directory of 256 blocks, by the archive, and the call beside it: a read of 8000, or the write without a directory");
    let mut missed = Vec::new();
    for (order, starts) in [("ascending", ascending()), ("shuffled", shuffled())] {
        println!("{:>30} {:>8} {:>8} {:>8} {:>8}", format!("registered {order}"), "time", "beside", "ratio", "goal");
        let mut row = |name: &str, (a, b): (f64, f64), goal: Option<f64>| {
            let at_most = goal.map_or(String::new(), |goal| format!("{goal:.1}"));
            println!("{name:>30} {a:>8.0} {b:>8.0} {:>8.2} {at_most:>8}", a / b);
            if goal.is_some_and(|goal| a / b > goal) {
                missed.push(format!("{name} ({order})"));
            }
        };
        let (mut ours, _) = sides(8);
        hold(&mut ours, &starts);
        let last = (ours.directory[255] >> 48) as u16;
        let read = |ours: &mut Archive| ours.read(black_box(0x8000));
        row("find, in the last place", pair(&mut ours, |ours| ours.find(black_box(last)), read), Some(FIND));
        row("find, not held", pair(&mut ours, |ours| ours.find(black_box(NOT_HELD)), read), Some(FIND));
        row("lookup, in the last place", pair(&mut ours, |ours| ours.lookup(black_box(last)), read), None);
        let held = ours.directory;
        let register = |ours: &mut Archive| ours.register(black_box(last), black_box(LENGTH.into()), number(last));
        assert_eq!((register(&mut ours), ours.directory), (0, held), "a block registered again");
        row("register, a held start", pair(&mut ours, register, read), None);
        for (name, addr, val) in WRITES {
            row(name, written(&mut ours, addr, val), Some(WRITE));
        }
    }
    match missed.as_slice() {
        [] => println!("All goals are met: a find of at most half a read, a write of at most twice the one without a directory"),
        _ => println!("NOT met by {} of 10 rows: {}", missed.len(), missed.join("; ")),
    }
}
