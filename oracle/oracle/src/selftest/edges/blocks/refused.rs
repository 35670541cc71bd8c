// SPDX-License-Identifier: MIT OR Apache-2.0
//! K2, N2: unfit directories, and which calls they are refused in; K4, K7, K10 as a C host meets them.

use crate::selftest::{
    bench::{Handy, P, loaded, refusal},
    checks::Checks,
};
use oracle::{
    directory::{Directory, PLACES},
    host::{BlockCall, Host, HostCall},
    layout::{Load, Region},
    session::Session,
};

pub fn check(t: &mut Checks) {
    fit_or_not(t);
    calls(t);
    words(t);
    host_loads(t);
    host_writes(t);
    stored(t);
}

/// Places with these numbers in them, each at its index.
fn places(held: &[(usize, u64)]) -> Directory {
    let mut directory = Directory::default();
    for (place, number) in held {
        directory.places[*place] = *number;
    }
    directory
}

fn of_length(places: usize) -> Directory {
    Directory { places: vec![0; places] }
}

fn unfit() -> Vec<(&'static str, Directory)> {
    vec![
        ("a start twice, side by side", places(&[(0, 0x6000_0001_0000_0000), (1, 0x6000_0001_0000_0000)])),
        ("a start twice, apart", places(&[(0, 0x6000_0001_0000_0000), (7, 0x8000_0001_0000_0000), (255, 0x6000_0002_0000_0001)])),
        ("a number and no start", places(&[(9, 1)])),
        ("a length and no start", places(&[(9, 0x0000_0001_0000_0000)])),
        ("no length", places(&[(0, 0x6000_0000_0000_0001)])),
        ("4097 bytes", places(&[(255, 0x6000_1001_0000_0000)])),
        ("below 6000", places(&[(0, 0x5FFF_0001_0000_0000)])),
        ("below 4800", places(&[(0, 0x47FF_0001_0000_0000)])),
        ("beyond FFFF", places(&[(0, 0xF001_1000_0000_0000)])),
        ("all bits", places(&[(0, u64::MAX)])),
        ("no place", of_length(0)),
        ("255 places", of_length(PLACES - 1)),
        ("257 places", of_length(PLACES + 1)),
    ]
}

fn fit_or_not(t: &mut Checks) {
    for (what, directory) in unfit() {
        t.holds(what, !directory.fit());
    }
    for (what, directory) in [
        ("empty", Directory::default()),
        ("at both ends", places(&[(0, 0x6000_1000_FFFF_FFFF), (255, 0xFFFF_0001_0000_0000)])),
        ("no order, with gaps", places(&[(3, 0xF000_1000_0000_0000), (100, 0x6000_0001_0000_0000)])),
        ("overlapping, one number", places(&[(0, 0x6000_1000_0000_0007), (1, 0x6001_1000_0000_0007)])),
    ] {
        t.holds(what, directory.fit());
    }
}

type Call = fn(&mut Session) -> u8;

/// N20: calls that take the directory, with arguments as wrong as they can be, and calls that do not take it.
const TAKE_IT: &[(&str, Call)] = &[
    ("register", |s| refusal(s.directory.register(0x47FF, 0, 0))),
    ("lookup", |s| refusal(s.directory.lookup(0x47FF))),
    ("write", |s| refusal(s.write(0x47FF, 0))),
    ("preview", |s| refusal(s.preview(0x47FF, 0))),
    ("CHR write", |s| refusal(s.chr_write(0, 0))),
    ("region write", |s| refusal(s.region_write(Region::PrgRom, 0, 0))),
    ("fill", |s| refusal(s.fill(Region::PrgRom, &[0; 32_769]))),
    ("sync", |s| refusal(s.sync_battery())),
];
const HAND_IT_ON: &[(&str, Call)] = &[
    ("read", |s| refusal(s.read(0x4800))),
    ("peek", |s| refusal(s.peek(0x4800))),
    ("CHR read", |s| refusal(s.chr_read(0))),
    ("region peek", |s| refusal(s.region_peek(Region::PrgRom, 0))),
    ("sram", |s| refusal(s.sram())),
    ("run", |s| refusal(s.run(1, &mut [0.0]))),
    ("reset", |s| refusal(s.reset(0))),
    ("restore", |s| refusal(s.restore_battery())),
    ("image", |s| refusal(s.image(&mut [0; 307]))),
];

/// 2 comes before 7, 8, 9, 12 and 13; a refused call alters nothing.
fn calls(t: &mut Checks) {
    for (what, directory) in unfit() {
        let mut cart = loaded(P);
        cart.directory = directory.clone();
        for (call, make) in HAND_IT_ON {
            t.eq(&format!("{call}, {what}"), make(&mut cart), 0);
        }
        t.holds("as it was", cart.directory == directory);
        let mut short = cart.clone();
        *short.memory.raw_battery_ext_len_mut() = 0;
        *short.memory.raw_data_mut() = vec![0; 53_247].into();
        let before = short.whole();
        for (call, make) in TAKE_IT {
            t.eq(&format!("{call}, {what}"), make(&mut short), 2);
        }
        t.holds("nothing is altered", short.whole() == before);
    }
}

/// K4: length from bit 8 on, number from bit 32 on.
fn words(t: &mut Checks) {
    let mut host = Host::new(loaded(P));
    for (start, length, number) in [(0x6000, 16, 0xDEAD_BEEF), (0xFFFF, 1, 0), (0x7000, 4096, u32::MAX)] {
        t.eq("register", host.call_blocks(BlockCall::Register { start, length, number }), 0);
    }
    for (start, word) in
        [(0x6000, 0xDEAD_BEEF_0000_1000), (0xFFFF, 0x100), (0x7000, 0xFFFF_FFFF_0010_0000), (0x6001, 0), (0x5FFF, 0), (0x47FF, 8)]
    {
        t.eq("lookup", host.call_blocks(BlockCall::Lookup(start)), word);
        t.eq("find", host.call_blocks(BlockCall::Find(start)), if word == 8 { 0 } else { word });
    }
    host.directory = places(&[(4, 0x6000_0002_0000_0001), (5, 0x6000_0003_0000_0002), (6, 7), (7, 0x0000_0005_0000_0000)]);
    t.eq("lookup, unfit", host.call_blocks(BlockCall::Lookup(0x6000)), 2);
    t.eq("find, unfit", [0x6000, 0].map(|start| host.call_blocks(BlockCall::Find(start))), [0x1_0000_0200, 0x7_0000_0000]);
    host.directory.places.truncate(5);
    t.eq("find in five places", host.call_blocks(BlockCall::Find(0x6000)), 0x1_0000_0200);
}

/// K7: a load takes 256 places of any content, empties them where it is accepted, and meets 2 between 1 and 4.
fn host_loads(t: &mut Checks) {
    let bad = Load { mapper: 20, ..P };
    for (what, image_len, directory, load, word) in [
        ("a full one", 307, Directory { places: vec![u64::MAX; PLACES] }, P, 0),
        ("refused by 4", 307, Directory { places: vec![u64::MAX; PLACES] }, bad, 4),
        ("255 places", 307, of_length(255), bad, 2),
        ("257 places", 307, of_length(257), P, 2),
        ("a short image", 306, of_length(255), bad, 1),
    ] {
        let mut host = Host::new(loaded(P));
        host.lend_image(&vec![0; image_len]);
        host.directory = directory.clone();
        t.eq(what, host.call_blocks(BlockCall::Load(load)), word);
        t.holds("its directory", if word == 0 { host.directory == Directory::default() } else { host.directory == directory });
    }
}

/// A write with a directory, and one without, which leaves it.
fn host_writes(t: &mut Checks) {
    let mut host = Host::new(loaded(P));
    host.directory = places(&[(3, 0x6000_0001_0000_0000), (4, 0x8000_0001_0000_0000)]);
    t.eq("namco163_write", host.call(HostCall::Write(0x6000, 0x12)), 0);
    t.eq("E000=05", host.call_blocks(BlockCall::Write(0xE000, 0x05)), 0xFF_0000_0000);
    t.holds("8000 goes", host.directory == places(&[(3, 0x6000_0001_0000_0000)]));
    t.eq("6000=12", host.call_blocks(BlockCall::Write(0x6000, 0x12)), 0);
    t.holds("6000 goes", host.directory == Directory::default());
    t.eq("47FF", host.call_blocks(BlockCall::Write(0x47FF, 0)), 8);
    host.directory = of_length(0);
    t.eq("no place", host.call_blocks(BlockCall::Write(0x47FF, 0)), 2);
    host.lend_image(&[0; 306]);
    t.eq("a short image", host.call_blocks(BlockCall::Write(0x47FF, 0)), 1);
}

/// K10: by the arena page of the byte that a host stored into.
fn stored(t: &mut Checks) {
    let all = places(&[(0, 0x6000_0001_0000_0000), (1, 0x8000_0001_0000_0000), (2, 0xA3FF_0002_0000_0000), (3, 0xE000_0001_0000_0000)]);
    for (offset, held) in [
        (1024, vec![0x6000, 0xE000]),
        (2047, vec![0x6000, 0xE000]),
        (2048, vec![0x6000, 0x8000, 0xE000]),
        (41_984, vec![0x8000, 0xA3FF, 0xE000]),
        (25 * 1024, vec![0x6000, 0x8000, 0xA3FF]),
        (0, vec![0x6000, 0x8000, 0xA3FF, 0xE000]),
        (53_247, vec![0x6000, 0x8000, 0xA3FF, 0xE000]),
        (53_248, vec![0x6000, 0x8000, 0xA3FF, 0xE000]),
        ((1 << 32) + 1024, vec![0x6000, 0x8000, 0xA3FF, 0xE000]),
        (u64::MAX, vec![0x6000, 0x8000, 0xA3FF, 0xE000]),
    ] {
        let mut host = Host::new(loaded(P));
        host.directory = all.clone();
        t.eq(&format!("stored at {offset}"), host.call_blocks(BlockCall::Stored(offset)), 0);
        t.eq("held", host.directory.blocks().map(|block| block.start).collect(), held);
    }
    let mut host = Host::new(loaded(P));
    host.directory = of_length(255);
    t.eq("unfit", host.call_blocks(BlockCall::Stored(0)), 2);
    host.lend_image(&[0xFF; 307]);
    host.directory = all.clone();
    t.eq("an unfit image", host.call_blocks(BlockCall::Stored(1024)), 2);
    host.lend_image(&[0; 309]);
    t.eq("a long image", host.call_blocks(BlockCall::Stored(1024)), 1);
    t.holds("refused, it stays", host.directory == all);
}
