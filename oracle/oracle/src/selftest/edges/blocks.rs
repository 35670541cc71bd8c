// SPDX-License-Identifier: MIT OR Apache-2.0
//! B: the directory. Results of registering and looking up, of what drops blocks and what does not, from loads and from lent states, and
//! which calls refuse an unfit directory.

mod lent;
mod lists;
mod refused;

use crate::selftest::{
    bench::{D, Handy, N175, N340, NO_PRG, P, U, loaded, number, refusal, written},
    checks::Checks,
};
use oracle::{
    directory::{Block, Directory, PLACES},
    layout::{Load, Region},
    player::Player,
    session::Session,
};

pub fn check(t: &mut Checks) {
    registering(t);
    full(t);
    places(t);
    other_order(t);
    looking_up(t);
    writes_to_p(t);
    short_ram(t);
    touched_pages(t);
    entries(t);
    resets(t);
    all_blocks(t);
    handed_on(t);
    loads(t);
    lent::check(t);
    refused::check(t);
    lists::check(t);
}

/// A number for a block that says its start and length.
fn numbered(start: u16, length: u64) -> u32 {
    u32::from(start) << 16 | length as u32
}

fn register(session: &mut Session, blocks: &[(u16, u64)]) {
    for (start, length) in blocks {
        let answer = session.directory.register(*start, *length, numbered(*start, *length));
        assert_eq!(refusal(answer), 0, "{start:04X} with {length} bytes is registered");
    }
}

fn with_blocks(mut session: Session, blocks: &[(u16, u64)]) -> Session {
    register(&mut session, blocks);
    session
}

fn starts(session: &Session) -> Vec<u16> {
    session.directory.blocks().map(|block| block.start).collect()
}

/// A byte at the start of each CPU page that a block can lie over.
fn on_each_page() -> Vec<(u16, u64)> {
    (24..64).map(|page| (page << 10, 1)).collect()
}

/// K5: the CPU pages from 24 on that an accepted call touches: those whose block goes.
fn touched_by<T>(session: &mut Session, call: impl Fn(&mut Session) -> T) -> u64 {
    session.directory.empty();
    register(session, &on_each_page());
    call(session);
    let goes = |page: &u16| session.directory.find(page << 10).is_none();
    (24..64).filter(goes).fold(0, |mask, page| mask | 1 << page)
}

/// N8, N13: on both sides of each condition, into an empty directory.
fn registering(t: &mut Checks) {
    for (start, length, answer) in [
        (0x0000, 1, 8),
        (0x47FF, 1, 8),
        (0x47FF, 0, 8),
        (0x4800, 1, 13),
        (0x5FFF, 1, 13),
        (0x5FFF, 2, 13),
        (0x6000, 0, 13),
        (0x6000, 1, 0),
        (0x6000, 4096, 0),
        (0x6000, 4097, 13),
        (0x6000, 65_536, 13),
        (0x6000, 65_537, 13),
        (0x6000, (1 << 32) + 1, 13),
        (0x6000, u64::MAX, 13),
        (0xF000, 4096, 0),
        (0xF001, 4096, 13),
        (0xF001, 4095, 0),
        (0xFFFF, 1, 0),
        (0xFFFF, 2, 13),
        (0xFFFF, u64::MAX, 13),
    ] {
        let mut directory = Directory::default();
        let what = format!("{start:04X} with {length}");
        t.eq(&what, refusal(directory.register(start, length, 7)), answer);
        let held: Vec<_> = directory.blocks().collect();
        let expected = if answer == 0 { vec![Block { start, length: length as u16, number: 7 }] } else { vec![] };
        t.eq(&what, held, expected);
    }
}

/// N14: with 256 held a new start is refused and a held one replaced; 13 comes first, and 8 before it.
fn full(t: &mut Checks) {
    let mut directory = Directory::default();
    for place in 0..PLACES as u16 {
        t.eq("a free place", refusal(directory.register(0x6000 + 160 * place, 16, place.into())), 0);
    }
    let before = directory.clone();
    for (start, length, answer) in [(0x6001, 1, 14), (0xFFFF, 1, 14), (0x6001, 0, 13), (0x6000, 0, 13), (0x5FFF, 1, 13), (0x47FF, 0, 8)] {
        t.eq(&format!("{start:04X} with {length}, full"), refusal(directory.register(start, length, 1)), answer);
    }
    t.holds("refused ones alter nothing", directory == before);
    t.eq("a held start", refusal(directory.register(0x60A0, 4096, 0xDEAD_BEEF)), 0);
    t.eq("replaced", number(directory.lookup(0x60A0)), Ok(Some(Block { start: 0x60A0, length: 4096, number: 0xDEAD_BEEF })));
    t.eq("in its place", directory.places[1], 0x60A0_1000_DEAD_BEEF);
    t.eq("held", directory.blocks().count(), PLACES);
}

/// K3, K5: places are in the order of their starts, and those that a drop frees are behind them; 14 counts what is held.
fn places(t: &mut Checks) {
    let mut cart = loaded(P);
    for place in (0..PLACES as u16).rev() {
        register(&mut cart, &[(0x6000 + 160 * place, 16)]);
    }
    t.eq("in order", starts(&cart), (0..PLACES as u16).map(|place| 0x6000 + 160 * place).collect());
    t.eq("a new start", refusal(cart.directory.register(0x6001, 1, 0)), 14);
    // Starts 6400..67FF: 6460, 6500, .., 6780.
    cart.put(0x6400, 0x00);
    let free: Vec<usize> = (0..PLACES).filter(|place| cart.directory.places[*place] == 0).collect();
    t.eq("dropped", free, (250..=255).collect());
    t.eq("those behind move up", cart.directory.places[7] >> 48, 0x6820);
    for start in 0x6001..0x6007 {
        t.eq("a place that is free again", refusal(cart.directory.register(start, 1, 0)), 0);
    }
    t.eq("where they belong", starts(&cart)[..8].to_vec(), vec![0x6000, 0x6001, 0x6002, 0x6003, 0x6004, 0x6005, 0x6006, 0x60A0]);
    t.eq("one more", refusal(cart.directory.register(0x6007, 1, 0)), 14);
    let mut few = with_blocks(loaded(P), &[(0x8000, 1), (0x6000, 1), (0xC000, 1)]);
    few.put(0x6000, 0x00);
    register(&mut few, &[(0xC000, 2), (0xE000, 1), (0xA000, 1)]);
    t.eq("order of the places", starts(&few), vec![0x8000, 0xA000, 0xC000, 0xE000]);
}

/// The same of a lent directory in another order, with free places between.
fn other_order(t: &mut Checks) {
    let place = |start: u64| start << 48 | 1 << 32;
    let first = |cart: &Session, count: usize| cart.directory.places[..count].iter().map(|place| place >> 48).collect::<Vec<u64>>();
    let mut cart = loaded(P);
    for (at, start) in [(0, 0xA000), (1, 0x6400), (3, 0x8000), (5, 0x6000)] {
        cart.directory.places[at] = place(start);
    }
    t.eq("8001=00, mapping nothing", cart.put(0x8001, 0x00).prg.mask, 0);
    t.eq("no block goes", first(&cart, 7), vec![0xA000, 0x6400, 0, 0x8000, 0, 0x6000, 0]);
    register(&mut cart, &[(0x7000, 1)]);
    t.eq("carried to the lowest free place", first(&cart, 7), vec![0x7000, 0x6400, 0xA000, 0x8000, 0, 0x6000, 0]);
    cart.put(0x6400, 0x00);
    t.eq("taken out", first(&cart, 7), vec![0x7000, 0xA000, 0x8000, 0, 0x6000, 0, 0]);
    register(&mut cart, &[(0x7000, 2)]);
    t.eq("replaced", first(&cart, 7), vec![0x7000, 0xA000, 0x8000, 0, 0x6000, 0, 0]);
}

/// K4: by the start alone; none is an answer; nothing is altered.
fn looking_up(t: &mut Checks) {
    let cart = with_blocks(loaded(P), &[(0x6000, 16), (0x6008, 1)]);
    let block = |start, length| Some(Block { start, length, number: numbered(start, length.into()) });
    for (start, answer) in [
        (0x0000, Err(8)),
        (0x47FF, Err(8)),
        (0x4800, Ok(None)),
        (0x5FFF, Ok(None)),
        (0x6000, Ok(block(0x6000, 16))),
        (0x6001, Ok(None)),
        (0x6008, Ok(block(0x6008, 1))),
        (0xFFFF, Ok(None)),
    ] {
        t.eq(&format!("lookup {start:04X}"), number(cart.directory.lookup(start)), answer);
        t.eq(&format!("find {start:04X}"), cart.directory.find(start), answer.unwrap_or(None));
    }
}

/// K5: P with eight blocks, one write after the other.
fn writes_to_p(t: &mut Checks) {
    let blocks = [(0x6000, 16), (0x63F8, 16), (0x6400, 1024), (0x8000, 4096), (0x9FFF, 2), (0xA000, 1), (0xF000, 4096), (0xFFFF, 1)];
    let mut cart = with_blocks(loaded(P), &blocks);
    let mut held: Vec<u16> = blocks.map(|(start, _)| start).into();
    let mut plain = loaded(P);
    for (addr, val, mask, pages, goes) in [
        (0x67FF, 0x00, 0, 0x200_0000, &[0x63F8, 0x6400][..]),
        (0x63FF, 0x00, 0, 0x100_0000, &[0x6000]),
        (0xE000, 0x04, 0, 0, &[]),
        (0xE000, 0x05, 0xFF_0000_0000, 0xFF_0000_0000, &[0x8000, 0x9FFF]),
        (0xE800, 0x01, 0xFF00_0000_0000, 0xFF00_0000_0000, &[0xA000]),
    ] {
        let what = format!("{addr:04X}={val:02X}");
        t.eq(&what, cart.put(addr, val).prg.mask, mask);
        held.retain(|start| !goes.contains(start));
        t.eq(&format!("{what}, held"), starts(&cart), held.clone());
        t.eq(&format!("{what}, touched"), touched_by(&mut plain, |cart| cart.put(addr, val)), pages);
    }
    t.eq("at the end", held, vec![0xF000, 0xFFFF]);
    let mut cart = with_blocks(loaded(P), &[(0x6000, 16)]);
    cart.put(0x6400, 0x00);
    t.eq("6400=00", starts(&cart), vec![0x6000]);
    let mut cart = with_blocks(loaded(P), &[(0x6000, 1024), (0x63FF, 4096)]);
    cart.put(0x7400, 0x00);
    t.eq("63FF with 4096 has five pages", starts(&cart), vec![0x6000, 0x63FF]);
    cart.put(0x7000, 0x00);
    t.eq("the last of them", starts(&cart), vec![0x6000]);
}

/// K5, R7: PRG-RAM shorter than its window shows one byte at several addresses; without PRG-RAM nothing is stored (M5).
fn short_ram(t: &mut Checks) {
    let windows: Vec<(u16, u64)> = (0..8).map(|page| (0x6000 + 0x400 * page, 16)).collect();
    let all: Vec<u16> = windows.iter().map(|(start, _)| *start).collect();
    for (prg_ram, stored, pages, held) in [
        (8192, Some(43_008), 0x200_0000, vec![0x6000, 0x6800, 0x6C00, 0x7000, 0x7400, 0x7800, 0x7C00]),
        (3072, Some(43_008), 0x9200_0000, vec![0x6000, 0x6800, 0x6C00, 0x7400, 0x7800]),
        (1024, Some(41_984), 0xFF00_0000, vec![]),
        (0, None, 0, all),
    ] {
        for prg_rom in [P.prg_rom, 0] {
            let load = Load { prg_ram, prg_rom, ..P };
            let mut cart = with_blocks(loaded(load), &windows);
            cart.put(0x6400, 0x55);
            t.eq(&format!("PRG-RAM {prg_ram}, held"), starts(&cart), held.clone());
            let at = cart.arena().iter().position(|byte| *byte == 0x55);
            t.eq("stored at", at, stored.map(|byte| byte - (P.prg_rom - prg_rom) as usize));
            t.eq("touched", touched_by(&mut cart, |cart| cart.put(0x6400, 0x55)), pages);
        }
    }
}

/// K5: region writes, whose arena page shows in several windows, or in none.
fn touched_pages(t: &mut Checks) {
    let one_page = Load { prg_rom: 1024, ..P };
    for (what, load, region, offset, pages) in [
        ("P", P, Region::PrgRom, 0, 0x1_0101_0000_0000),
        ("P, round", P, Region::PrgRom, 32_768, 0x1_0101_0000_0000),
        ("P, not shown", P, Region::PrgRom, 8_192, 0),
        ("P, last bank", P, Region::PrgRom, 32_767, 0x8000_0000_0000_0000),
        ("one page", one_page, Region::PrgRom, 5123, 0xFFFF_FFFF_0000_0000),
        ("P", P, Region::PrgRam, 0, 0x100_0000),
        ("a 340", N340, Region::PrgRam, 0, 0),
        ("P", P, Region::Battery, 0, 0),
        ("P", P, Region::Chr, 0, 0),
        ("P", P, Region::CiRam, 0, 0),
        ("no PRG-ROM", Load { prg_rom: 0, ..P }, Region::PrgRom, 0, 0),
        ("no PRG-RAM", Load { prg_ram: 0, ..P }, Region::PrgRam, 0, 0),
    ] {
        let mut cart = loaded(load);
        let what = format!("{what}: {} {offset}", region.word());
        t.eq(&what, touched_by(&mut cart, |cart| refusal(cart.region_write(region, offset, 0))), pages);
    }
    let mut cart = loaded(one_page);
    t.eq("region-write", refusal(cart.region_write(Region::PrgRom, 5123, 0x77)), 0);
    t.eq("its byte", cart.arena()[1027], 0x77);
}

/// K5, L15: entries that change, a flag alone too; CHR entries lie under no block; a byte that the entry drops is none.
fn entries(t: &mut Checks) {
    let blocks = [(0x6000, 16), (0x7FFF, 1), (0x8000, 16)];
    for (what, load, writes, held) in [
        ("P: 8000=E1", P, &[(0x8000, 0xE1)][..], &[0x6000, 0x7FFF, 0x8000][..]),
        ("P: 8000=E1 again", P, &[(0x8000, 0xE1), (0x8000, 0xE1)], &[0x6000, 0x7FFF, 0x8000]),
        ("175: C000=01", N175, &[(0xC000, 0x01)], &[0x8000]),
        ("175: C000=02", N175, &[(0xC000, 0x02)], &[0x6000, 0x7FFF, 0x8000]),
        ("340: 6000=55", N340, &[(0x6000, 0x55)], &[0x6000, 0x7FFF, 0x8000]),
        ("175: 6000=55", N175, &[(0x6000, 0x55)], &[0x6000, 0x7FFF, 0x8000]),
        ("175, open: 6000=55", N175, &[(0xC000, 0x01), (0x6000, 0x55)], &[0x8000]),
        ("D: E000=80", D, &[(0xE000, 0x80)], &[0x8000]),
        ("U: E000=3F", U, &[(0xE000, 0x3F)], &[0x6000, 0x7FFF]),
        ("P: 4800=00", P, &[(0x4800, 0x00)], &[0x6000, 0x7FFF, 0x8000]),
    ] {
        let mut cart = with_blocks(loaded(load), &blocks);
        cart.puts(writes);
        t.eq(what, starts(&cart), held.to_vec());
    }
    let mut cart = with_blocks(loaded(P), &[(0x6000, 16)]);
    t.eq("P: 6000=00 over a 00", (cart.put(0x6000, 0x00).prg, starts(&cart)), (NO_PRG, vec![]));
}

/// C8, K7: a reset changes no entry; the write behind it does.
fn resets(t: &mut Checks) {
    let mut cart = with_blocks(written(N175, &[(0xC000, 0x01)]), &[(0x6000, 16)]);
    t.eq("hard reset", (refusal(cart.reset(1)), starts(&cart)), (0, vec![0x6000]));
    t.eq("entry 24", cart.prg(24..25), vec!["41w".to_string()]);
    t.eq("8000=00", (cart.put(0x8000, 0x00).prg.mask, starts(&cart)), (0xFF00_0000, vec![]));
}

/// K6: accepted fills of each region, also of no byte, and battery sync; refused ones and a restore drop nothing.
fn all_blocks(t: &mut Checks) {
    let blocks = [(0x6000, 16), (0x8000, 4096), (0xFFFF, 1)];
    for load in [P, Load { prg_rom: 0, prg_ram: 0, chr: 0, ..N175 }] {
        for region in Region::ALL {
            let mut cart = with_blocks(loaded(load), &blocks);
            let len = cart.memory.region_ref(region.src()).len();
            t.eq("one byte too many", (refusal(cart.fill(region, &vec![1; len + 1])), starts(&cart).len()), (9, 3));
            t.eq("no byte", (refusal(cart.fill(region, &[])), starts(&cart).len()), (0, 0));
            register(&mut cart, &blocks);
            t.eq("all bytes", (refusal(cart.fill(region, &vec![0; len])), starts(&cart).len()), (0, 0));
        }
    }
    let mut cart = with_blocks(loaded(P), &blocks);
    t.eq("restore", (refusal(cart.restore_battery()), starts(&cart).len()), (0, 3));
    t.eq("sync", (refusal(cart.sync_battery()), starts(&cart).len()), (0, 0));
    let mut cart = with_blocks(loaded(N175), &blocks);
    t.eq("refused restore", (refusal(cart.restore_battery()), starts(&cart).len()), (12, 3));
    t.eq("refused sync", (refusal(cart.sync_battery()), starts(&cart).len()), (12, 3));
}

/// K7: the other calls leave it, and so does a refused write.
fn handed_on(t: &mut Checks) {
    let mut cart = with_blocks(loaded(P), &on_each_page());
    let before = cart.directory.clone();
    let answers = [
        refusal(cart.read(0x6000)),
        refusal(cart.peek(0x8000)),
        refusal(cart.preview(0x6000, 0x55)),
        refusal(cart.preview(0xE000, 0x01)),
        refusal(cart.chr_read(0x0000)),
        refusal(cart.chr_write(0x2000, 0x01)),
        refusal(cart.region_peek(Region::PrgRom, 0)),
        refusal(cart.sram()),
        refusal(cart.run(100, &mut [0.0; 6])),
        refusal(cart.reset(0)),
        refusal(cart.reset(1)),
        refusal(cart.restore_battery()),
        refusal(cart.image(&mut [0; 307])),
    ];
    t.eq("accepted", answers, [0; 13]);
    t.eq("a refused write", refusal(cart.write(0x47FF, 0x00)), 8);
    t.holds("the directory stays", cart.directory == before);
}

/// K7: an accepted load empties it, a refused one leaves it with its cartridge; without a cartridge there is none.
fn loads(t: &mut Checks) {
    let mut player = Player::default();
    let none = "error: no cartridge is loaded";
    for (line, answer) in [
        ("register $6000 16 1", none),
        ("lookup $6000", none),
        ("directory", none),
        ("load 19 0 0 1 32768 8192 128 8192 0 2048", "ok"),
        ("directory", "ok 0"),
        ("register $8000 4096 $DEADBEEF", "ok"),
        ("register $6000 16 1", "ok"),
        ("load 20 0 0 1 32768 8192 128 8192 0 2048", "refused 4"),
        ("directory", "ok 2 $6000 16 $00000001 $8000 4096 $DEADBEEF"),
        ("lookup $8000", "ok 4096 $DEADBEEF"),
        ("lookup $8001", "ok none"),
        ("load 19 0 0 1 32768 8192 128 8192 0 2048", "ok"),
        ("lookup $8000", "ok none"),
        ("directory", "ok 0"),
    ] {
        t.eq(line, player.line(line.as_bytes()).as_deref(), Some(answer));
    }
}
