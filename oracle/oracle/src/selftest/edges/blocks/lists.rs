// SPDX-License-Identifier: MIT OR Apache-2.0
//! K5 over random lists, from loads and from states that no load makes: after each call every held block has the bytes that it was
//! registered with, and the blocks that went are those over touched pages, by the tables before the call and by those after it alike.

use crate::selftest::{
    bench::{loaded, refusal},
    checks::Checks,
};
use oracle::{
    directory::{Block, Directory},
    generate::loads,
    layout::{PAGE, Region},
    rng::Rng,
    session::{Session, touched},
    states,
};
use std::collections::BTreeMap;
use tetanes::memory::Page;

const LISTS: usize = 600;
/// Blocks before the first call of a list.
const BLOCKS: usize = 20;
const CALLS: usize = 40;

/// What went, by the call that dropped it.
#[derive(Default)]
struct Counts {
    entries: usize,
    stores: usize,
    same_bytes: usize,
    chr: usize,
    regions: usize,
    all: usize,
}

pub fn check(t: &mut Checks) {
    let mut rng = Rng::new(1);
    let mut counts = Counts::default();
    for number in 0..LISTS {
        let cart = if number % 2 == 0 { loaded(loads::accepted(&mut rng)) } else { states::any(&mut rng) };
        t.eq(&format!("list {number}: bytes of held blocks, blocks that went"), list(&mut rng, cart, &mut counts), (true, true));
    }
    let Counts { entries, stores, same_bytes, chr, regions, all } = counts;
    let counts = [entries, stores, same_bytes, chr, regions, all];
    t.holds(&format!("blocks went by each cause: {counts:?}"), counts.iter().all(|count| *count > 20));
}

/// Whether held blocks have their bytes, and whether the tables say the same of those that went, after each call.
fn list(rng: &mut Rng, mut cart: Session, counts: &mut Counts) -> (bool, bool) {
    let mut registered = BTreeMap::new();
    let (mut bytes_stay, mut tables_agree) = (true, true);
    for call in 0..BLOCKS + CALLS {
        match call < BLOCKS || rng.once_in(2) {
            true => register(rng, &mut cart, &mut registered),
            false => tables_agree &= step(rng, &mut cart, counts),
        }
        bytes_stay &= cart.directory.blocks().all(|block| registered.get(&block.start) == Some(&bytes(&cart, block)));
    }
    (bytes_stay, tables_agree)
}

fn bytes(cart: &Session, block: Block) -> Vec<u8> {
    (0..block.length).map(|place| cart.memory.prg_peek(block.start + place)).collect()
}

fn register(rng: &mut Rng, cart: &mut Session, registered: &mut BTreeMap<u16, Vec<u8>>) {
    let start = rng.address(0x6000, 0xFFFF);
    let length = rng.pick(&[1, 16, 1_024, 4_096]).min(0x1_0000 - u64::from(start));
    if refusal(cart.directory.register(start, length, 0)) == 0 {
        registered.insert(start, bytes(cart, Block { start, length: length as u16, number: 0 }));
    }
}

/// A call that may drop blocks; whether the tables say the same of them.
fn step(rng: &mut Rng, cart: &mut Session, counts: &mut Counts) -> bool {
    let before = cart.clone();
    let at = call(rng, cart, counts);
    if at.is_none() {
        counts.all += before.directory.blocks().count();
    }
    at.is_none_or(|stored| agrees(&before, cart, stored, counts))
}

/// Makes a call and tells where it stores, by the tables: none of it for a call that drops all.
fn call(rng: &mut Rng, cart: &mut Session, counts: &mut Counts) -> Option<Option<usize>> {
    let (addr, val) = (rng.address(0x4800, 0xFFFF), rng.pick(&[0x00, 0x01, 0x02, 0x40, 0x80, 0xE1]));
    let through = |page: Page, addr: u16| page.is_writable().then(|| page.offset() + usize::from(addr) % PAGE as usize);
    let held = cart.directory.blocks().count();
    match rng.below(16) {
        0 => _ = cart.fill(Region::PrgRam, &[]),
        1..4 => {
            let addr = if rng.once_in(2) { both(cart).unwrap_or(addr) } else { addr };
            let at = through(cart.memory.chr_pages()[usize::from(addr) / PAGE as usize % 16], addr);
            let _ = cart.chr_write(addr, val);
            counts.chr += held - cart.directory.blocks().count();
            return Some(at);
        }
        4..7 => {
            let (region, offset) = (rng.pick(&Region::ALL), rng.number());
            let len = cart.memory.region_ref(region.src()).len() as u64;
            let first = cart.layout().first_page(region) * PAGE;
            let _ = cart.region_write(region, offset, val);
            counts.regions += held - cart.directory.blocks().count();
            return Some((len > 0).then(|| (first + offset % len) as usize));
        }
        _ => {
            let at = through(cart.memory.prg_pages()[usize::from(addr) / PAGE as usize], addr);
            let _ = cart.write(addr, val);
            return Some(at);
        }
    }
    None
}

/// A PPU address whose store shows at a CPU address, too. Only lent states have one.
fn both(cart: &Session) -> Option<u16> {
    let shown = |page: &Page| cart.memory.prg_pages()[24..].iter().any(|prg| prg.offset() == page.offset());
    let entry = cart.memory.chr_pages().iter().position(|page| page.is_writable() && shown(page));
    entry.map(|entry| (entry << 10) as u16)
}

fn agrees(before: &Session, after: &Session, stored: Option<usize>, counts: &mut Counts) -> bool {
    let (old, new) = (before.memory.prg_pages(), after.memory.prg_pages());
    let dropped = |touched| {
        let mut directory = before.directory.clone();
        directory.drop_over(&touched);
        directory
    };
    let by_entries: Directory = dropped(touched(old, new, None));
    let by_either = dropped(touched(old, new, stored));
    let by_new = touched(new, new, stored);
    let union: [bool; 64] = std::array::from_fn(|page| by_new[page] || old[page] != new[page]);
    counts.entries += before.directory.blocks().count() - by_entries.blocks().count();
    counts.stores += by_entries.blocks().count() - by_either.blocks().count();
    let gone = by_entries.blocks().filter(|block| by_either.find(block.start).is_none());
    counts.same_bytes += gone.filter(|block| bytes(before, *block) == bytes(after, *block)).count();
    by_either == after.directory && dropped(union) == by_either
}
