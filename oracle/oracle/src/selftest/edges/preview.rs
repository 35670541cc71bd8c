// SPDX-License-Identifier: MIT OR Apache-2.0
//! L18: results of previews, on the Rust; that two of them and the write have the same answer; that state and arena stay.

use crate::selftest::{
    bench::{D, Handy, N175, N340, NO_CHR, NO_PRG, P, U, changed, loaded, number, written},
    checks::Checks,
};
use oracle::{
    generate::loads,
    image,
    layout::Load,
    player::Player,
    rng::Rng,
    session::{Changed, Session},
    states,
    text::Call,
};
use tetanes::m019_namco163::Board;

pub fn check(t: &mut Checks) {
    results(t);
    ranges(t);
    not_stored(t);
    board_stays(t);
    refused(t);
    lists(t);
}

const AT_6000: Changed = Changed { mask: 0xFF00_0000, count: 8, lowest: 24 };
const AT_8000: Changed = Changed { mask: 0xFF_0000_0000, count: 8, lowest: 32 };
const NAMETABLES: Changed = Changed { mask: 0xFF00, count: 8, lowest: 8 };

/// All that a preview must leave: the image has each field of a state in range (H1).
fn seen(session: &Session) -> (Vec<u8>, Vec<u8>) {
    (image::of_length(session, image::OPTIONS_LEN), session.arena().to_vec())
}

/// A player with this cartridge previews the write two times and then makes it. The answers, and whether each preview left state and arena.
fn three_answers(session: &Session, addr: u16, val: u8) -> ([String; 3], bool) {
    let mut player = Player { session: Some(session.clone()) };
    let mut kept = true;
    let [first, again] = [Call::Preview(addr, val), Call::Preview(addr, val)].map(|call| {
        let answer = player.call(&call);
        kept &= player.session.as_ref().is_some_and(|after| seen(after) == seen(session));
        answer
    });
    ([first, again, player.call(&Call::Write(addr, val))], kept)
}

/// Three equal answers, and previews that leave state and arena.
fn agree(t: &mut Checks, what: &str, session: &Session, addr: u16, val: u8) {
    let ([first, again, write], kept) = three_answers(session, addr, val);
    t.eq(what, [&again, &write], [&first; 2]);
    t.holds(&format!("{what}: nothing is altered"), kept);
}

/// A cart, writes to it, the write that is previewed, and what it changes of the two tables.
type Case = (Load, &'static [(u16, u8)], (u16, u8), Changed, Changed);

const fn without_ram(load: Load) -> Load {
    Load { prg_ram: 0, ..load }
}

const RESULTS: &[Case] = &[
    (P, &[], (0x8000, 0xE1), NO_PRG, Changed { mask: 1, count: 1, lowest: 0 }),
    (P, &[], (0xE000, 0x3F), AT_8000, NO_CHR),
    (P, &[], (0x6000, 0x12), NO_PRG, NO_CHR),
    (P, &[(0xE000, 0x3F)], (0xE000, 0x3F), NO_PRG, NO_CHR),
    (P, &[(0xE800, 0x40)], (0x8000, 0xE1), NO_PRG, Changed { mask: 1, count: 1, lowest: 0 }),
    (D, &[], (0xE000, 0x80), AT_6000, NAMETABLES),
    (D, &[(0xE000, 0x80)], (0x4800, 0x00), AT_6000, NAMETABLES),
    (D, &[(0xE000, 0x80), (0x6000, 0x00)], (0x4800, 0x00), NO_PRG, NO_CHR),
    (U, &[], (0xC800, 0xE1), AT_6000, NAMETABLES),
    (U, &[], (0xC000, 0x01), AT_6000, NO_CHR),
    (U, &[], (0xE000, 0x3F), AT_8000, NO_CHR),
    (N175, &[], (0xC000, 0x01), AT_6000, NO_CHR),
    (N175, &[(0xC000, 0x01)], (0xDFFF, 0xFF), NO_PRG, NO_CHR),
    (N340, &[], (0xE000, 0xC1), AT_8000, Changed { mask: 0x3300, count: 4, lowest: 8 }),
    (N340, &[], (0xC000, 0x01), NO_PRG, NO_CHR),
    (without_ram(P), &[], (0x6000, 0x12), NO_PRG, NO_CHR),
    (without_ram(D), &[], (0xE000, 0x80), NO_PRG, NAMETABLES),
    (without_ram(N175), &[], (0xC000, 0x01), NO_PRG, NO_CHR),
];

fn results(t: &mut Checks) {
    for (load, before, (addr, val), prg, chr) in RESULTS {
        let cart = written(*load, before);
        let what = format!("{:?} after {before:04X?}, {addr:04X}={val:02X}", cart.chip.board);
        t.eq(&what, number(cart.preview(*addr, *val)).map(|answer| (answer.prg, answer.chr)), Ok((*prg, *chr)));
        agree(t, &what, &cart, *addr, *val);
    }
    let answer = loaded(P).preview(0xF000, 0x3F).map(|answer| answer.prg);
    t.eq("P: F000=3F", number(answer), Ok(changed(0xFF_0000_0000_0000, 8, 48)));
}

/// L11: each range at both ends, on each board, with and without PRG-RAM.
fn ranges(t: &mut Checks) {
    for load in [P, D, U, N175, N340] {
        for cart in [loaded(load), loaded(without_ram(load))] {
            for addr in (0x4800..=0xF800).step_by(0x800).flat_map(|first| [first, first + 0x7FF]) {
                for val in [0x01, 0x80, 0xE1] {
                    agree(t, &format!("{:?}: {addr:04X}={val:02X}", cart.chip.board), &cart, addr, val);
                }
            }
        }
    }
}

/// L7, L18: the byte of a previewed store is nowhere; nor is a sound byte, the counter or the written flag.
fn not_stored(t: &mut Checks) {
    let mut player = Player { session: Some(loaded(P)) };
    for (addr, val) in [(0x6000, 0x12), (0x4800, 0x34), (0x5000, 0x56), (0x5800, 0x78)] {
        t.eq("preview", player.call(&Call::Preview(addr, val)), "ok $0000000000000000 0 64 $0000 0 16".into());
        t.eq(&format!("read of {addr:04X}"), player.call(&Call::Read(addr)), "ok $00".into());
        player.call(&Call::Write(addr, val));
        t.eq("written, it shows", player.call(&Call::Read(addr)), format!("ok ${val:02X}"));
    }
    let mut settled = Player { session: Some(written(D, &[(0xE000, 0x80)])) };
    settled.call(&Call::Preview(0x6000, 0x00));
    settled.call(&Call::Write(0x4800, 0x00));
    t.eq("no 340 settles by a preview", settled.session.map(|session| session.chip.board), Some(Board::Namco163));
}

/// L6, L18: a preview that shows another board's tables leaves the board.
fn board_stays(t: &mut Checks) {
    for (load, before, (addr, val), ..) in RESULTS {
        let cart = written(*load, before);
        let mut player = Player { session: Some(cart.clone()) };
        player.call(&Call::Preview(*addr, *val));
        t.eq("board", player.session.map(|session| session.chip.board), Some(cart.chip.board));
    }
}

/// N8, N20: below 4800 the same number as the write's, on each board.
fn refused(t: &mut Checks) {
    for load in [P, D, U, N175, N340] {
        for addr in [0x0000, 0x2000, 0x47FF] {
            let (answers, kept) = three_answers(&loaded(load), addr, 0x80);
            t.eq(&format!("{addr:04X}"), answers, ["refused 8"; 3].map(String::from));
            t.holds("nothing is altered", kept);
        }
    }
}

const LISTS: usize = 300;
const WRITES: usize = 20;

/// L18: lists of writes, each previewed two times, from a load and from states that no load makes.
fn lists(t: &mut Checks) {
    let mut rng = Rng::new(18);
    let (mut prg, mut chr, mut neither, mut boards, mut stores) = (0, 0, 0, 0, 0);
    for list in 0..LISTS {
        let mut cart = if list % 2 == 0 { loaded(loads::accepted(&mut rng)) } else { states::any(&mut rng) };
        let mut alike = true;
        for _ in 0..WRITES {
            let (addr, any) = (rng.address(0x4800, 0xFFFF), rng.byte());
            let val = if rng.once_in(2) { rng.pick(&[0x00, 0x01, 0x40, 0x80, 0xE0, 0xFF]) } else { any };
            let ([first, again, write], kept) = three_answers(&cart, addr, val);
            alike &= kept && first == again && first == write;
            let (board, arena) = (cart.chip.board, cart.arena().to_vec());
            let answer = cart.put(addr, val);
            prg += usize::from(answer.prg.mask != 0);
            chr += usize::from(answer.chr.mask != 0);
            neither += usize::from(answer.prg.mask == 0 && answer.chr.mask == 0);
            boards += usize::from(cart.chip.board != board);
            stores += usize::from(cart.arena() != arena);
        }
        t.holds(&format!("list {list}"), alike);
    }
    t.holds("writes of every kind", [prg, chr, neither, boards, stores].iter().all(|count| *count > 100));
}
