// SPDX-License-Identifier: MIT OR Apache-2.0
//! Calls with a directory (K): sessions from a load on and from states in range that no load makes, by turns, with fit directories and at
//! times with unfit ones.

mod directories;
mod reached;

use crate::{
    draw,
    pair::{Compared, Pair},
};
use directories::{UNFIT, fit, length, start, unfit};
use oracle::{
    directory::{Block, LONGEST},
    generate::loads,
    host::BlockCall,
    image::{LEN, OPTIONS_LEN},
    layout::PAGE,
    options::Options,
    rng::Rng,
    session::{F800, Session},
    states,
};

/// Calls of a session.
const CALLS: u64 = 40;

pub fn play(pair: &mut Pair, rng: &mut Rng, calls: u64) -> Compared<()> {
    pair.counts.want(&UNFIT);
    reached::want(&mut pair.counts);
    let end = pair.counts.block_calls() + calls;
    let mut sessions = 0;
    while pair.counts.block_calls() < end {
        session(pair, rng, sessions % 2 == 0)?;
        sessions += 1;
    }
    Ok(())
}

fn session(pair: &mut Pair, rng: &mut Rng, from_load: bool) -> Compared<()> {
    if from_load {
        load(pair, rng)?;
    } else {
        let state = states::any(rng);
        draw::lend_state(pair, rng, state);
    }
    // From a load on, half of the directories are the load's, and hold what is registered.
    if !from_load || rng.once_in(2) {
        pair.lend_directory(fit(rng));
    }
    for _ in 0..CALLS {
        step(pair, rng)?;
    }
    Ok(())
}

/// K7: an accepted load on any bytes and any 256 places; then bytes are put into the arena, as from a ROM file.
fn load(pair: &mut Pair, rng: &mut Rng) -> Compared<()> {
    let load = loads::accepted(rng);
    let load = loads::with_options(rng, load);
    let len = load.arena_len() as usize;
    pair.lend_arena(&rng.bytes(len));
    // N1: 128 pages of PRG-RAM need the longer image, without an option too.
    let bare = load.with(Options::default());
    if bare.is_long() && rng.once_in(2) {
        pair.lend_image(&rng.bytes(LEN));
        reached::call(pair, BlockCall::Load(bare))?;
    }
    draw::lend_bytes(pair, rng, load.is_long());
    let way = rng.below(7) as usize;
    let directory = if rng.once_in(2) { fit(rng) } else { unfit(rng, way) };
    pair.lend_directory(directory);
    reached::call(pair, BlockCall::Load(load))?;
    let bytes = rng.bytes(len);
    pair.edit(|session| session.lend_arena(bytes.into()));
    Ok(())
}

fn step(pair: &mut Pair, rng: &mut Rng) -> Compared<()> {
    match rng.below(32) {
        0 => with_unfit(pair, rng),
        1 => several_wrong(pair, rng),
        2 => draw::make_fit(pair, rng).map(|_| ()),
        _ => {
            let call = fit_call(pair, rng);
            reached::call(pair, call).map(|_| ())
        }
    }
}

/// The blocks that are held.
fn held(pair: &Pair) -> Vec<Block> {
    pair.host().directory.blocks().collect()
}

/// A call on what is lent, its numbers mostly fit.
fn fit_call(pair: &Pair, rng: &mut Rng) -> BlockCall {
    match rng.below(16) {
        0..4 => register(pair, rng),
        4..7 => BlockCall::Lookup(some_start(pair, rng)),
        7..9 => BlockCall::Find(some_start(pair, rng)),
        9..14 => write(pair, rng),
        _ => BlockCall::Stored(offset(pair, rng)),
    }
}

fn register(pair: &Pair, rng: &mut Rng) -> BlockCall {
    let (held, fit) = (held(pair), start(rng));
    let start = match rng.below(16) {
        0 => rng.pick(&[0x0000, 0x2000, 0x47FF]),
        1 => rng.pick(&[0x4800, 0x5000, 0x5FFF]),
        2..6 if !held.is_empty() => rng.pick(&held).start,
        _ => fit,
    };
    let left = 0x1_0000 - u64::from(start);
    let length = match rng.below(16) {
        0 => rng.pick(&[0, LONGEST + 1, 0xFFFF, 0x1_0000, 0x1_0001, (1 << 32) + 16, u64::MAX]),
        1 => left + 1,
        _ => length(rng, start),
    };
    BlockCall::Register { start, length, number: rng.number() as u32 }
}

/// A held start, an address inside a block, or any other, also below 4800.
fn some_start(pair: &Pair, rng: &mut Rng) -> u16 {
    let held = held(pair);
    match rng.below(8) {
        0 => rng.pick(&[0x0000, 0x0001, 0x47FF, 0x4800, 0x5FFF]),
        1..6 if !held.is_empty() => rng.pick(&held).start,
        6 if !held.is_empty() => rng.pick(&held).start.wrapping_add(1),
        _ => start(rng),
    }
}

/// A write, at times of the byte that a CPU peek shows there.
fn write(pair: &Pair, rng: &mut Rng) -> BlockCall {
    let addr = address(pair, rng);
    let same = pair.host().session().and_then(|session| session.peek(addr).ok());
    let val = if rng.once_in(4) { same.unwrap_or(0) } else { rng.byte() };
    // L20: so that flags change, and drop blocks.
    let open = addr >= F800 && rng.once_in(2);
    BlockCall::Write(addr, if open { 0x40 | val & 0x0F } else { val })
}

/// An address in the page of a held block, of a bank register, or any from 4800 on.
fn address(pair: &Pair, rng: &mut Rng) -> u16 {
    let held = held(pair);
    let place = rng.below(PAGE) as u16;
    match rng.below(8) {
        0..3 if !held.is_empty() => rng.pick(&held).start / PAGE as u16 * PAGE as u16 + place,
        3..5 => 0x6000 + rng.below(8) as u16 * PAGE as u16 + place,
        5 => rng.pick(&[0xE000, 0xE800, 0xF000, 0xC000, 0xF800]),
        _ => draw::address(rng),
    }
}

/// A byte of a page that some entry shows, any byte of the arena, or one at and behind its end.
fn offset(pair: &Pair, rng: &mut Rng) -> u64 {
    let len = pair.host().arena().len() as u64;
    let Some(session) = pair.host().session() else { return rng.number() };
    let shown = session.memory.prg_pages()[rng.between(24, 63) as usize].offset() as u64;
    match rng.below(8) {
        0..5 => shown + rng.pick(&[0, PAGE - 1, PAGE, 5]),
        5 => rng.below(len.max(1)),
        6 => rng.pick(&[len.saturating_sub(1), len, len + 1]),
        _ => rng.pick(&[(1 << 32) + shown, 1 << 32, 1 << 63, u64::MAX]),
    }
}

/// Some calls with an unfit directory in place of the fit one, which is lent again behind them.
fn with_unfit(pair: &mut Pair, rng: &mut Rng) -> Compared<()> {
    let fit = pair.host().directory.clone();
    let way = rng.below(UNFIT.len() as u64) as usize;
    pair.lend_directory(unfit(rng, way));
    for _ in 0..3 {
        let call = fit_call(pair, rng);
        let word = reached::call(pair, call)?;
        pair.counts.reach_if(word as u8 == 2, UNFIT[way]);
    }
    pair.lend_directory(fit);
    Ok(())
}

/// A call with any number of things wrong at once; then all is lent as it was.
fn several_wrong(pair: &mut Pair, rng: &mut Rng) -> Compared<()> {
    let fit = pair.host().directory.clone();
    let Some(session) = pair.host().session().cloned() else { return Ok(()) };
    if rng.once_in(3) {
        let way = rng.below(UNFIT.len() as u64) as usize;
        pair.lend_directory(unfit(rng, way));
    }
    let call = any_call(pair, rng);
    lend_wrong(pair, rng, &session, call);
    reached::call(pair, call)?;
    draw::lend_state(pair, rng, session);
    pair.lend_directory(fit);
    Ok(())
}

/// A call of those that take more than a directory, or any.
fn any_call(pair: &Pair, rng: &mut Rng) -> BlockCall {
    match rng.below(8) {
        0..3 => {
            let load = if rng.once_in(2) { loads::accepted(rng) } else { loads::refused(rng) };
            BlockCall::Load(loads::with_options(rng, load))
        }
        3..6 => BlockCall::Write(if rng.once_in(3) { rng.pick(&[0x0000, 0x47FF]) } else { address(pair, rng) }, rng.byte()),
        6 => BlockCall::Stored(offset(pair, rng)),
        _ => fit_call(pair, rng),
    }
}

/// At times an image of another length or of random bytes, and an arena of another length.
fn lend_wrong(pair: &mut Pair, rng: &mut Rng, session: &Session, call: BlockCall) {
    if rng.once_in(4) {
        let len = rng.pick(&[0, LEN - 1, OPTIONS_LEN + 1, 1_000]);
        pair.lend_image(&rng.bytes(len));
    } else if rng.once_in(4) {
        draw::lend_bytes(pair, rng, false);
    }
    let wanted = if let BlockCall::Load(load) = call { load.arena_len() as usize } else { session.arena().len() };
    let len = if rng.once_in(4) { rng.pick(&[0, wanted.saturating_sub(1), wanted + 1]) } else { wanted };
    let bytes = rng.bytes(len);
    pair.lend_arena(&bytes);
}
