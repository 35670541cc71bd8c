// SPDX-License-Identifier: MIT OR Apache-2.0
//! Random sessions from a load on: the oracle's generator makes the calls, and those that no host has are what a host does by itself.

use crate::{
    draw::{self, yes_no},
    pair::{Compared, Pair},
};
use oracle::{
    generate::generate,
    host::HostCall,
    image,
    layout::{Load, PAGE},
    options::Options,
    rng::Rng,
    session::Session,
    text::Call,
};

/// Calls that the generator makes at a time.
const PIECE: usize = 2_000;

const LOADS: [&str; 5] = ["loads of a 163", "loads of a detecting 163", "loads of a 175", "loads of a 340", "loads of an Unknown"];
const BARE_LOADS: &str = "loads without PRG-RAM";
const BARE_STORES: &str = "writes to 6000..7FFF after a load without PRG-RAM";
const BARE_REMAPS: &str = "writes to 8000..F7FF after a load without PRG-RAM";
const BARE_READS: &str = "reads of 6000..7FFF after a load without PRG-RAM";

/// Plays sessions until that many calls are made.
pub fn play(pair: &mut Pair, rng: &mut Rng, calls: u64) -> Compared<()> {
    pair.counts.want(&LOADS);
    pair.counts.want(&[BARE_LOADS, BARE_STORES, BARE_REMAPS, BARE_READS]);
    let end = pair.counts.calls() + calls;
    // Whether the host changes state and arena by itself in this session.
    let mut edits = false;
    while pair.counts.calls() < end {
        for call in generate(rng.number(), PIECE, true).calls {
            match call {
                Call::Load(named) => {
                    load(pair, rng, named)?;
                    edits = rng.once_in(2);
                }
                call => step(pair, rng, call, edits)?,
            }
        }
    }
    Ok(())
}

fn step(pair: &mut Pair, rng: &mut Rng, call: Call, edits: bool) -> Compared<()> {
    let call = match call {
        Call::Read(addr) | Call::Peek(addr) => HostCall::Read(addr),
        Call::Write(addr, val) => HostCall::Write(addr, val),
        Call::Preview(addr, val) => HostCall::Preview(addr, val),
        Call::Run { clocks, .. } => HostCall::Run(clocks),
        Call::ResetSoft => HostCall::Reset(0),
        Call::ResetHard => HostCall::Reset(1),
        other => {
            if edits {
                pair.edit(|session| edit(session, other));
            }
            return Ok(());
        }
    };
    let word = draw::make(pair, rng, call)?;
    if word as u8 == 0 && pair.host().session().is_some_and(|session| session.layout().prg_ram == 0) {
        count_bare(pair, call);
    }
    Ok(())
}

/// M5: an accepted call on a board without PRG-RAM.
fn count_bare(pair: &mut Pair, call: HostCall) {
    match call {
        HostCall::Write(0x6000..=0x7FFF, _) => pair.counts.reach(BARE_STORES),
        HostCall::Write(0x8000..=0xF7FF, _) => pair.counts.reach(BARE_REMAPS),
        HostCall::Read(0x6000..=0x7FFF) => pair.counts.reach(BARE_READS),
        _ => (),
    }
}

/// A call that no host has. A refused one alters nothing.
fn edit(session: &mut Session, call: Call) {
    let _ = match call {
        Call::ChrWrite(addr, val) => session.chr_write(addr, val),
        Call::Fill(region, bytes) => session.fill(region, &bytes),
        Call::RegionWrite(region, offset, val) => session.region_write(region, offset, val),
        Call::SyncBattery => session.sync_battery(),
        Call::RestoreBattery => session.restore_battery(),
        _ => Ok(()),
    };
}

/// A refused load leaves the session in place. An accepted one is lent any bytes, and then bytes are put into the arena, as from a ROM
/// file.
fn load(pair: &mut Pair, rng: &mut Rng, named: Load) -> Compared<()> {
    let mut load = Load {
        in_database: yes_no(rng, named.in_database),
        chr_ram: yes_no(rng, named.chr_ram),
        f800_protects: yes_no(rng, named.f800_protects),
        signed_levels: yes_no(rng, named.signed_levels),
        plain_sum: yes_no(rng, named.plain_sum),
        ..named
    };
    if rng.once_in(32) {
        near_limit(rng, &mut load);
    }
    if load.prg_ram > 65_536 && rng.once_in(2) {
        into_307_bytes(pair, rng, load)?;
    }
    let len = load.arena_len() as usize;
    let call = draw::load(rng, load);
    if Session::load(&load, len as u64).is_err() {
        return pair.call(call).map(|_| ());
    }
    // N1: an option needs the longer image, and so do 128 pages of PRG-RAM.
    if load.is_long() && rng.once_in(4) {
        pair.lend_image(&rng.bytes(image::LEN));
        pair.call(call)?;
    }
    if rng.once_in(2) || !image::holds(pair.host().image().len(), load.is_long()) {
        draw::lend_bytes(pair, rng, load.is_long());
    }
    if rng.once_in(8) {
        let other = rng.pick(&[len - 1, len + 1, len - PAGE as usize, len + PAGE as usize]);
        pair.lend_arena(&rng.bytes(other));
        pair.call(call)?;
    }
    pair.lend_arena(&rng.bytes(len));
    pair.call(call)?;
    let bytes = rng.bytes(len);
    pair.edit(|session| session.lend_arena(bytes.into()));
    pair.counts.reach(loaded(&load));
    pair.counts.reach_if(load.prg_ram == 0, BARE_LOADS);
    Ok(())
}

/// N1, N5, H12: more than 64 pages of PRG-RAM, by a load without options into the shorter image. What was lent is lent again.
fn into_307_bytes(pair: &mut Pair, rng: &mut Rng, load: Load) -> Compared<()> {
    let (image, arena) = (pair.host().image().to_vec(), pair.host().arena().to_vec());
    let load = load.with(Options::default());
    pair.lend_image(&rng.bytes(image::LEN));
    pair.lend_arena(&rng.bytes(load.arena_len() as usize));
    let call = draw::load(rng, load);
    pair.call(call)?;
    pair.lend_image(&image);
    pair.lend_arena(&arena);
    Ok(())
}

/// Which of the wanted loads an accepted one is.
fn loaded(load: &Load) -> &'static str {
    let [fixed, detecting, n175, n340, unknown] = LOADS;
    match (load.mapper, load.submapper) {
        (19, _) if load.in_database != 0 => fixed,
        (19, _) => detecting,
        (_, 1) => n175,
        (_, 2) => n340,
        _ => unknown,
    }
}

/// Sets one size, or all of them, to the limit or just below it.
fn near_limit(rng: &mut Rng, load: &mut Load) {
    let sizes = load.sizes_mut();
    let all = rng.once_in(4);
    let one = rng.below(5) as usize;
    for (place, (size, limit)) in sizes.into_iter().enumerate() {
        if all || place == one {
            *size = limit - rng.pick(&[0, 0, 0, 1, PAGE - 1]);
        }
    }
}
