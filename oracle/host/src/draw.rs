// SPDX-License-Identifier: MIT OR Apache-2.0
//! Random arguments of calls.

use crate::{
    pair::{Compared, Pair},
    previews,
};
use oracle::{
    host::HostCall,
    image,
    layout::Load,
    rng::Rng,
    session::{F800, RUN_LIMIT, Session, samples_made},
};

/// Numbers that are a yes.
const YES: [u64; 6] = [1, 2, 256, 1 << 32, 1 << 63, u64::MAX];

const FIRST: u64 = 0x4800;
/// The same yes or no, by any of its numbers.
pub fn yes_no(rng: &mut Rng, number: u64) -> u64 {
    if number == 0 { 0 } else { rng.pick(&YES) }
}

/// An address from 4800 on.
pub fn address(rng: &mut Rng) -> u16 {
    rng.address(FIRST, 0xFFFF)
}

/// A load by one of the two calls; where it asks for an option, by the one that takes it.
pub fn load(rng: &mut Rng, load: Load) -> HostCall {
    if load.options().any() || rng.once_in(2) { HostCall::LoadOptions(load) } else { HostCall::Load(load) }
}

/// An image of random bytes, of a length that can hold what a load makes; a long one has 308.
pub fn lend_bytes(pair: &mut Pair, rng: &mut Rng, long: bool) {
    let len = rng.pick(image::lengths(long));
    let bytes = rng.bytes(len);
    pair.lend_image(&bytes);
}

/// Lends a state by an image of one of the lengths that can hold it.
pub fn lend_state(pair: &mut Pair, rng: &mut Rng, session: Session) {
    let len = rng.pick(image::lengths(session.is_long()));
    pair.lend_state(session, len);
}

/// A write's address and byte; half of the bytes for F800 leave a part of the work RAM open (L20).
fn write(rng: &mut Rng) -> (u16, u8) {
    let (addr, val) = (address(rng), value(rng));
    if addr >= F800 && rng.once_in(2) { (addr, 0x40 | val & 0x0F) } else { (addr, val) }
}

/// A byte, at times one at which a register does something else.
fn value(rng: &mut Rng) -> u8 {
    if rng.once_in(3) { rng.pick(&[0x00, 0x01, 0x3F, 0x40, 0x7F, 0x80, 0xC0, 0xDF, 0xE0, 0xE1, 0xFE, 0xFF]) } else { rng.byte() }
}

fn clocks(rng: &mut Rng) -> u64 {
    match rng.below(32) {
        0 => rng.pick(&[RUN_LIMIT, RUN_LIMIT, RUN_LIMIT - 1, 20_000]),
        1 => rng.between(600, 10_000),
        2..4 => 0,
        4..10 => rng.pick(&[1, 14, 15, 16]),
        _ => rng.between(1, 300),
    }
}

/// A call that nothing in its numbers refuses.
pub fn fit_call(rng: &mut Rng) -> HostCall {
    let (addr, val) = write(rng);
    match rng.below(18) {
        0..8 => HostCall::Write(addr, val),
        8..10 => HostCall::Preview(addr, val),
        10..13 => HostCall::Read(address(rng)),
        13..17 => HostCall::Run(clocks(rng)),
        _ => HostCall::Reset(rng.below(2)),
    }
}

pub fn make_fit(pair: &mut Pair, rng: &mut Rng) -> Compared<u64> {
    let call = fit_call(rng);
    make(pair, rng, call)
}

/// Makes a call. A run is first lent samples, by one of the lengths; a write is at times previewed before it.
pub fn make(pair: &mut Pair, rng: &mut Rng, call: HostCall) -> Compared<u64> {
    match call {
        HostCall::Run(clocks) => lend_room(pair, rng, clocks),
        HostCall::Write(addr, val) if rng.once_in(6) => return previews::then_write(pair, rng, addr, val),
        HostCall::Preview(addr, val) => return previews::preview(pair, addr, val),
        _ => (),
    }
    pair.call(call)
}

/// Lengths of what is lent for samples: a name for each.
const ROOMS: [&str; 6] = [
    "runs lent exactly enough bytes",
    "runs lent one byte less",
    "runs lent three bytes more",
    "runs lent up to 40 bytes more",
    "runs lent no bytes",
    "runs lent 20,000 or a million bytes",
];

fn lend_room(pair: &mut Pair, rng: &mut Rng, clocks: u64) {
    let made = pair.host().session().map_or(0, |session| samples_made(&session.chip, clocks.min(RUN_LIMIT)));
    let enough = 4 * made as usize;
    let room = rng.pick(&[0, 0, 0, 0, 0, 0, 0, 0, 0, 0, 1, 1, 2, 2, 3, 3, 4, 4, 5]);
    match room {
        0 => pair.lend_samples(enough),
        1 => pair.lend_samples(enough.saturating_sub(1)),
        2 => pair.lend_samples(enough + 3),
        3 => pair.lend_samples(enough + rng.between(1, 40) as usize),
        4 => pair.lend_samples(0),
        _ => pair.lend_samples(if rng.once_in(16) { 1 << 20 } else { 20_000 }),
    }
    pair.counts.want(&ROOMS);
    pair.counts.reach(ROOMS[room]);
}
