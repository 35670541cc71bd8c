// SPDX-License-Identifier: MIT OR Apache-2.0
//! States in range that no load reaches: the image is the oracle's encoding of a random state, and the Rust starts at that state.

use crate::{
    draw,
    pair::{Compared, Pair},
};
use oracle::{
    host::HostCall,
    layout::{PAGE, Region},
    rng::Rng,
    session::{RAM_WINDOW, Session, entry},
    states,
};

/// Calls on each state.
const CALLS: u64 = 8;

const STATES: &str = "states in range that no load made";
const RISE: &str = "rises with the line already up";
const LOW_STORE: &str = "stores at 4800..5FFF";
const HIGH_STORE: &str = "stores at 8000..FFFF";
const ROM_STORE: &str = "stores into ROM";
const REMAPPED: &str = "writes that store and remap";
const HIGH_BANK: &str = "writes that map a CIRAM bank above 1";
const LOW_ENTRIES: &str = "writes with PRG 0..23 mapped";
const WANTED: [&str; 8] = [STATES, RISE, LOW_STORE, HIGH_STORE, ROM_STORE, REMAPPED, HIGH_BANK, LOW_ENTRIES];

/// M5, R10: the zero page lent with the flag at 6000, without PRG-RAM.
const LENT_STORE: &str = "stores into the zero page, lent at 6000 without PRG-RAM";
const LENT_READ: &str = "reads of the zero page, lent at 6000 without PRG-RAM";
const LENT_KEPT: &str = "writes that leave the zero page as it was lent at 6000 without PRG-RAM";
const LENT_UNMAPPED: &str = "writes that unmap the zero page, lent at 6000 without PRG-RAM";
const LENT: [&str; 4] = [LENT_STORE, LENT_READ, LENT_KEPT, LENT_UNMAPPED];

pub fn play(pair: &mut Pair, rng: &mut Rng, calls: u64) -> Compared<()> {
    pair.counts.want(&WANTED);
    pair.counts.want(&LENT);
    let end = pair.counts.calls() + calls;
    while pair.counts.calls() < end {
        let state = states::any(rng);
        draw::lend_state(pair, rng, state);
        pair.counts.reach(STATES);
        for _ in 0..CALLS {
            step(pair, rng)?;
        }
    }
    Ok(())
}

fn step(pair: &mut Pair, rng: &mut Rng) -> Compared<()> {
    let lent = pair.host().session().is_some_and(lent_at_6000);
    let call = if lent { lent_call(rng) } else { draw::fit_call(rng) };
    let before = pair.host().session().map(|session| seen_before(session, call));
    let word = draw::make(pair, rng, call)?;
    let (Some(before), Some(session), 0) = (before, pair.host().session(), word as u8) else {
        return Ok(());
    };
    let high_bank = maps_high_bank(session);
    if lent {
        let still = lent_at_6000(session);
        count_lent(pair, call, still);
    }
    match call {
        HostCall::Run(_) => pair.counts.reach_if(word >> 32 != 0 && before.pending, RISE),
        HostCall::Write(addr, _) => {
            let counts = &mut pair.counts;
            counts.reach_if(before.stores && addr < 0x6000, LOW_STORE);
            counts.reach_if(before.stores && addr >= 0x8000, HIGH_STORE);
            counts.reach_if(before.stores && before.rom, ROM_STORE);
            counts.reach_if(before.stores && word != 0, REMAPPED);
            counts.reach_if(word >> 8 & 0xFF != 0 && high_bank, HIGH_BANK);
            counts.reach_if(before.low_entries, LOW_ENTRIES);
        }
        _ => (),
    }
    Ok(())
}

/// Whether a board without PRG-RAM has the zero page with the flag at each entry of 6000..7FFF.
fn lent_at_6000(session: &Session) -> bool {
    session.layout().prg_ram == 0 && session.memory.prg_pages()[RAM_WINDOW].iter().all(|page| entry(*page) == (0, true))
}

/// Half of the calls go to 6000..7FFF, and some to where a board that does not change keeps its entries.
fn lent_call(rng: &mut Rng) -> HostCall {
    match rng.below(8) {
        0..2 => HostCall::Write(rng.address(0x6000, 0x7FFF), rng.byte()),
        2..4 => HostCall::Read(rng.address(0x6000, 0x7FFF)),
        4 => HostCall::Write(rng.address(0x4800, 0x5FFF), rng.byte()),
        5 => HostCall::Write(rng.address(0xF800, 0xFFFF), rng.byte()),
        _ => draw::fit_call(rng),
    }
}

/// An accepted call on such a board, and whether the zero page is still lent so.
fn count_lent(pair: &mut Pair, call: HostCall, still: bool) {
    match call {
        HostCall::Write(0x6000..=0x7FFF, _) => pair.counts.reach(LENT_STORE),
        HostCall::Read(0x6000..=0x7FFF) => pair.counts.reach(LENT_READ),
        HostCall::Write(..) => pair.counts.reach(if still { LENT_KEPT } else { LENT_UNMAPPED }),
        _ => (),
    }
}

/// What a state shows of a call that comes.
struct Before {
    pending: bool,
    /// The written entry has the flag, and lies in ROM.
    stores: bool,
    rom: bool,
    low_entries: bool,
}

fn seen_before(session: &Session, call: HostCall) -> Before {
    let addr = if let HostCall::Write(addr, _) = call { addr } else { 0 };
    let (page, stores) = entry(session.memory.prg_pages()[usize::from(addr) / PAGE as usize]);
    let region = session.layout().region_of(page);
    Before {
        pending: session.chip.regs.irq_pending,
        stores,
        rom: region == Some(Region::PrgRom) || (region == Some(Region::Chr) && !session.layout().chr_ram),
        low_entries: session.memory.prg_pages()[..24].iter().any(|page| entry(*page).0 != 0),
    }
}

/// Whether a pattern slot shows the third or fourth CIRAM page by its flag and bank.
fn maps_high_bank(session: &Session) -> bool {
    let first = session.layout().first_page(Region::CiRam);
    let chip = &session.chip;
    (0..8).any(|slot| chip.nt_bank_enable[slot] && chip.chr_banks[slot] > 1 && entry(session.memory.chr_pages()[slot]).0 > first + 1)
}
