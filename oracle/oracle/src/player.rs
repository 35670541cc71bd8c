// SPDX-License-Identifier: MIT OR Apache-2.0
//! Plays lines of calls and prints their answers.

use crate::{
    directory::{Block, Directory},
    image,
    layout::Load,
    refusal::Refusal,
    session::{Session, Written},
    text::{Call, Hex, Line, parse},
};
use std::fmt::Write;

pub const NO_CARTRIDGE: &str = "error: no cartridge is loaded";
const ERROR: &str = "error: ";

#[derive(Default)]
pub struct Player {
    pub session: Option<Session>,
}

impl Player {
    /// The answer to a line, if it gets one.
    pub fn line(&mut self, line: &[u8]) -> Option<String> {
        match parse(line) {
            Line::Nothing => None,
            Line::Malformed(wrong) => Some(format!("{ERROR}{wrong}")),
            Line::Call(call) => Some(self.call(&call)),
        }
    }

    pub fn call(&mut self, call: &Call) -> String {
        let answer = match (call, &mut self.session) {
            (Call::Load(load), _) => self.load(load),
            (_, None) => return NO_CARTRIDGE.into(),
            (_, Some(session)) => answer(session, call),
        };
        answer.unwrap_or_else(|refusal| format!("refused {}", refusal.number()))
    }

    /// A refused load leaves the old cartridge.
    fn load(&mut self, load: &Load) -> Result<String, Refusal> {
        self.session = Some(Session::load(load, load.arena_len())?);
        Ok("ok".into())
    }
}

/// The answer to a malformed line is free in its words: it only has to be an error, and not the one about a missing cartridge.
pub fn is_free_error(answer: &str) -> bool {
    answer.starts_with(ERROR) && answer != NO_CARTRIDGE
}

fn answer(session: &mut Session, call: &Call) -> Result<String, Refusal> {
    let byte = |byte: u8| format!("ok ${byte:02X}");
    let ok = |()| String::from("ok");
    match call {
        Call::Load(_) => unreachable!("a load makes its own session"),
        Call::Read(addr) => session.read(*addr).map(byte),
        Call::Peek(addr) => session.peek(*addr).map(byte),
        Call::Write(addr, val) => session.write(*addr, *val).map(written),
        Call::Preview(addr, val) => session.preview(*addr, *val).map(written),
        Call::ChrRead(addr) => session.chr_read(*addr).map(byte),
        Call::ChrWrite(addr, val) => session.chr_write(*addr, *val).map(ok),
        Call::Fill(region, bytes) => session.fill(*region, bytes).map(ok),
        Call::RegionPeek(region, offset) => session.region_peek(*region, *offset).map(byte),
        Call::RegionWrite(region, offset, val) => session.region_write(*region, *offset, *val).map(ok),
        Call::Sram => session.sram().map(|(start, length)| format!("ok {start} {length}")),
        Call::Run { clocks, room } => run(session, *clocks, *room),
        Call::ResetSoft => session.reset(0).map(ok),
        Call::ResetHard => session.reset(1).map(ok),
        Call::SyncBattery => session.sync_battery().map(ok),
        Call::RestoreBattery => session.restore_battery().map(ok),
        Call::Image(length) => {
            let mut buffer = vec![0; length.map_or(image::LEN, |length| length as usize)];
            session.image(&mut buffer)?;
            Ok(format!("ok {}", Hex(&buffer)))
        }
        Call::Arena => {
            let arena = session.memory.raw_data();
            Ok(format!("ok {} ${:08X}", arena.len(), adler32(arena)))
        }
        Call::Register { start, length, number } => session.directory.register(*start, *length, *number).map(ok),
        Call::Lookup(start) => session.directory.lookup(*start).map(handed_out),
        Call::Directory => Ok(held(&session.directory)),
    }
}

fn written(Written { prg, chr }: Written) -> String {
    format!("ok ${:016X} {} {} ${:04X} {} {}", prg.mask, prg.count, prg.lowest, chr.mask, chr.count, chr.lowest)
}

fn handed_out(block: Option<Block>) -> String {
    match block {
        Some(Block { length, number, .. }) => format!("ok {length} ${number:08X}"),
        None => "ok none".into(),
    }
}

/// K1: the blocks that are held, in the places' order.
fn held(directory: &Directory) -> String {
    let mut answer = format!("ok {}", directory.blocks().count());
    for Block { start, length, number } in directory.blocks() {
        let _ = write!(answer, " ${start:04X} {length} ${number:08X}");
    }
    answer
}

fn run(session: &mut Session, clocks: u64, room: u64) -> Result<String, Refusal> {
    let mut samples = vec![0.0; room as usize];
    let ran = session.run(clocks, &mut samples)?;
    let mut answer = format!("ok {} {}", ran.made, ran.rise);
    for sample in &samples[..ran.made as usize] {
        let _ = write!(answer, " ${:08X}", sample.to_bits());
    }
    Ok(answer)
}

/// Adler-32 of RFC 1950. Its two sums stay below 2^32 for that many bytes between two reductions.
pub fn adler32(bytes: &[u8]) -> u32 {
    const MODULUS: u32 = 65_521;
    const BETWEEN: usize = 5_552;
    let (mut low, mut high) = (1u32, 0u32);
    for chunk in bytes.chunks(BETWEEN) {
        for byte in chunk {
            low += u32::from(*byte);
            high += low;
        }
        low %= MODULUS;
        high %= MODULUS;
    }
    high << 16 | low
}
