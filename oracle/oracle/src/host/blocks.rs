// SPDX-License-Identifier: MIT OR Apache-2.0
//! The host's calls with a directory: K3 to K10, and their rows of N20.

use super::{Host, write_word};
use crate::{
    directory::{Block, PLACES},
    layout::Load,
    refusal::Refusal,
    session::touched,
};
use std::mem;

/// A call's numbers. The directory stands in `Host`, with all else that is lent.
#[derive(Debug, Clone, Copy, PartialEq, Eq)]
pub enum BlockCall {
    Register { start: u16, length: u64, number: u32 },
    Lookup(u16),
    Find(u16),
    Load(Load),
    Write(u16, u8),
    Stored(u64),
}

impl Host {
    /// The 64 bits that a call with a directory answers.
    pub fn call_blocks(&mut self, call: BlockCall) -> u64 {
        let word = match call {
            BlockCall::Register { start, length, number } => self.directory.register(start, length, number).map(|()| 0),
            BlockCall::Lookup(start) => self.directory.lookup(start).map(block_word),
            BlockCall::Find(start) => Ok(block_word(self.directory.find(start))),
            BlockCall::Load(load) => self.load_blocks(&load),
            BlockCall::Write(addr, val) => self.write_blocks(addr, val),
            BlockCall::Stored(offset) => self.stored(offset),
        };
        word.unwrap_or_else(|refusal| refusal.number().into())
    }

    /// K7: the directory is not read, so that 256 places of any content will do.
    fn load_blocks(&mut self, load: &Load) -> Result<u64, Refusal> {
        self.refuse_long(load)?;
        Refusal::OutOfRange.when(self.directory.places.len() != PLACES)?;
        self.load(load)?;
        self.write_image();
        self.directory.empty();
        Ok(0)
    }

    /// The session holds the directory for as long as the call lasts.
    fn write_blocks(&mut self, addr: u16, val: u8) -> Result<u64, Refusal> {
        self.refuse_length()?;
        self.state()?;
        mem::swap(&mut self.session.directory, &mut self.directory);
        let written = self.session.write(addr, val);
        mem::swap(&mut self.session.directory, &mut self.directory);
        let word = written.map(write_word)?;
        self.write_image();
        Ok(word)
    }

    /// K10: the host has stored into this byte of the arena by itself. Behind the arena lies nothing.
    fn stored(&mut self, offset: u64) -> Result<u64, Refusal> {
        self.refuse_length()?;
        self.state()?;
        self.directory.refuse()?;
        if offset < self.session.layout().arena_len() {
            let entries = self.session.memory.prg_pages();
            self.directory.drop_over(&touched(entries, entries, Some(offset as usize)));
        }
        Ok(0)
    }
}

/// K4: the length from bit 8 on, the number from bit 32 on; 0 for none.
pub fn block_word(block: Option<Block>) -> u64 {
    block.map_or(0, |block| u64::from(block.length) << 8 | u64::from(block.number) << 32)
}
