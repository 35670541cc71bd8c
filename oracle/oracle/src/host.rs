// SPDX-License-Identifier: MIT OR Apache-2.0
//! The host's seven calls on an image, an arena and sample bytes, by the Rust: H4 to H12, and N20's rows of a C host; in `blocks` those
//! with a directory.

mod blocks;

pub use blocks::{BlockCall, block_word};

use crate::{
    directory::Directory,
    image::{self, LENGTHS},
    layout::Load,
    options::Options,
    refusal::Refusal,
    session::{Ran, Session, Written},
};
use std::mem;

/// A call's numbers. What is lent stands in `Host`.
#[derive(Debug, Clone, Copy, PartialEq, Eq)]
pub enum HostCall {
    /// Without an option, whatever is named.
    Load(Load),
    LoadOptions(Load),
    Read(u16),
    Write(u16, u8),
    Preview(u16, u8),
    Run(u64),
    Reset(u64),
}

/// What a host lends, and what the calls leave in it.
pub struct Host {
    image: Vec<u8>,
    /// What the image reads to. It holds the arena, also where the image cannot be read.
    session: Session,
    unread: Option<Refusal>,
    pub samples: Vec<u8>,
    /// Of the calls that are lent one; the session's own is empty between calls.
    pub directory: Directory,
}

impl Host {
    /// Lends a state, in range, with its arena, by the shortest image that can hold it.
    pub fn new(session: Session) -> Self {
        let len = image::lengths(session.is_long())[0];
        Self::of_length(session, len)
    }

    /// The same by an image of a length that can hold it.
    pub fn of_length(session: Session, image_len: usize) -> Self {
        let image = image::of_length(&session, image_len);
        Self { image, session, unread: None, samples: Vec::new(), directory: Directory::default() }
    }

    pub fn image(&self) -> &[u8] {
        &self.image
    }

    /// The state that the image reads to, if it can be read.
    pub fn session(&self) -> Option<&Session> {
        self.unread.is_none().then_some(&self.session)
    }

    pub fn arena(&self) -> &[u8] {
        self.session.arena()
    }

    pub fn lend_arena(&mut self, bytes: &[u8]) {
        self.session.lend_arena(bytes.into());
    }

    /// Lends other bytes as the image.
    pub fn lend_image(&mut self, bytes: &[u8]) {
        self.image = bytes.into();
        match image::decode(bytes) {
            Ok(mut session) => {
                session.lend_arena(mem::take(self.session.memory.raw_data_mut()));
                (self.session, self.unread) = (session, None);
            }
            Err(refusal) => self.unread = Some(refusal),
        }
    }

    /// Changes state and arena by something that is no call of a host's, and lends what comes: by an image of as many bytes, where these
    /// can hold it.
    pub fn edit(&mut self, change: impl FnOnce(&mut Session)) {
        change(&mut self.session);
        let lengths = image::lengths(self.session.is_long());
        let len = if lengths.contains(&self.image.len()) { self.image.len() } else { lengths[0] };
        self.image = image::of_length(&self.session, len);
        self.unread = None;
    }

    /// The 64 bits that a call answers.
    pub fn call(&mut self, call: HostCall) -> u64 {
        self.accepted(call).unwrap_or_else(|refusal| refusal.number().into())
    }

    fn accepted(&mut self, call: HostCall) -> Result<u64, Refusal> {
        self.refuse_length()?;
        let word = match call {
            HostCall::Load(load) => {
                let load = load.with(Options::default());
                self.refuse_long(&load)?;
                self.load(&load)
            }
            HostCall::LoadOptions(load) => {
                self.refuse_long(&load)?;
                self.load(&load)
            }
            HostCall::Read(addr) => self.state()?.read(addr).map(read_word),
            HostCall::Write(addr, val) => self.state()?.write(addr, val).map(write_word),
            // L18, H4: the word alone; no image is written.
            HostCall::Preview(addr, val) => return self.state()?.preview(addr, val).map(write_word),
            HostCall::Run(clocks) => self.run(clocks),
            HostCall::Reset(kind) => self.state()?.reset(kind).map(|()| 0),
        }?;
        self.write_image();
        Ok(word)
    }

    /// H10: at the length that was lent.
    fn write_image(&mut self) {
        image::write(&self.session, &mut self.image);
    }

    /// N1 of every call with an image.
    fn refuse_length(&self) -> Result<(), Refusal> {
        Refusal::ImageLength.when(!LENGTHS.contains(&self.image.len()))
    }

    /// N1 of a load that asks for an option or for 128 pages of PRG-RAM.
    fn refuse_long(&self, load: &Load) -> Result<(), Refusal> {
        Refusal::ImageLength.when(!image::holds(self.image.len(), load.is_long()))
    }

    fn state(&mut self) -> Result<&mut Session, Refusal> {
        match self.unread {
            Some(refusal) => Err(refusal),
            None => Ok(&mut self.session),
        }
    }

    /// H4: the lent image is not read.
    fn load(&mut self, load: &Load) -> Result<u64, Refusal> {
        self.session = Session::load(load, self.arena().len() as u64)?;
        self.unread = None;
        Ok(0)
    }

    /// N11, H7: each four bytes have room for a sample, whose most significant byte comes first.
    fn run(&mut self, clocks: u64) -> Result<u64, Refusal> {
        let mut samples = vec![0.0; self.samples.len() / 4];
        let ran = self.state()?.run(clocks, &mut samples)?;
        for (bytes, sample) in self.samples.chunks_exact_mut(4).zip(&samples[..ran.made as usize]) {
            bytes.copy_from_slice(&sample.to_bits().to_be_bytes());
        }
        Ok(run_word(ran))
    }
}

/// H6: the byte in bits 8..15.
pub fn read_word(byte: u8) -> u64 {
    u64::from(byte) << 8
}

/// H6: the CHR mask in bits 8..23; the PRG mask stands where it is, since its bits 0..23 are 0 (L15).
pub fn write_word(Written { prg, chr }: Written) -> u64 {
    assert_eq!(prg.mask & 0xFF_FFFF, 0, "no write changes PRG entries 0..23");
    chr.mask << 8 | prg.mask
}

/// H6: the number of samples in bits 8..31, the rise in bits 32..63.
pub fn run_word(Ran { made, rise }: Ran) -> u64 {
    made << 8 | rise << 32
}
