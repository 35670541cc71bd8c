// SPDX-License-Identifier: MIT OR Apache-2.0
//! The directory of translated blocks: K1 to K4. It knows neither state nor arena; which CPU pages a call touches, `session` finds (K5).

use crate::{layout::PAGE, refusal::Refusal, session::FIRST_ADDRESS};
use std::ops::RangeInclusive;

/// K1: how many places a directory has.
pub const PLACES: usize = 256;
/// R8: entries of the PRG table, and so CPU pages.
pub const CPU_PAGES: usize = 64;
/// K1: the longest block.
pub const LONGEST: u64 = 4_096;
const FIRST_START: u16 = 0x6000;
const END: u64 = 0x1_0000;

/// K1: so many CPU addresses from `start` on, and the host's number for them.
#[derive(Debug, Clone, Copy, PartialEq, Eq)]
pub struct Block {
    pub start: u16,
    pub length: u16,
    pub number: u32,
}

impl Block {
    /// What a place holds, fit or not. 0 is a free place.
    pub fn held(place: u64) -> Option<Self> {
        (place != 0).then_some(Self { start: (place >> 48) as u16, length: (place >> 32) as u16, number: place as u32 })
    }

    pub fn place(self) -> u64 {
        u64::from(self.start) << 48 | u64::from(self.length) << 32 | u64::from(self.number)
    }

    /// The CPU pages that the addresses of a fit block lie in.
    pub fn pages(self) -> RangeInclusive<usize> {
        let (first, last) = (usize::from(self.start), usize::from(self.start) + usize::from(self.length) - 1);
        first / PAGE as usize..=last / PAGE as usize
    }
}

/// What N13 denies; the length is the whole number given.
fn registrable(start: u16, length: u64) -> bool {
    start >= FIRST_START && (1..=LONGEST).contains(&length) && u64::from(start) + length <= END
}

/// The places that a host lends, 256 of them or not.
#[derive(Debug, Clone, PartialEq, Eq)]
pub struct Directory {
    pub places: Vec<u64>,
}

impl Default for Directory {
    fn default() -> Self {
        Self { places: vec![0; PLACES] }
    }
}

impl Directory {
    /// K1: the blocks that are held, in the order of their places.
    pub fn blocks(&self) -> impl Iterator<Item = Block> + '_ {
        self.places.iter().filter_map(|place| Block::held(*place))
    }

    /// K2: 256 places, each free or with a block that could be registered, and no start twice.
    pub fn fit(&self) -> bool {
        let mut starts: Vec<u16> = self.blocks().map(|block| block.start).collect();
        let held = starts.len();
        starts.sort_unstable();
        starts.dedup();
        self.places.len() == PLACES && starts.len() == held && self.blocks().all(|block| registrable(block.start, block.length.into()))
    }

    /// N2, of a directory.
    pub fn refuse(&self) -> Result<(), Refusal> {
        Refusal::OutOfRange.when(!self.fit())
    }

    /// K3: a held start is replaced in its place. A new one is carried from the lowest place on: where a place has a higher start the two
    /// change places, and the lowest free one takes what is carried then. So starts in order stay in order.
    pub fn register(&mut self, start: u16, length: u64, number: u32) -> Result<(), Refusal> {
        self.refuse()?;
        Refusal::Address.when(start < FIRST_ADDRESS)?;
        Refusal::Block.when(!registrable(start, length))?;
        let mut carried = Block { start, length: length as u16, number };
        if let Some(place) = self.place_of(start) {
            self.places[place] = carried.place();
            return Ok(());
        }
        let free = self.places.iter().position(|place| *place == 0).ok_or(Refusal::DirectoryFull)?;
        for place in 0..free {
            let here = Block::held(self.places[place]).expect("a place before the lowest free one");
            if here.start > carried.start {
                self.places[place] = carried.place();
                carried = here;
            }
        }
        self.places[free] = carried.place();
        Ok(())
    }

    /// K4: the block that is held at this start.
    pub fn lookup(&self, start: u16) -> Result<Option<Block>, Refusal> {
        self.refuse()?;
        Refusal::Address.when(start < FIRST_ADDRESS)?;
        Ok(self.find(start))
    }

    /// K4: the same without a test. Of an unfit directory it is the lowest place that holds the start.
    pub fn find(&self, start: u16) -> Option<Block> {
        self.blocks().find(|block| block.start == start)
    }

    fn place_of(&self, start: u16) -> Option<usize> {
        self.places.iter().position(|place| Block::held(*place).is_some_and(|block| block.start == start))
    }

    /// K5: takes out the places whose block lies over a touched CPU page; as many free ones come behind the others, which keep their order.
    pub fn drop_over(&mut self, touched: &[bool; CPU_PAGES]) {
        let goes = |place: u64| Block::held(place).is_some_and(|block| block.pages().any(|page| touched[page]));
        let places = self.places.len();
        self.places.retain(|place| !goes(*place));
        self.places.resize(places, 0);
    }

    /// K6, K7: frees every place.
    pub fn empty(&mut self) {
        self.places.fill(0);
    }

    pub fn is_empty(&self) -> bool {
        self.blocks().next().is_none()
    }
}
