// SPDX-License-Identifier: MIT OR Apache-2.0
//! Stands in for mapper.rs: the trait that boards implement, and what `Namco163::load` answers.

use crate::{common::ResetKind, m019_namco163::Namco163, memory::Memory, ppu::Mirroring};
use std::ops::BitOr;

/// One board is all the boards there are here.
pub type Mapper = Namco163;

/// A load cannot fail: what it would panic at is refused before.
#[derive(Debug)]
pub enum Error {}

/// What a board wants of the Bus, which is left out.
pub struct MapperOps(u8);

impl MapperOps {
    pub const CLOCKED: Self = Self(1);
    pub const IRQ: Self = Self(2);
    pub const AUDIO: Self = Self(4);
    pub const SERVES_PRG_READS: Self = Self(8);
}

impl BitOr for MapperOps {
    type Output = Self;

    fn bitor(self, other: Self) -> Self {
        Self(self.0 | other.0)
    }
}

pub trait Map {
    fn mapper_ops(&self) -> MapperOps;
    fn mirroring(&self) -> Mirroring;
    fn irq_pending(&self) -> bool;
    fn sync_battery(&self, memory: &mut Memory);
    fn restore_battery(&mut self, memory: &Memory);
    fn prg_read(&mut self, addr: u16) -> Option<u8>;
    fn prg_peek(&self, addr: u16) -> Option<u8>;
    fn write_register(&mut self, memory: &mut Memory, addr: u16, val: u8);
    fn update_banks(&mut self, memory: &mut Memory);
    fn clock(&mut self);
    fn reset(&mut self, kind: ResetKind);
    fn output(&self) -> f32;
}
