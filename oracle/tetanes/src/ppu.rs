// SPDX-License-Identifier: MIT OR Apache-2.0
//! Stands in for ppu.rs: the mirrorings, by the Rust's numbers.

#[derive(Default, Debug, Copy, Clone, PartialEq, Eq)]
pub enum Mirroring {
    Vertical = 0,
    #[default]
    Horizontal = 1,
    SingleScreenA = 2,
    SingleScreenB = 3,
    FourScreen = 4,
}
