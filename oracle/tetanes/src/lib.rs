// SPDX-License-Identifier: MIT OR Apache-2.0
//! m019_namco163.rs and memory.rs of tetanes-core 0.17.0, compiled unchanged, and stand-ins for the modules that they name.
//!
//! The build script finds the two sources and writes their `mod` lines.

pub mod cart;
pub mod common;
pub mod mapper;
pub mod ppu;

include!(concat!(env!("OUT_DIR"), "/sources.rs"));
