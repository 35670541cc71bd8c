// SPDX-License-Identifier: MIT OR Apache-2.0
//! The archive's calls that are timed, on one cartridge.

use crate::functions::{namco163_find, namco163_load, namco163_lookup, namco163_preview, namco163_read, namco163_register, namco163_run};
use crate::functions::{namco163_write, namco163_write_blocks};

pub struct Archive {
    pub image: [u8; 307],
    pub arena: Vec<u8>,
    pub samples: Vec<u8>,
    /// Empty until blocks are registered.
    pub directory: [u64; 256],
}

impl Archive {
    pub fn new() -> Self {
        Self { image: [0; 307], arena: vec![0; crate::ARENA], samples: vec![0; 4 * crate::MOST_SAMPLES], directory: [0; 256] }
    }

    pub fn load(&mut self) -> u64 {
        self.load_as(19, 0)
    }

    pub fn load_as(&mut self, mapper: u64, submapper: u8) -> u64 {
        let (image, arena) = (&mut self.image, &mut self.arena);
        unsafe {
            namco163_load(
                image.as_mut_ptr().cast(),
                image.len(),
                arena.as_mut_ptr().cast(),
                arena.len(),
                mapper,
                submapper,
                0,
                1,
                crate::PRG_ROM as u64,
                crate::PRG_RAM as u64,
                crate::RESERVE as u64,
                crate::CHR as u64,
                0,
                crate::CIRAM as u64,
            )
        }
    }

    pub fn read(&mut self, addr: u16) -> u64 {
        unsafe { namco163_read(self.image.as_mut_ptr().cast(), self.image.len(), self.arena.as_mut_ptr().cast(), self.arena.len(), addr) }
    }

    pub fn write(&mut self, addr: u16, val: u8) -> u64 {
        unsafe {
            namco163_write(self.image.as_mut_ptr().cast(), self.image.len(), self.arena.as_mut_ptr().cast(), self.arena.len(), addr, val)
        }
    }

    pub fn preview(&self, addr: u16, val: u8) -> u64 {
        unsafe { namco163_preview(self.image.as_ptr().cast(), self.image.len(), self.arena.as_ptr().cast(), self.arena.len(), addr, val) }
    }

    pub fn register(&mut self, start: u16, length: u64, number: u32) -> u64 {
        unsafe { namco163_register(self.directory.as_mut_ptr(), self.directory.len(), start, length, number) }
    }

    pub fn lookup(&self, start: u16) -> u64 {
        unsafe { namco163_lookup(self.directory.as_ptr(), self.directory.len(), start) }
    }

    pub fn find(&self, start: u16) -> u64 {
        unsafe { namco163_find(self.directory.as_ptr(), self.directory.len(), start) }
    }

    pub fn write_blocks(&mut self, addr: u16, val: u8) -> u64 {
        let (image, arena, directory) = (&mut self.image, &mut self.arena, &mut self.directory);
        unsafe {
            namco163_write_blocks(
                image.as_mut_ptr().cast(),
                image.len(),
                arena.as_mut_ptr().cast(),
                arena.len(),
                directory.as_mut_ptr(),
                directory.len(),
                addr,
                val,
            )
        }
    }

    pub fn run(&mut self, clocks: u64) -> u64 {
        unsafe {
            namco163_run(self.image.as_mut_ptr().cast(), self.image.len(), self.samples.as_mut_ptr().cast(), self.samples.len(), clocks)
        }
    }
}
