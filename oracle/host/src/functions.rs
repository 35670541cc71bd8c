// SPDX-License-Identifier: MIT OR Apache-2.0
//! The archive's functions, as include/namco163.h declares them. The benchmark uses this file too.

use std::ffi::c_void;

pub type Bytes = *mut c_void;

unsafe extern "C" {
    pub fn namco163_load(
        image: Bytes,
        image_len: usize,
        arena: Bytes,
        arena_len: usize,
        mapper: u64,
        submapper: u8,
        flags: u8,
        in_database: u64,
        prg_rom: u64,
        prg_ram: u64,
        battery: u64,
        chr: u64,
        chr_ram: u64,
        ciram: u64,
    ) -> u64;
    pub fn namco163_load_options(
        image: Bytes,
        image_len: usize,
        arena: Bytes,
        arena_len: usize,
        mapper: u64,
        submapper: u8,
        flags: u8,
        in_database: u64,
        prg_rom: u64,
        prg_ram: u64,
        battery: u64,
        chr: u64,
        chr_ram: u64,
        ciram: u64,
        f800_protects: u64,
        signed_levels: u64,
        plain_sum: u64,
    ) -> u64;
    pub fn namco163_read(image: Bytes, image_len: usize, arena: Bytes, arena_len: usize, addr: u16) -> u64;
    pub fn namco163_write(image: Bytes, image_len: usize, arena: Bytes, arena_len: usize, addr: u16, val: u8) -> u64;
    pub fn namco163_preview(image: *const c_void, image_len: usize, arena: *const c_void, arena_len: usize, addr: u16, val: u8) -> u64;
    pub fn namco163_run(image: Bytes, image_len: usize, samples: Bytes, samples_len: usize, clocks: u64) -> u64;
    pub fn namco163_reset(image: Bytes, image_len: usize, kind: u64) -> u64;

    // With a directory (K).
    pub fn namco163_register(directory: *mut u64, places: usize, start: u16, length: u64, number: u32) -> u64;
    pub fn namco163_lookup(directory: *const u64, places: usize, start: u16) -> u64;
    pub fn namco163_find(directory: *const u64, places: usize, start: u16) -> u64;
    pub fn namco163_load_blocks(
        image: Bytes,
        image_len: usize,
        arena: Bytes,
        arena_len: usize,
        directory: *mut u64,
        places: usize,
        mapper: u64,
        submapper: u8,
        flags: u8,
        in_database: u64,
        prg_rom: u64,
        prg_ram: u64,
        battery: u64,
        chr: u64,
        chr_ram: u64,
        ciram: u64,
        f800_protects: u64,
        signed_levels: u64,
        plain_sum: u64,
    ) -> u64;
    pub fn namco163_write_blocks(
        image: Bytes,
        image_len: usize,
        arena: Bytes,
        arena_len: usize,
        directory: *mut u64,
        places: usize,
        addr: u16,
        val: u8,
    ) -> u64;
    pub fn namco163_stored(image: *const c_void, image_len: usize, directory: *mut u64, places: usize, offset: u64) -> u64;
}
