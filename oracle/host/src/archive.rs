// SPDX-License-Identifier: MIT OR Apache-2.0
//! Calls of the archive on lent bytes.

use crate::{functions::*, lent::Lent, places::Places};
use oracle::{
    host::{BlockCall, HostCall},
    layout::Load,
};

/// Makes a call on lent bytes.
pub fn call(call: HostCall, image: &mut Lent, arena: &mut Lent, samples: &mut Lent) -> u64 {
    let ((image, image_len), (arena, arena_len), (samples, samples_len)) = (image.lend(), arena.lend(), samples.lend());
    // The three blocks are apart from each other, and each is as long as is said.
    unsafe {
        match call {
            HostCall::Load(load) => load_call(&load, (image, image_len), (arena, arena_len)),
            HostCall::LoadOptions(load) => load_options_call(&load, (image, image_len), (arena, arena_len)),
            HostCall::Read(addr) => namco163_read(image, image_len, arena, arena_len, addr),
            HostCall::Write(addr, val) => namco163_write(image, image_len, arena, arena_len, addr, val),
            HostCall::Preview(addr, val) => namco163_preview(image, image_len, arena, arena_len, addr, val),
            HostCall::Run(clocks) => namco163_run(image, image_len, samples, samples_len, clocks),
            HostCall::Reset(kind) => namco163_reset(image, image_len, kind),
        }
    }
}

/// Makes a call with a directory.
pub fn call_blocks(call: BlockCall, image: &mut Lent, arena: &mut Lent, directory: &mut Places) -> u64 {
    let ((image, image_len), (arena, arena_len), (places, count)) = (image.lend(), arena.lend(), directory.lend());
    // The three blocks are apart from each other, and each is as long as is said.
    unsafe {
        match call {
            BlockCall::Register { start, length, number } => namco163_register(places, count, start, length, number),
            BlockCall::Lookup(start) => namco163_lookup(places, count, start),
            BlockCall::Find(start) => namco163_find(places, count, start),
            BlockCall::Load(load) => load_blocks_call(&load, (image, image_len), (arena, arena_len), (places, count)),
            BlockCall::Write(addr, val) => namco163_write_blocks(image, image_len, arena, arena_len, places, count, addr, val),
            BlockCall::Stored(offset) => namco163_stored(image, image_len, places, count, offset),
        }
    }
}

unsafe fn load_call(load: &Load, (image, image_len): (Bytes, usize), (arena, arena_len): (Bytes, usize)) -> u64 {
    let Load { mapper, submapper, flags, in_database, prg_rom, prg_ram, battery, chr, chr_ram, ciram, .. } = *load;
    unsafe {
        namco163_load(
            image,
            image_len,
            arena,
            arena_len,
            mapper,
            submapper,
            flags,
            in_database,
            prg_rom,
            prg_ram,
            battery,
            chr,
            chr_ram,
            ciram,
        )
    }
}

unsafe fn load_options_call(load: &Load, (image, image_len): (Bytes, usize), (arena, arena_len): (Bytes, usize)) -> u64 {
    let Load { mapper, submapper, flags, in_database, prg_rom, prg_ram, battery, chr, chr_ram, ciram, .. } = *load;
    let Load { f800_protects, signed_levels, plain_sum, .. } = *load;
    unsafe {
        namco163_load_options(
            image,
            image_len,
            arena,
            arena_len,
            mapper,
            submapper,
            flags,
            in_database,
            prg_rom,
            prg_ram,
            battery,
            chr,
            chr_ram,
            ciram,
            f800_protects,
            signed_levels,
            plain_sum,
        )
    }
}

unsafe fn load_blocks_call(
    load: &Load,
    (image, image_len): (Bytes, usize),
    (arena, arena_len): (Bytes, usize),
    (places, count): (*mut u64, usize),
) -> u64 {
    let Load { mapper, submapper, flags, in_database, prg_rom, prg_ram, battery, chr, chr_ram, ciram, .. } = *load;
    let Load { f800_protects, signed_levels, plain_sum, .. } = *load;
    unsafe {
        namco163_load_blocks(
            image,
            image_len,
            arena,
            arena_len,
            places,
            count,
            mapper,
            submapper,
            flags,
            in_database,
            prg_rom,
            prg_ram,
            battery,
            chr,
            chr_ram,
            ciram,
            f800_protects,
            signed_levels,
            plain_sum,
        )
    }
}
