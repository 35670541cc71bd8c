// SPDX-License-Identifier: MIT OR Apache-2.0
//! The image, by H1, H9, H11 and H12: 307 bytes, or 308 with a byte of options.

use crate::{
    directory::Directory,
    layout::{Layout, PAGE},
    options::Options,
    range::in_range,
    refusal::Refusal,
    session::{SOUND_RAM, Session, entry},
};
use std::array;
use tetanes::{
    m019_namco163::{Audio, Board, Namco163, Regs},
    memory::{Memory, MemoryLayout},
    ppu::Mirroring,
};

pub const LEN: usize = 307;
/// H9: with a byte of options.
pub const OPTIONS_LEN: usize = 308;
pub const LENGTHS: [usize; 2] = [LEN, OPTIONS_LEN];

/// H12: bit 4 of byte 307, which is the high bit of the count of PRG-RAM pages and no option.
pub const PRG_RAM_HIGH: u8 = 0x10;
/// H1, H12: bits of that count in the first 307 bytes.
const PRG_RAM_BITS: usize = 7;

/// N1: whether so many bytes can be the image of a state or of a load, which is long where it has an option or 128 pages of PRG-RAM.
pub fn holds(len: usize, long: bool) -> bool {
    len == OPTIONS_LEN || (len == LEN && !long)
}

/// Packs numbers of given widths, most significant bit first.
struct Packer {
    bytes: [u8; LEN],
    bit: usize,
}

impl Packer {
    fn put(&mut self, width: u32, value: u64) {
        assert!(width == 64 || value >> width == 0, "{value} does not fit {width} bits at bit {}", self.bit);
        for place in (0..width).rev() {
            let bit = (value >> place & 1) as u8;
            self.bytes[self.bit / 8] |= bit << (7 - self.bit % 8);
            self.bit += 1;
        }
    }

    fn flag(&mut self, value: bool) {
        self.put(1, value.into());
    }

    fn all<T: Copy + Into<u64>>(&mut self, width: u32, values: &[T]) {
        for value in values {
            self.put(width, (*value).into());
        }
    }
}

/// Writes the image of a state in range into bytes that can hold it.
pub fn write(session: &Session, buffer: &mut [u8]) {
    assert!(holds(buffer.len(), session.is_long()), "{} bytes cannot hold this state", buffer.len());
    buffer[..LEN].copy_from_slice(&encode(session));
    if let Some(last) = buffer.get_mut(LEN) {
        let high = session.layout().prg_ram >> PRG_RAM_BITS == 1;
        *last = session.options.byte() | if high { PRG_RAM_HIGH } else { 0 };
    }
}

/// The image of that many bytes.
pub fn of_length(session: &Session, len: usize) -> Vec<u8> {
    let mut bytes = vec![0; len];
    write(session, &mut bytes);
    bytes
}

/// The lengths that can hold a state or a load.
pub fn lengths(long: bool) -> &'static [usize] {
    if long { &LENGTHS[1..] } else { &LENGTHS }
}

/// The first 307 bytes of the image of a state in range.
pub fn encode(session: &Session) -> [u8; LEN] {
    let mut packer = Packer { bytes: [0; LEN], bit: 0 };
    put_chip(&mut packer, &session.chip);
    put_audio(&mut packer, &session.chip.audio);
    put_memory(&mut packer, &session.memory);
    assert_eq!(packer.bit, LEN * 8);
    packer.bytes
}

fn put_chip(packer: &mut Packer, chip: &Namco163) {
    packer.put(16, chip.regs.irq_counter.into());
    packer.flag(chip.regs.irq_pending);
    packer.flag(chip.regs.nt_select_lo);
    packer.flag(chip.regs.nt_select_hi);
    packer.put(8, chip.regs.prg_ram_protect.into());
    packer.put(2, board_number(chip.board));
    packer.put(16, chip.mapper_num.into());
    packer.put(8, chip.submapper_num.into());
    packer.flag(chip.auto_detect_board);
    packer.put(3, chip.mirroring as u64);
    packer.flag(chip.prg_ram_written_to);
    packer.all(1, &chip.nt_bank_enable);
    packer.all(8, &chip.chr_banks);
    packer.all(6, &chip.prg_banks);
}

fn board_number(board: Board) -> u64 {
    match board {
        Board::Unknown => 0,
        Board::Namco163 => 1,
        Board::Namco175 => 2,
        Board::Namco340 => 3,
    }
}

/// Boards and mirrorings by their numbers in the image.
pub const BOARDS: [Board; 4] = [Board::Unknown, Board::Namco163, Board::Namco175, Board::Namco340];
pub const MIRRORINGS: [Mirroring; 5] =
    [Mirroring::Vertical, Mirroring::Horizontal, Mirroring::SingleScreenA, Mirroring::SingleScreenB, Mirroring::FourScreen];

/// H1: bits of an output.
const OUTPUT_BITS: u32 = 12;

fn put_audio(packer: &mut Packer, audio: &Audio) {
    packer.all(8, audio.ram.as_ref());
    packer.put(7, audio.addr as u64);
    packer.flag(audio.auto_increment);
    packer.flag(audio.disabled);
    packer.put(4, audio.update_counter.into());
    packer.put(3, audio.current_channel as u64);
    for level in audio.channel_out {
        packer.put(OUTPUT_BITS, (level as i64).rem_euclid(1 << OUTPUT_BITS) as u64);
    }
    packer.put(32, audio.out.to_bits().into());
    packer.all(24, audio.raw_phase_ext());
}

fn put_memory(packer: &mut Packer, memory: &Memory) {
    for page in memory.prg_pages().iter().chain(memory.chr_pages()) {
        let (number, writable) = entry(*page);
        packer.put(10, number);
        packer.flag(writable);
    }
    let layout = Layout::of(memory);
    packer.put(10, layout.prg_rom);
    packer.put(PRG_RAM_BITS as u32, layout.prg_ram % (1 << PRG_RAM_BITS));
    packer.put(1, layout.battery);
    packer.put(9, layout.chr);
    packer.flag(layout.chr_ram);
    packer.put(3, layout.ciram);
    packer.flag(*memory.raw_battery_ext_len() != 0);
}

/// Takes numbers of given widths, most significant bit first.
struct Unpacker<'a> {
    bytes: &'a [u8],
    bit: usize,
}

impl Unpacker<'_> {
    fn take(&mut self, width: usize) -> u64 {
        let bits = self.bit..self.bit + width;
        self.bit = bits.end;
        bits.fold(0, |value, bit| value << 1 | u64::from(self.bytes[bit / 8] >> (7 - bit % 8) & 1))
    }

    fn flag(&mut self) -> bool {
        self.take(1) == 1
    }

    fn all<const N: usize>(&mut self, width: usize) -> [u64; N] {
        array::from_fn(|_| self.take(width))
    }
}

/// Image reading, refused by N1 and N2: the state of an image, with an arena of no bytes. H10: 307 bytes have no option, and no high bit.
pub fn decode(bytes: &[u8]) -> Result<Session, Refusal> {
    Refusal::ImageLength.when(!LENGTHS.contains(&bytes.len()))?;
    let last = bytes.get(LEN).copied().unwrap_or(0);
    let options = Options::of_byte(last & !PRG_RAM_HIGH).ok_or(Refusal::OutOfRange)?;
    let mut unpacker = Unpacker { bytes, bit: 0 };
    let chip = take_chip(&mut unpacker, options)?;
    let memory = take_memory(&mut unpacker, last & PRG_RAM_HIGH != 0);
    assert_eq!(unpacker.bit, LEN * 8);
    Refusal::OutOfRange.when(!in_range(&chip, &memory, options))?;
    Ok(Session { chip, memory, options, directory: Directory::default() })
}

/// Fields in the image's order, which is the order in which they are written here. A mirroring above 4 has no number in the Rust.
fn take_chip(unpacker: &mut Unpacker, options: Options) -> Result<Namco163, Refusal> {
    Ok(Namco163 {
        regs: Regs {
            irq_counter: unpacker.take(16) as u16,
            irq_pending: unpacker.flag(),
            nt_select_lo: unpacker.flag(),
            nt_select_hi: unpacker.flag(),
            prg_ram_protect: unpacker.take(8) as u8,
        },
        board: BOARDS[unpacker.take(2) as usize],
        mapper_num: unpacker.take(16) as u16,
        submapper_num: unpacker.take(8) as u8,
        auto_detect_board: unpacker.flag(),
        mirroring: *MIRRORINGS.get(unpacker.take(3) as usize).ok_or(Refusal::OutOfRange)?,
        prg_ram_written_to: unpacker.flag(),
        nt_bank_enable: unpacker.all(1).map(|flag| flag == 1),
        chr_banks: unpacker.all(8).map(|bank| bank as u8),
        prg_banks: unpacker.all(6).map(|bank| bank as u8),
        audio: take_audio(unpacker, options),
    })
}

fn take_audio(unpacker: &mut Unpacker, options: Options) -> Audio {
    let mut audio = Audio::new();
    audio.ram = unpacker.all(8).map(|byte| byte as u8).into();
    audio.addr = unpacker.take(7) as usize;
    audio.auto_increment = unpacker.flag();
    audio.disabled = unpacker.flag();
    audio.update_counter = unpacker.take(4) as u8;
    audio.current_channel = unpacker.take(3) as i8;
    audio.channel_out = unpacker.all(OUTPUT_BITS as usize).map(|field| output(field as i32, options) as f32);
    audio.out = f32::from_bits(unpacker.take(32) as u32);
    *audio.raw_phase_ext_mut() = unpacker.all(24).map(|phase| phase as u32);
    audio
}

/// H11: an output of its field; two's complement where levels are signed, and only there.
fn output(field: i32, options: Options) -> i32 {
    if options.signed_levels && field >> (OUTPUT_BITS - 1) == 1 { field - (1 << OUTPUT_BITS) } else { field }
}

fn take_memory(unpacker: &mut Unpacker, high: bool) -> Memory {
    let mut memory = Memory::new(MemoryLayout::default());
    *memory.raw_data_mut() = Box::default();
    let entries = unpacker.all::<80>(11).map(|entry| ((entry >> 1) * PAGE) | ((entry & 1) << 31));
    let (prg, chr) = (0..64, 64..80);
    for (page, entry) in memory.raw_prg_pages_mut().iter_mut().zip(&entries[prg]) {
        *page.raw_mut() = *entry as u32;
    }
    for (page, entry) in memory.raw_chr_pages_mut().iter_mut().zip(&entries[chr]) {
        *page.raw_mut() = *entry as u32;
    }
    let layout = Layout {
        prg_rom: unpacker.take(10),
        prg_ram: u64::from(high) << PRG_RAM_BITS | unpacker.take(PRG_RAM_BITS),
        battery: unpacker.take(1),
        chr: unpacker.take(9),
        chr_ram: unpacker.flag(),
        ciram: unpacker.take(3),
    };
    layout.set(&mut memory);
    *memory.raw_battery_ext_len_mut() = if unpacker.flag() { SOUND_RAM } else { 0 };
    memory
}
