// SPDX-License-Identifier: MIT OR Apache-2.0
//! The replay program's language: one call a line.

use crate::{
    layout::{Load, Region},
    options::Options,
};
use std::fmt;

/// A line may be this long, so that one `fill` can hold the largest region.
pub const LINE_LIMIT: usize = 1_048_700;
pub const ROOM_LIMIT: u64 = 8_192;
/// The longest buffer of an `image`.
pub const IMAGE_LIMIT: u64 = 1_024;

/// A call's numbers. An image's is the length of what is lent, 307 where none is said.
#[derive(Debug, Clone, PartialEq, Eq)]
pub enum Call {
    Load(Load),
    Read(u16),
    Peek(u16),
    Write(u16, u8),
    Preview(u16, u8),
    ChrRead(u16),
    ChrWrite(u16, u8),
    Fill(Region, Vec<u8>),
    RegionPeek(Region, u64),
    RegionWrite(Region, u64, u8),
    Sram,
    Run { clocks: u64, room: u64 },
    ResetSoft,
    ResetHard,
    SyncBattery,
    RestoreBattery,
    Image(Option<u64>),
    Arena,
    Register { start: u16, length: u64, number: u32 },
    Lookup(u16),
    Directory,
}

#[derive(Debug, Clone, PartialEq, Eq)]
pub enum Line {
    /// Empty, or a comment: gets no answer.
    Nothing,
    Call(Call),
    /// No call; what is wrong with it.
    Malformed(String),
}

pub fn parse(line: &[u8]) -> Line {
    if line.len() > LINE_LIMIT {
        return Line::Malformed(format!("the line has more than {LINE_LIMIT} bytes"));
    }
    if line.is_empty() || line[0] == b'#' {
        return Line::Nothing;
    }
    let Ok(text) = std::str::from_utf8(line) else {
        return Line::Malformed("the line is not text".into());
    };
    match call(text) {
        Ok(call) => Line::Call(call),
        Err(wrong) => Line::Malformed(wrong),
    }
}

/// The words of a line behind its first, taken one by one.
struct Words<'a> {
    words: std::str::Split<'a, char>,
}

impl<'a> Words<'a> {
    fn word(&mut self, what: &str) -> Result<&'a str, String> {
        self.words.next().ok_or(format!("{what} is missing"))
    }

    fn number(&mut self, what: &str) -> Result<u64, String> {
        let word = self.word(what)?;
        let (digits, radix) = match word.strip_prefix('$') {
            Some(digits) => (digits, 16),
            None => (word, 10),
        };
        // The standard parser would take a sign, too.
        if digits.is_empty() || !digits.chars().all(|digit| digit.is_digit(radix)) {
            return Err(format!("{what} is not a number"));
        }
        u64::from_str_radix(digits, radix).map_err(|_| format!("{what} is above 2^64 - 1"))
    }

    fn up_to(&mut self, what: &str, limit: u64) -> Result<u64, String> {
        let number = self.number(what)?;
        if number > limit { Err(format!("{what} is above {limit}")) } else { Ok(number) }
    }

    fn byte(&mut self, what: &str) -> Result<u8, String> {
        Ok(self.up_to(what, 0xFF)? as u8)
    }

    fn address(&mut self) -> Result<u16, String> {
        Ok(self.up_to("the address", 0xFFFF)? as u16)
    }

    fn value(&mut self) -> Result<u8, String> {
        self.byte("the value")
    }

    /// A number that may be left out, with its space.
    fn maybe<T>(&mut self, number: impl FnOnce(&mut Self) -> Result<T, String>) -> Result<Option<T>, String> {
        if self.words.clone().next().is_some() { number(self).map(Some) } else { Ok(None) }
    }

    /// H9, H11: the bits of an image's byte 307.
    fn options(&mut self) -> Result<Options, String> {
        let byte = u8::try_from(self.number("the options")?);
        byte.ok().and_then(Options::of_byte).ok_or("the options have a bit other than $80, $40 and $20".into())
    }

    fn region(&mut self) -> Result<Region, String> {
        let word = self.word("the region")?;
        let named = |region: &Region| region.word() == word;
        Region::ALL.into_iter().find(named).ok_or(format!("there is no region {word}"))
    }

    /// Two digits a byte; the word may be left out.
    fn hex(&mut self) -> Result<Vec<u8>, String> {
        let digits = self.words.next().unwrap_or("").as_bytes();
        let digit = |digit: u8| (digit as char).to_digit(16).ok_or("the bytes are not hexadecimal");
        if digits.len() % 2 == 1 {
            return Err("a byte has two digits".into());
        }
        let byte = |pair: &[u8]| Ok((digit(pair[0])? << 4 | digit(pair[1])?) as u8);
        digits.chunks(2).map(byte).collect()
    }
}

fn call(line: &str) -> Result<Call, String> {
    let mut words = Words { words: line.split(' ') };
    let name = words.word("the call")?;
    let call = arguments(name, &mut words)?;
    match words.words.next() {
        Some(_) => Err(format!("{name} has too many words")),
        None => Ok(call),
    }
}

fn arguments(name: &str, words: &mut Words) -> Result<Call, String> {
    Ok(match name {
        "load" => Call::Load(load(words)?),
        "read" => Call::Read(words.address()?),
        "peek" => Call::Peek(words.address()?),
        "write" => Call::Write(words.address()?, words.value()?),
        "preview" => Call::Preview(words.address()?, words.value()?),
        "chr-read" => Call::ChrRead(words.address()?),
        "chr-write" => Call::ChrWrite(words.address()?, words.value()?),
        "fill" => Call::Fill(words.region()?, words.hex()?),
        "region-peek" => Call::RegionPeek(words.region()?, words.number("the offset")?),
        "region-write" => Call::RegionWrite(words.region()?, words.number("the offset")?, words.value()?),
        "sram" => Call::Sram,
        "run" => Call::Run { clocks: words.number("the clocks")?, room: words.up_to("the room", ROOM_LIMIT)? },
        "reset" => match words.word("the kind of reset")? {
            "soft" => Call::ResetSoft,
            "hard" => Call::ResetHard,
            kind => return Err(format!("there is no reset {kind}")),
        },
        "sync-battery" => Call::SyncBattery,
        "restore-battery" => Call::RestoreBattery,
        "image" => Call::Image(words.maybe(|words| words.up_to("the length", IMAGE_LIMIT))?),
        "arena" => Call::Arena,
        "register" => register(words)?,
        "lookup" => Call::Lookup(words.address()?),
        "directory" => Call::Directory,
        _ => return Err(format!("there is no call {name}")),
    })
}

/// K3: the length is any number; N13 judges it.
fn register(words: &mut Words) -> Result<Call, String> {
    Ok(Call::Register {
        start: words.address()?,
        length: words.number("the length")?,
        number: words.up_to("the block's number", 0xFFFF_FFFF)? as u32,
    })
}

fn load(words: &mut Words) -> Result<Load, String> {
    let load = Load {
        mapper: words.number("the mapper")?,
        submapper: words.byte("the submapper")?,
        flags: words.byte("the flags")?,
        in_database: words.number("the database entry")?,
        prg_rom: words.number("the PRG-ROM")?,
        prg_ram: words.number("the PRG-RAM")?,
        battery: words.number("the battery")?,
        chr: words.number("the CHR")?,
        chr_ram: words.number("the CHR-RAM flag")?,
        ciram: words.number("the CIRAM")?,
        ..Load::default()
    };
    Ok(load.with(words.maybe(Words::options)?.unwrap_or_default()))
}

impl fmt::Display for Call {
    fn fmt(&self, f: &mut fmt::Formatter<'_>) -> fmt::Result {
        match self {
            Self::Load(load) => write_load(f, load),
            Self::Read(addr) => write!(f, "read ${addr:04X}"),
            Self::Peek(addr) => write!(f, "peek ${addr:04X}"),
            Self::Write(addr, val) => write!(f, "write ${addr:04X} ${val:02X}"),
            Self::Preview(addr, val) => write!(f, "preview ${addr:04X} ${val:02X}"),
            Self::ChrRead(addr) => write!(f, "chr-read ${addr:04X}"),
            Self::ChrWrite(addr, val) => write!(f, "chr-write ${addr:04X} ${val:02X}"),
            Self::Fill(region, bytes) if bytes.is_empty() => write!(f, "fill {}", region.word()),
            Self::Fill(region, bytes) => write!(f, "fill {} {}", region.word(), Hex(bytes)),
            Self::RegionPeek(region, offset) => write!(f, "region-peek {} {offset}", region.word()),
            Self::RegionWrite(region, offset, val) => write!(f, "region-write {} {offset} ${val:02X}", region.word()),
            Self::Sram => f.write_str("sram"),
            Self::Run { clocks, room } => write!(f, "run {clocks} {room}"),
            Self::ResetSoft => f.write_str("reset soft"),
            Self::ResetHard => f.write_str("reset hard"),
            Self::SyncBattery => f.write_str("sync-battery"),
            Self::RestoreBattery => f.write_str("restore-battery"),
            Self::Image(None) => f.write_str("image"),
            Self::Image(Some(length)) => write!(f, "image {length}"),
            Self::Arena => f.write_str("arena"),
            Self::Register { start, length, number } => write!(f, "register ${start:04X} {length} ${number:08X}"),
            Self::Lookup(start) => write!(f, "lookup ${start:04X}"),
            Self::Directory => f.write_str("directory"),
        }
    }
}

fn write_load(f: &mut fmt::Formatter<'_>, load: &Load) -> fmt::Result {
    let Load { mapper, submapper, flags, in_database, prg_rom, prg_ram, battery, chr, chr_ram, ciram, .. } = load;
    write!(f, "load {mapper} {submapper} ${flags:02X} {in_database} {prg_rom} {prg_ram} {battery} {chr} {chr_ram} {ciram}")?;
    if load.options().any() { write!(f, " ${:02X}", load.options().byte()) } else { Ok(()) }
}

/// Bytes as upper case digits.
pub struct Hex<'a>(pub &'a [u8]);

impl fmt::Display for Hex<'_> {
    fn fmt(&self, f: &mut fmt::Formatter<'_>) -> fmt::Result {
        self.0.iter().try_for_each(|byte| write!(f, "{byte:02X}"))
    }
}
