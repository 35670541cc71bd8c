// SPDX-License-Identifier: MIT OR Apache-2.0
//! The replay program's language: lines and their answers.

use super::{
    bench::{P, new_edition},
    checks::Checks,
};
use oracle::{
    compare::compare,
    layout::{Load, Region},
    player::{NO_CARTRIDGE, Player, adler32, is_free_error},
    text::{Call, LINE_LIMIT, Line, parse},
};

pub fn check(t: &mut Checks) {
    numbers(t);
    malformed(t);
    session(t);
    free_words(t);
    t.eq("Adler-32", adler32(b"Wikipedia"), 0x11E6_0398);
    t.eq("Adler-32 of 923,648 bytes FF", adler32(&[0xFF; 923_648]), adler32_plain(&[0xFF; 923_648]));
}

/// Byte by byte, each sum reduced at once.
fn adler32_plain(bytes: &[u8]) -> u32 {
    let step = |(low, high): (u32, u32), byte: &u8| {
        let low = (low + u32::from(*byte)) % 65_521;
        (low, (high + low) % 65_521)
    };
    let (low, high) = bytes.iter().fold((1, 0), step);
    high << 16 | low
}

fn numbers(t: &mut Checks) {
    for (line, call) in [
        ("write $E000 63", Call::Write(0xE000, 63)),
        ("write 57344 $3f", Call::Write(0xE000, 63)),
        ("write $0e000 063", Call::Write(0xE000, 63)),
        ("preview $E000 63", Call::Preview(0xE000, 63)),
        ("preview 65535 $fF", Call::Preview(0xFFFF, 0xFF)),
        ("region-peek chr 18446744073709551615", Call::RegionPeek(Region::Chr, u64::MAX)),
        ("region-peek chr $FFFFFFFFFFFFFFFF", Call::RegionPeek(Region::Chr, u64::MAX)),
        ("fill battery 00fF", Call::Fill(Region::Battery, vec![0x00, 0xFF])),
        ("fill battery", Call::Fill(Region::Battery, vec![])),
        ("fill battery ", Call::Fill(Region::Battery, vec![])),
        ("register $6000 16 $DEADBEEF", Call::Register { start: 0x6000, length: 16, number: 0xDEAD_BEEF }),
        ("register 0 18446744073709551615 4294967295", Call::Register { start: 0, length: u64::MAX, number: u32::MAX }),
        ("lookup $ffff", Call::Lookup(0xFFFF)),
        ("directory", Call::Directory),
        ("run 18446744073709551615 8192", Call::Run { clocks: u64::MAX, room: 8192 }),
        ("image", Call::Image(None)),
        ("image 307", Call::Image(Some(307))),
        ("image $134", Call::Image(Some(308))),
        ("image 0", Call::Image(Some(0))),
        ("image 1024", Call::Image(Some(1_024))),
        ("load 19 0 0 1 32768 8192 128 8192 0 2048", Call::Load(P)),
        ("load 19 0 0 1 32768 8192 128 8192 0 2048 0", Call::Load(P)),
        ("load 19 0 0 1 32768 8192 128 8192 0 2048 $80", Call::Load(new_edition(P))),
        ("load 19 0 0 1 32768 8192 128 8192 0 2048 128", Call::Load(new_edition(P))),
        ("load 19 0 0 1 32768 8192 128 8192 0 2048 $40", Call::Load(Load { signed_levels: 1, ..P })),
        ("load 19 0 0 1 32768 8192 128 8192 0 2048 32", Call::Load(Load { plain_sum: 1, ..P })),
        ("load 19 0 0 1 32768 8192 128 8192 0 2048 $60", Call::Load(Load { signed_levels: 1, plain_sum: 1, ..P })),
        ("load 19 0 0 1 32768 8192 128 8192 0 2048 $A0", Call::Load(Load { plain_sum: 1, ..new_edition(P) })),
        ("load 19 0 0 1 32768 8192 128 8192 0 2048 $00c0", Call::Load(Load { signed_levels: 1, ..new_edition(P) })),
        ("load 19 0 0 1 32768 8192 128 8192 0 2048 224", Call::Load(Load { signed_levels: 1, plain_sum: 1, ..new_edition(P) })),
    ] {
        t.eq(line, parse(line.as_bytes()), Line::Call(call));
    }
    for line in ["", "#", "# read $8000"] {
        t.eq("passed over", parse(line.as_bytes()), Line::Nothing);
    }
}

const MALFORMED: [&str; 67] = [
    " ",
    "jump",
    "Read $8000",
    " read $8000",
    "read  $8000",
    "read $8000 ",
    "read",
    "read 8000 1",
    "read $10000",
    "read -1",
    "read +1",
    "read $",
    "read 0x8000",
    "read $G000",
    "read 18446744073709551616",
    "write $8000",
    "write $8000 256",
    "Preview $8000 1",
    "preview",
    "preview $8000",
    "preview $8000 256",
    "preview 65536 1",
    "preview $8000 1 1",
    "chr-read 65536",
    "chr-write 0 $100",
    "fill ex-ram 00",
    "fill prg-rom 0",
    "fill prg-rom 0G",
    "fill prg-rom 00 00",
    "region-write prg-rom 0",
    "run 1",
    "run 1 8193",
    "reset",
    "reset 1",
    "Register $6000 1 1",
    "register",
    "register $6000 1",
    "register $10000 1 1",
    "register $6000 18446744073709551616 1",
    "register $6000 1 $100000000",
    "register $6000 1 1 1",
    "lookup",
    "lookup 65536",
    "directory 1",
    "image ",
    "image 1025",
    "image 18446744073709551616",
    "image 308 308",
    "image -1",
    "load 19 0 0 1 0 0 128 0 0 0 $10",
    "load 19 0 0 1 0 0 128 0 0 0 $08",
    "load 19 0 0 1 0 0 128 0 0 0 $04",
    "load 19 0 0 1 0 0 128 0 0 0 $02",
    "load 19 0 0 1 0 0 128 0 0 0 1",
    "load 19 0 0 1 0 0 128 0 0 0 $E1",
    "load 19 0 0 1 0 0 128 0 0 0 $FF",
    "load 19 0 0 1 0 0 128 0 0 0 $90",
    "load 19 0 0 1 0 131072 128 0 0 0 $10",
    "load 19 0 0 1 0 0 128 0 0 0 $140",
    "load 19 0 0 1 0 0 128 0 0 0 $120",
    "load 19 0 0 1 0 0 128 0 0 0 $181",
    "load 19 0 0 1 0 0 128 0 0 0 $180",
    "load 19 0 0 1 0 0 128 0 0 0 $10000000000000080",
    "load 19 0 0 1 0 0 128 0 0 0 0 0",
    "load 19 0 0 1 0 0 128 0 0 0 ",
    "load 19 256 0 1 0 0 128 0 0 0",
    "load 19 0 0 1 0 0 128 0 0",
];

fn malformed(t: &mut Checks) {
    let mut player = Player::default();
    for line in MALFORMED {
        t.holds(line, player.line(line.as_bytes()).is_some_and(|answer| is_free_error(&answer)));
    }
    let zeros = |count| format!("read {}", "0".repeat(count));
    t.eq("the longest line", parse(zeros(LINE_LIMIT - 5).as_bytes()), Line::Call(Call::Read(0)));
    for line in [zeros(LINE_LIMIT - 4), format!("#{}", zeros(LINE_LIMIT))] {
        t.holds("a line too long", matches!(parse(line.as_bytes()), Line::Malformed(_)));
    }
    t.holds("bytes that are no text", matches!(parse(&[b'r', 0xFF]), Line::Malformed(_)));
}

/// A short session, with answers in the forms of README.md's table of lines.
const SESSION: [(&str, &str); 57] = [
    ("sram", NO_CARTRIDGE),
    ("load 20 0 0 1 32768 8192 128 8192 0 2048", "refused 4"),
    ("run 0 0", NO_CARTRIDGE),
    ("arena", NO_CARTRIDGE),
    ("preview $8000 $E1", NO_CARTRIDGE),
    ("load 19 0 0 1 32768 8192 128 8192 0 2048", "ok"),
    ("load 19 0 0 1 32768 8192 0 8192 0 2048", "refused 6"),
    ("load 19 0 0 1 524289 8192 0 8192 0 2048", "refused 5"),
    ("sram", "ok 41984 8320"),
    ("preview $8000 $E1", "ok $0000000000000000 0 64 $0001 1 0"),
    ("preview $E000 $3F", "ok $000000FF00000000 8 32 $0000 0 16"),
    ("write $8000 $E1", "ok $0000000000000000 0 64 $0001 1 0"),
    ("write $E000 $3F", "ok $000000FF00000000 8 32 $0000 0 16"),
    ("preview $47FF 0", "refused 8"),
    ("write $47FF 0", "refused 8"),
    ("preview $6000 $aB", "ok $0000000000000000 0 64 $0000 0 16"),
    ("read $6000", "ok $00"),
    ("write $6000 $aB", "ok $0000000000000000 0 64 $0000 0 16"),
    ("read $6000", "ok $AB"),
    ("peek $6400", "ok $00"),
    ("chr-write $2000 1", "ok"),
    ("chr-read $2000", "ok $00"),
    ("fill prg-rom AAbb", "ok"),
    ("region-peek prg-rom 32769", "ok $BB"),
    ("region-write ciram 2047 9", "ok"),
    ("run 30 2", "ok 2 0 $00000000 $00000000"),
    ("run 15 0", "refused 11"),
    ("run 29781 1984", "refused 11"),
    ("run 29782 0", "refused 10"),
    ("run 65536 8192", "refused 10"),
    ("reset soft", "ok"),
    ("reset hard", "ok"),
    ("directory", "ok 0"),
    ("register $6000 16 $DEADBEEF", "ok"),
    ("register 65535 1 0", "ok"),
    ("register $6001 65537 0", "refused 13"),
    ("register $47FF 0 0", "refused 8"),
    ("lookup $6000", "ok 16 $DEADBEEF"),
    ("lookup $FFFF", "ok 1 $00000000"),
    ("lookup $6001", "ok none"),
    ("lookup $47FF", "refused 8"),
    ("directory", "ok 2 $6000 16 $DEADBEEF $FFFF 1 $00000000"),
    ("write $63FF $00", "ok $0000000000000000 0 64 $0000 0 16"),
    ("directory", "ok 1 $FFFF 1 $00000000"),
    ("fill ciram", "ok"),
    ("directory", "ok 0"),
    ("sync-battery", "ok"),
    ("restore-battery", "ok"),
    ("arena", "ok 53248 $C1B4021A"),
    ("image 306", "refused 1"),
    ("image 309", "refused 1"),
    ("image 0", "refused 1"),
    ("load 20 0 0 1 32768 8192 128 8192 0 2048 $80", "refused 4"),
    ("load 19 0 0 1 32768 8192 128 8192 0 2048 $80", "ok"),
    ("image", "refused 1"),
    ("image 307", "refused 1"),
    ("write $F800 $4E", "ok $0000000003000000 2 24 $0000 0 16"),
];

fn session(t: &mut Checks) {
    let mut player = Player::default();
    for (line, answer) in SESSION {
        t.eq(line, player.line(line.as_bytes()).as_deref(), Some(answer));
    }
    let image = player.line(b"image").unwrap_or_default();
    t.eq("an image's digits", image.strip_prefix("ok ").map(str::len), None);
    let image = player.line(b"image 308").unwrap_or_default();
    t.eq("an image's digits", image.strip_prefix("ok ").map(str::len), Some(616));
    player.line(b"load 19 0 0 1 32768 8192 128 8192 0 2048 0");
    for (line, digits) in [("image", 614), ("image 307", 614), ("image 308", 616)] {
        let image = player.line(line.as_bytes()).unwrap_or_default();
        t.eq("an image's digits", image.strip_prefix("ok ").map(str::len), Some(digits));
    }
}

/// The words of an error are free, but for the one about the missing cartridge; and an error is no answer to a call.
fn free_words(t: &mut Checks) {
    for (line, answer, differences) in [
        ("jump", "error: what?", 0),
        ("jump", "ok", 1),
        ("jump", NO_CARTRIDGE, 1),
        ("sram", NO_CARTRIDGE, 0),
        ("sram", "error: nothing is loaded", 1),
    ] {
        t.eq(line, compare(line.as_bytes(), answer.as_bytes()).differences.len(), differences);
    }
}
