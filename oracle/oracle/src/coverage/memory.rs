// SPDX-License-Identifier: MIT OR Apache-2.0
//! Fills, region calls, battery, resets, and the looks at image and arena.

use super::{BOARDS, Counter, Played, View};
use crate::{layout::Region, text::Call};

/// Regions that a cartridge may lack.
const MAYBE_EMPTY: [Region; 4] = [Region::PrgRom, Region::PrgRam, Region::Battery, Region::Chr];

pub fn classes() -> Vec<String> {
    let mut classes: Vec<String> = [
        "fill of nothing into an empty region",
        "soft reset with the line pending",
        "hard reset with the line pending",
        "reset with the written flag",
        "reset of a sound that played",
        "restore changes the sound RAM",
        "image",
        "arena",
    ]
    .map(String::from)
    .into();
    for region in Region::ALL.map(Region::word) {
        classes.extend(["no byte", "a part", "the whole", "one too many"].map(|count| format!("fill {region}: {count}")));
        for name in ["region-peek", "region-write"] {
            classes.extend(["inside", "beyond", "2^64 - 1"].map(|offset| format!("{name} {region}: {offset}")));
        }
    }
    for region in MAYBE_EMPTY.map(Region::word) {
        classes.extend(["fill", "region-peek", "region-write"].map(|name| format!("{name} {region}: empty")));
    }
    for name in ["soft reset", "hard reset"] {
        classes.extend(BOARDS.map(|board| format!("{name} of a {board}")));
    }
    for name in ["sync", "restore"] {
        classes.extend(["163", "175", "340"].map(|board| format!("{name} on a {board}")));
        classes.extend(BOARDS.map(|board| format!("{name} refused by 12 on a {board}")));
    }
    for used in [0, 128] {
        classes.extend(["with", "without"].map(|has| format!("sram {has} PRG-RAM, {used} used")));
    }
    classes
}

pub fn observe(played: &Played, counter: &mut Counter) {
    let (Some(before), Some(after)) = (played.before, played.after) else { return };
    match played.call {
        Call::Fill(region, bytes) => fill(before, *region, bytes.len() as u64, counter),
        Call::RegionPeek(region, offset) => region_byte("region-peek", before, *region, *offset, counter),
        Call::RegionWrite(region, offset, _) => region_byte("region-write", before, *region, *offset, counter),
        Call::Sram => {
            let has = if before.layout.prg_ram > 0 { "with" } else { "without" };
            counter.hit(format!("sram {has} PRG-RAM, {} used", before.used));
        }
        Call::SyncBattery => battery("sync", played, before, counter),
        Call::RestoreBattery => {
            battery("restore", played, before, counter);
            let changed = before.chip.audio.ram.as_ref() as &[u8] != after.chip.audio.ram.as_ref() as &[u8];
            counter.hit_if(changed, "restore changes the sound RAM");
        }
        Call::ResetSoft => reset("soft reset", before, counter),
        Call::ResetHard => reset("hard reset", before, counter),
        Call::Image(_) => counter.hit("image"),
        Call::Arena => counter.hit("arena"),
        _ => (),
    }
}

fn fill(before: &View, region: Region, count: u64, counter: &mut Counter) {
    let len = before.region_len(region);
    let word = region.word();
    match (count, len) {
        (0, 0) => counter.hit("fill of nothing into an empty region"),
        (_, 0) => counter.hit(format!("fill {word}: empty")),
        (0, _) => counter.hit(format!("fill {word}: no byte")),
        (count, len) if count == len => counter.hit(format!("fill {word}: the whole")),
        (count, len) if count == len + 1 => counter.hit(format!("fill {word}: one too many")),
        (count, len) => counter.hit_if(count < len, format!("fill {word}: a part")),
    }
}

fn region_byte(name: &str, before: &View, region: Region, offset: u64, counter: &mut Counter) {
    let place = match before.region_len(region) {
        0 => "empty",
        _ if offset == u64::MAX => "2^64 - 1",
        len if offset >= len => "beyond",
        _ => "inside",
    };
    counter.hit(format!("{name} {}: {place}", region.word()));
}

fn battery(name: &str, played: &Played, before: &View, counter: &mut Counter) {
    let fate = if played.refused(12) { "refused by 12 on" } else { "on" };
    counter.hit(format!("{name} {fate} a {}", before.board()));
}

fn reset(name: &str, before: &View, counter: &mut Counter) {
    counter.hit(format!("{name} of a {}", before.board()));
    counter.hit_if(before.chip.regs.irq_pending, format!("{name} with the line pending"));
    counter.hit_if(before.chip.prg_ram_written_to, "reset with the written flag");
    counter.hit_if(before.chip.audio.out > 0.0, "reset of a sound that played");
}
