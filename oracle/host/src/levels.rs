// SPDX-License-Identifier: MIT OR Apache-2.0
//! What calls have to reach of the options (L19, S13) and of signed levels and plain sums (S14 to S17).

use crate::counts::Counts;
use oracle::host::{BlockCall, Host, HostCall};

/// By the three bits of the options.
const LOADS: [&str; 8] = [
    "loads with options 00",
    "loads with options 20",
    "loads with options 40",
    "loads with options 60",
    "loads with options 80",
    "loads with options A0",
    "loads with options C0",
    "loads with options E0",
];
const BLOCK_LOADS: [&str; 8] = [
    "loads with a directory and options 00",
    "loads with a directory and options 20",
    "loads with a directory and options 40",
    "loads with a directory and options 60",
    "loads with a directory and options 80",
    "loads with a directory and options A0",
    "loads with a directory and options C0",
    "loads with a directory and options E0",
];
const RESETS: [&str; 8] = [
    "resets with options 00",
    "resets with options 20",
    "resets with options 40",
    "resets with options 60",
    "resets with options 80",
    "resets with options A0",
    "resets with options C0",
    "resets with options E0",
];
/// By the choice.
const SAMPLES: [&str; 4] = [
    "runs with samples other than 0, wrapping average",
    "runs with samples other than 0, wrapping sum",
    "runs with samples other than 0, signed average",
    "runs with samples other than 0, signed sum",
];
const NEGATIVE: [&str; 2] = ["runs with a negative sample, signed average", "runs with a negative sample, signed sum"];
const NEGATIVE_OUTPUT: &str = "accepted calls on an image with a negative output";

pub fn want(counts: &mut Counts) {
    for wanted in [&LOADS[..], &BLOCK_LOADS, &RESETS, &SAMPLES, &NEGATIVE, &[NEGATIVE_OUTPUT]] {
        counts.want(wanted);
    }
}

/// An accepted call, by what it has left.
pub fn count(counts: &mut Counts, host: &Host, call: HostCall, word: u64) {
    let Some(session) = host.session().filter(|_| word as u8 == 0) else { return };
    let options = session.options;
    match call {
        HostCall::LoadOptions(_) => counts.reach(LOADS[usize::from(options.byte() >> 5)]),
        HostCall::Reset(_) => counts.reach(RESETS[usize::from(options.byte() >> 5)]),
        HostCall::Run(_) => {
            let made = &host.samples[..4 * (word >> 8 & 0xFF_FFFF) as usize];
            counts.reach_if(made.iter().any(|byte| *byte != 0), SAMPLES[options.choice()]);
            if options.signed_levels {
                counts.reach_if(made.chunks_exact(4).any(|sample| sample[0] >= 0x80), NEGATIVE[usize::from(options.plain_sum)]);
            }
        }
        _ => (),
    }
    counts.reach_if(session.chip.audio.channel_out.iter().any(|output| *output < 0.0), NEGATIVE_OUTPUT);
}

pub fn count_blocks(counts: &mut Counts, call: BlockCall, word: u64) {
    if let (BlockCall::Load(load), 0) = (call, word) {
        counts.reach(BLOCK_LOADS[usize::from(load.options().byte() >> 5)]);
    }
}
