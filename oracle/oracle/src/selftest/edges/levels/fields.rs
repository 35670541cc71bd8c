// SPDX-License-Identifier: MIT OR Apache-2.0
//! R11, H11: the ends of outputs and of `out` in each choice, by a state's fields and by an image's; they go by the choice, whatever the
//! board.

use super::with;
use crate::selftest::{
    bench::{N175, N340, P, U, loaded, refusal},
    checks::Checks,
};
use oracle::image::{LEN, OPTIONS_LEN, decode, of_length};

/// An options byte; outputs in range and out of it; fields of an output that are read, and that are not; bits of `out`, the same.
struct Ends {
    byte: u8,
    outputs: [&'static [f32]; 2],
    fields: [&'static [u64]; 2],
    outs: [&'static [u32]; 2],
}

const WRAPPING: [&[f32]; 2] = [&[0.0, 1.0, 106.0, 3825.0], &[3826.0, -1.0, -120.0, -0.0, 0.5, f32::NAN, f32::INFINITY]];
const WRAPPING_FIELDS: [&[u64]; 2] = [&[0, 105, 106, 2047, 2048, 3720, 3825], &[3826, 3975, 3976, 4095]];
const SIGNED: [&[f32]; 2] = [&[0.0, 105.0, -1.0, -120.0], &[106.0, -121.0, 3720.0, 3825.0, -0.0, -0.5, 0.5, f32::NAN, f32::NEG_INFINITY]];
const SIGNED_FIELDS: [&[u64]; 2] = [&[0, 1, 105, 3976, 4081, 4095], &[106, 2047, 2048, 3720, 3825, 3975]];

const ENDS: [Ends; 4] = [
    Ends {
        byte: 0x00,
        outputs: WRAPPING,
        fields: WRAPPING_FIELDS,
        outs: [&[0, 1, 0x3EAA_AAAB, 0x456F_1000], &[0x456F_1001, 0x46EF_1000, 0x8000_0001, 0xC2F0_0000]],
    },
    Ends {
        byte: 0x20,
        outputs: WRAPPING,
        fields: WRAPPING_FIELDS,
        outs: [&[0, 1, 0x3EAA_AAAB, 0x456F_1001, 0x46EF_1000], &[0x46EF_1001, 0x8000_0001, 0xC470_0000]],
    },
    Ends {
        byte: 0x40,
        outputs: SIGNED,
        fields: SIGNED_FIELDS,
        outs: [&[0, 1, 0x42D2_0000, 0x8000_0001, 0xBEAA_AAAB, 0xC2F0_0000], &[0x42D2_0001, 0xC2F0_0001, 0x4452_0000, 0xC470_0000]],
    },
    Ends {
        byte: 0x60,
        outputs: SIGNED,
        fields: SIGNED_FIELDS,
        outs: [&[0, 1, 0x42D2_0001, 0x4452_0000, 0x8000_0001, 0xC2F0_0001, 0xC470_0000], &[0x4452_0001, 0xC470_0001, 0x46EF_1000]],
    },
];

/// -0, infinities and NaN, which are no `out` in any choice.
const NEVER: [u32; 6] = [0x8000_0000, 0x7F80_0000, 0xFF80_0000, 0x7FC0_0000, 0xFFC0_0000, 0x7F80_0001];

pub fn check(t: &mut Checks) {
    for (ends, f800) in ENDS.iter().flat_map(|ends| [(ends, 0x00), (ends, 0x80)]) {
        for load in [P, U, N175, N340] {
            states(t, ends, load, ends.byte | f800);
        }
        images(t, ends, ends.byte | f800);
    }
}

/// A lent state's fields.
fn states(t: &mut Checks, ends: &Ends, load: oracle::layout::Load, byte: u8) {
    let fresh = loaded(with(load, byte));
    for (outputs, answer) in ends.outputs.into_iter().zip([0, 2]) {
        for (output, channel) in outputs.iter().flat_map(|output| (0..8).map(move |channel| (*output, channel))) {
            let mut lent = fresh.clone();
            lent.chip.audio.channel_out[channel] = output;
            t.eq(&format!("options {byte:02X}, output {channel} of {output}"), refusal(lent.peek(0x8000)), answer);
        }
    }
    let never: (&[u32], u8) = (&NEVER, 2);
    for (outs, answer) in [(ends.outs[0], 0), (ends.outs[1], 2), never] {
        for bits in outs {
            let mut lent = fresh.clone();
            lent.chip.audio.out = f32::from_bits(*bits);
            t.eq(&format!("options {byte:02X}, `out` {bits:08X}"), refusal(lent.peek(0x8000)), answer);
        }
    }
}

/// An image's fields; one that is read is written as it was.
fn images(t: &mut Checks, ends: &Ends, byte: u8) {
    let fresh = of_length(&loaded(with(P, byte)), OPTIONS_LEN);
    let mut expect = |what: String, image: &[u8], answer: u8| {
        t.eq(&what, refusal(decode(image)), answer);
        t.holds("it is written as it was", answer != 0 || decode(image).is_ok_and(|read| of_length(&read, OPTIONS_LEN) == image));
    };
    for (fields, answer) in ends.fields.into_iter().zip([0, 2]) {
        for (field, channel) in fields.iter().flat_map(|field| (0..8).map(move |channel| (*field, channel))) {
            let mut image = fresh.clone();
            put_field(&mut image, channel, field);
            expect(format!("options {byte:02X}, field {channel} of {field}"), &image, answer);
        }
    }
    let never: (&[u32], u8) = (&NEVER, 2);
    for (outs, answer) in [(ends.outs[0], 0), (ends.outs[1], 2), never] {
        for bits in outs {
            let mut image = fresh.clone();
            image[165..169].copy_from_slice(&bits.to_be_bytes());
            expect(format!("options {byte:02X}, image `out` {bits:08X}"), &image, answer);
        }
    }
    // H10: cut to 307 bytes, a field is read without the options.
    let mut cut = fresh;
    put_field(&mut cut, 3, 3720);
    t.eq("3720 in 307 bytes", refusal(decode(&cut[..LEN])), 0);
    put_field(&mut cut, 3, 3976);
    t.eq("3976 in 307 bytes", refusal(decode(&cut[..LEN])), 2);
}

/// H1: output k has 12 bits from bit 1224 + 12k on, so an even one begins with a byte.
fn put_field(image: &mut [u8], channel: usize, field: u64) {
    let [.., high, low] = (field << if channel.is_multiple_of(2) { 4 } else { 0 }).to_be_bytes();
    let at = 153 + 3 * (channel / 2) + channel % 2;
    let masks = if channel.is_multiple_of(2) { [0x00, 0x0F] } else { [0xF0, 0x00] };
    image[at] = image[at] & masks[0] | high;
    image[at + 1] = image[at + 1] & masks[1] | low;
}
