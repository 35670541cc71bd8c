// SPDX-License-Identifier: MIT OR Apache-2.0
//! S13 to S17, R11, H11: levels, sums, samples and images of the four choices, the ends of their fields, what keeps the options, a host's
//! loads and calls with them, and lists under all eight sets of options in step.

mod fields;
mod lists;

use crate::selftest::{
    bench::{D, Handy, N175, N340, P, U, loaded, number, refusal},
    checks::Checks,
    voice::{Voice, lend},
};
use oracle::{
    host::{BlockCall, Host, HostCall},
    image::{LEN, OPTIONS_LEN, of_length},
    layout::{Load, Region},
    levels::level,
    options::{CHOICES, Options},
    session::Session,
};
use tetanes::mapper::Map;

pub fn check(t: &mut Checks) {
    levels(t);
    named_levels(t);
    mixes(t);
    samples(t);
    two_channels(t);
    kept(t);
    host_loads(t);
    host_calls(t);
    fields::check(t);
    lists::check(t);
}

/// A cart with the options of a byte.
fn with(load: Load, byte: u8) -> Load {
    load.with(Options::of_byte(byte).unwrap_or_else(|| panic!("{byte:02X} has an unused bit")))
}

/// The bytes of the four choices, in the order of their names.
const BYTES: [u8; 4] = [0x00, 0x20, 0x40, 0x60];

/// S6, S14: for every volume and nibble; by bits, so that -0 is none of them. The wrapping level of a nibble below 8 is 256 volumes more.
fn levels(t: &mut Checks) {
    for (volume, nibble) in (0..16).flat_map(|volume| (0..16).map(move |nibble| (volume, nibble))) {
        let signed = (i32::from(nibble) - 8) * i32::from(volume);
        let wrapping = signed + if nibble < 8 { 256 * i32::from(volume) } else { 0 };
        for (byte, level) in BYTES.into_iter().zip([wrapping, wrapping, signed, signed]) {
            let mut p = loaded(with(P, byte));
            lend(&mut p, 7, Voice { volume, nibble, ..Voice::default() });
            p.clocks(15);
            let what = format!("nibble {nibble}, volume {volume}, options {byte:02X}");
            let audio = &p.chip.audio;
            t.eq(&what, (audio.channel_out[7].to_bits(), audio.out.to_bits()), ((level as f32).to_bits(), (level as f32).to_bits()));
        }
    }
}

/// S14, H11: nibble, volume, the signed level, and its field in the image, of channel 7's output.
fn named_levels(t: &mut Checks) {
    for (nibble, volume, level, field) in [
        (0x0, 15, -120.0, 0xF88),
        (0x7, 15, -15.0, 0xFF1),
        (0x8, 15, 0.0, 0x000),
        (0xF, 15, 105.0, 0x069),
        (0x7, 1, -1.0, 0xFFF),
        (0x0, 0, 0.0, 0x000),
        (0x4, 0, 0.0, 0x000),
    ] {
        let mut p = loaded(with(P, 0x40));
        lend(&mut p, 7, Voice { volume, nibble, ..Voice::default() });
        p.clocks(15);
        let image = of_length(&p, OPTIONS_LEN);
        let what = format!("nibble {nibble:X}, volume {volume}");
        t.eq(&what, p.chip.audio.channel_out[7].to_bits(), f32::to_bits(level));
        t.eq(&format!("{what}: the field"), u16::from(image[163] & 0x0F) << 8 | u16::from(image[164]), field);
    }
}

/// A voice of channel 7 that has this level.
fn voice_of(output: i32, signed: bool) -> Voice {
    let mut voices = (0..16).flat_map(|volume| (0..16).map(move |nibble| Voice { volume, nibble, ..Voice::default() }));
    let found = voices.find(|voice| level(voice.nibble, voice.volume, signed) == output);
    found.unwrap_or_else(|| panic!("no channel has the level {output}"))
}

/// S7, S15, S16: `out`, by bits, of outputs of channels 7 - c up to 7; the last of them is made by an update, the others are lent.
fn mixes(t: &mut Checks) {
    const ROWS: [(bool, &[i32], u32, u32); 11] = [
        (true, &[-1, 0, 0], 0xBF80_0000, 0xBEAA_AAAB),
        (true, &[-120, 105, 15], 0, 0),
        (true, &[105, -105], 0, 0),
        (true, &[-1, 0, 0, 0, 0, 0, 0], 0xBF80_0000, 0xBE12_4925),
        (true, &[104, 105, 105, 105, 105, 105, 105], 0x4437_8000, 0x42D1_B6DB),
        (true, &[-120, -120, -120, -120, 105], 0xC3BB_8000, 0xC296_0000),
        (true, &[-120; 8], 0xC470_0000, 0xC2F0_0000),
        (true, &[105; 8], 0x4452_0000, 0x42D2_0000),
        (true, &[0; 8], 0, 0),
        (false, &[3825; 8], 0x46EF_1000, 0x456F_1000),
        (false, &[0; 8], 0, 0),
    ];
    for (signed, outputs, sum, average) in ROWS {
        for (byte, bits) in [(0x20, sum), (0x00, average)] {
            let mut p = loaded(with(P, byte | if signed { 0x40 } else { 0 }));
            let first = 8 - outputs.len();
            lend(&mut p, 7, voice_of(outputs[outputs.len() - 1], signed));
            p.chip.audio.ram[0x7F] |= (outputs.len() as u8 - 1) << 4;
            // Outputs of channels that are not in use do not count.
            p.chip.audio.channel_out = [if signed { -7.0 } else { 9.0 }; 8];
            for (channel, output) in (first..7).zip(outputs) {
                p.chip.audio.channel_out[channel] = *output as f32;
            }
            let samples = p.samples(15);
            t.eq(&format!("{outputs:?}, options {byte:02X}"), p.chip.audio.out.to_bits(), bits);
            t.eq("its sample", samples, vec![(f32::from_bits(bits) * 0.0001).to_bits()]);
        }
    }
}

/// S8: the samples of some `out`, and so the ends of a sample in each choice.
fn samples(t: &mut Checks) {
    for (out, bits) in [
        (f32::from_bits(0xBEAA_AAAB), 0xB80B_CF65),
        (-1.0, 0xB8D1_B717),
        (-120.0, 0xBC44_9BA6),
        (-960.0, 0xBDC4_9BA6),
        (840.0, 0x3DAC_0831),
        (105.0, 0x3C2C_0831),
        (30_600.0, 0x4043_D70A),
    ] {
        let mut p = loaded(with(P, 0x60));
        p.chip.audio.out = out;
        t.eq(&format!("output of {out}"), p.chip.output().to_bits(), bits);
    }
}

/// P with channels 6 and 7 in use at full volume; the former has nibble F, the latter nibble 0.
fn two_channel_p(byte: u8) -> Session {
    let mut p = loaded(with(P, byte));
    p.puts(&[(0xF800, 0x00), (0x4800, 0xF0), (0xF800, 0x7F), (0x4800, 0x1F)]);
    p.puts(&[(0xF800, 0x76), (0x4800, 0x01), (0xF800, 0x77), (0x4800, 0x0F)]);
    p
}

/// The samples and `out` of three updates, by bits, and image bytes 162..168 and 307, in each choice; and the images with another byte 307.
fn two_channels(t: &mut Checks) {
    let rows: [(u8, [u32; 3], [u8; 3], u32); 4] = [
        (0x00, [0x3E3E_76C8, 0x3E43_D70A, 0x3E43_D70A], [0x06, 0x9E, 0x88], 0x44EF_1000),
        (0x20, [0x3EBE_76C8, 0x3EC3_D70A, 0x3EC3_D70A], [0x06, 0x9E, 0x88], 0x456F_1000),
        (0x40, [0xBBC4_9BA6, 0xBA44_9BA6, 0xBA44_9BA6], [0x06, 0x9F, 0x88], 0xC0F0_0000),
        (0x60, [0xBC44_9BA6, 0xBAC4_9BA6, 0xBAC4_9BA6], [0x06, 0x9F, 0x88], 0xC170_0000),
    ];
    for (choice, (byte, samples, outputs, out)) in CHOICES.into_iter().zip(rows) {
        let mut p = two_channel_p(byte);
        t.eq(choice, p.samples(45), samples.to_vec());
        let image = of_length(&p, OPTIONS_LEN);
        t.eq(&format!("{choice}: outputs 6 and 7"), &image[162..165], &outputs);
        t.eq(&format!("{choice}: `out`"), &image[165..169], &out.to_be_bytes());
        t.eq(&format!("{choice}: byte 307"), image[LEN], byte);
        for other in BYTES {
            let mut image = image.clone();
            image[LEN] = other;
            // An average is within the ends of a sum, and a sum may be beyond those of an average.
            let fits = (byte ^ other) & 0x40 == 0;
            let mut host = Host::new(loaded(P));
            host.lend_image(&image);
            t.eq(&format!("{choice} with byte 307 of {other:02X}"), host.call(HostCall::Read(0x6000)), if fits { 0 } else { 2 });
        }
    }
}

/// S13, S17: every mapper's load takes the options, and no call changes them.
fn kept(t: &mut Checks) {
    for (load, options) in [P, D, U, N175, N340].into_iter().flat_map(|load| Options::all().into_iter().map(move |set| (load, set))) {
        let mut cart = loaded(load.with(options));
        let mut calls = vec![number(cart.image(&mut [0; OPTIONS_LEN]))];
        let byte = |cart: &Session| of_length(cart, OPTIONS_LEN)[LEN];
        let mut bytes = vec![byte(&cart)];
        cart.puts(&[(0xF800, 0x7F), (0x4800, 0x0F), (0x6000, 0x11), (0xE000, 0x80), (0xC000, 0x01)]);
        cart.clocks(100);
        bytes.push(byte(&cart));
        for kind in [0, 1] {
            calls.push(number(cart.reset(kind)));
            bytes.push(byte(&cart));
            cart.clocks(30);
        }
        calls.push(number(cart.fill(Region::PrgRom, &[1, 2])));
        let battery = number(cart.sync_battery()).and(number(cart.restore_battery()));
        t.eq("battery calls", battery, if load.mapper == 19 { Ok(()) } else { Err(12) });
        bytes.push(byte(&cart));
        t.eq(&format!("{load:?}, {options:?}"), (calls, bytes), (vec![Ok(()); 4], vec![options.byte(); 5]));
    }
    let mut p = two_channel_p(0x60);
    p.clocks(45);
    t.eq("reset", refusal(p.reset(0)), 0);
    t.eq("the sound is new", (p.chip.audio.out.to_bits(), p.chip.audio.channel_out), (0, [0.0; 8]));
    lend(&mut p, 7, Voice { volume: 15, ..Voice::default() });
    t.eq("and still a signed sum", p.samples(15), vec![0xBC44_9BA6]);
}

/// N1, H5, H11: a host's load with each option by any yes, into each length, with a directory or without.
fn host_loads(t: &mut Checks) {
    let named = |f800_protects: u64, signed_levels: u64, plain_sum: u64| Load { f800_protects, signed_levels, plain_sum, ..P };
    for (load, byte) in [
        (named(0, 0, 0), 0x00),
        (named(0, 1, 0), 0x40),
        (named(0, 0, 1), 0x20),
        (named(0, 256, 1 << 63), 0x60),
        (named(1 << 32, 0, 0), 0x80),
        (named(u64::MAX, 0, 2), 0xA0),
        (named(2, u64::MAX, 0), 0xC0),
        (named(1, 1 << 32, 1 << 32), 0xE0),
    ] {
        for (len, with_blocks) in [(307, false), (308, false), (307, true), (308, true)] {
            let mut host = Host::new(loaded(P));
            host.lend_image(&vec![0xA5; len]);
            let word = if with_blocks { host.call_blocks(BlockCall::Load(load)) } else { host.call(HostCall::LoadOptions(load)) };
            t.eq(&format!("options {byte:02X} into {len} bytes"), word, if len == 307 && byte != 0 { 1 } else { 0 });
            t.eq("byte 307", host.image().get(LEN).copied(), (len == 308).then_some(byte));
        }
        let mut host = Host::new(loaded(P));
        t.eq("namco163_load", host.call(HostCall::Load(load)), 0);
        t.holds("no option", host.session().is_some_and(|session| !session.options.any()));
    }
}

/// H7, H10, S17: calls on an image of each choice; sample bytes, and byte 307 behind each call.
fn host_calls(t: &mut Checks) {
    for (byte, sample) in BYTES.into_iter().zip([0x3E3E_76C8, 0x3EBE_76C8, 0xBBC4_9BA6, 0xBC44_9BA6u32]) {
        let mut host = Host::of_length(two_channel_p(byte), OPTIONS_LEN);
        host.samples = vec![0xEE; 5];
        for (call, word) in [
            (HostCall::Run(15), 0x100),
            (HostCall::Read(0x4800), 0x0F00),
            (HostCall::Write(0xE000, 0x3F), 0xFF_0000_0000),
            (HostCall::Preview(0x8000, 0xE1), 0x100),
            (HostCall::Reset(0), 0),
            (HostCall::Reset(1), 0),
        ] {
            t.eq(&format!("{call:X?}, options {byte:02X}"), host.call(call), word);
            t.eq("byte 307", host.image()[LEN], byte);
        }
        t.eq("sample bytes", &host.samples[..], &[sample.to_be_bytes().as_slice(), &[0xEE]].concat());
    }
}
