// SPDX-License-Identifier: MIT OR Apache-2.0
//! Unfit calls: damaged images, wrong lengths, numbers out of bounds, alone and together.

mod fields;

use crate::{
    draw,
    pair::{Compared, Pair},
};
use fields::{FIELDS, LEVEL_FIELDS, bad_field, set_bits};
use oracle::{
    generate::loads,
    host::{Host, HostCall},
    image::{self, LEN, LENGTHS, OPTIONS_LEN, PRG_RAM_HIGH},
    layout::{Load, PAGE},
    options::{CHOICES, F800_PROTECTS},
    rng::Rng,
    session::{RUN_LIMIT, Session},
    states,
};

const FLIPS: &str = "image bits flipped";
const FLIPS_REFUSED: &str = "image bits flipped that were refused";
const FIELD_VALUES: &str = "fields set to numbers at and beyond their ends";
/// By the choice, refused and then accepted.
const ENDS: [&str; 8] = [
    "outputs and `out` beyond their ends, wrapping average",
    "outputs and `out` within their ends, wrapping average",
    "outputs and `out` beyond their ends, wrapping sum",
    "outputs and `out` within their ends, wrapping sum",
    "outputs and `out` beyond their ends, signed average",
    "outputs and `out` within their ends, signed average",
    "outputs and `out` beyond their ends, signed sum",
    "outputs and `out` within their ends, signed sum",
];
const RANDOM_IMAGES: &str = "random images";
const OTHER_LAYOUTS: &str = "damaged images with the arena that they ask for";

/// What is damaged: the image and the arena of a state.
struct Base {
    image: Vec<u8>,
    arena: Vec<u8>,
}

impl Base {
    /// By an image of one of the lengths that can hold it.
    fn of(rng: &mut Rng, session: &Session) -> Self {
        Self { image: image::of_length(session, rng.pick(image::lengths(session.is_long()))), arena: session.arena().into() }
    }

    /// By turns a loaded board after some calls, and a state that no load reaches.
    fn nth(rng: &mut Rng, number: u64) -> Self {
        if number % 2 == 1 {
            let state = states::any(rng);
            return Self::of(rng, &state);
        }
        let load = loads::accepted(rng);
        let load = loads::with_options(rng, load);
        let session = Session::load(&load, load.arena_len()).unwrap_or_else(|_| unreachable!("such loads are accepted"));
        let mut host = Host::new(session);
        host.samples = vec![0; 20_000];
        for _ in 0..20 {
            host.call(draw::fit_call(rng));
        }
        host.session().map(|session| Self::of(rng, session)).unwrap_or_else(|| unreachable!("a host's own image is read"))
    }

    /// Lends the damaged image with the base's arena or, at times, with one of the length that the image now asks for.
    fn lend(&self, pair: &mut Pair, rng: &mut Rng, image: &[u8]) {
        pair.lend_image(image);
        let asked = pair.host().session().map(|session| session.layout().arena_len() as usize);
        match asked {
            Some(len) if len != self.arena.len() && rng.once_in(2) => {
                pair.counts.reach(OTHER_LAYOUTS);
                pair.lend_arena(&self.arena_of(len));
            }
            _ => pair.lend_arena(&self.arena),
        }
    }

    /// The arena, cut or with more bytes behind it.
    fn arena_of(&self, len: usize) -> Vec<u8> {
        let mut bytes = self.arena.clone();
        bytes.resize(len, 0x5C);
        bytes
    }
}

/// Flips every bit of the images of that many states, each in turn, with two calls after each.
pub fn flip_bits(pair: &mut Pair, rng: &mut Rng, bases: u64) -> Compared<()> {
    for number in 0..bases {
        let base = Base::nth(rng, number);
        for bit in 0..base.image.len() * 8 {
            let mut image = base.image.clone();
            image[bit / 8] ^= 0x80 >> (bit % 8);
            base.lend(pair, rng, &image);
            let refused = pair.host().session().is_none();
            pair.counts.reach(FLIPS);
            pair.counts.reach_if(refused, FLIPS_REFUSED);
            for _ in 0..2 {
                draw::make_fit(pair, rng)?;
            }
        }
    }
    Ok(())
}

/// Gives every field the numbers at and beyond the ends of its range, with each kind of call after each.
pub fn set_fields(pair: &mut Pair, rng: &mut Rng, bases: u64) -> Compared<()> {
    for number in 0..bases {
        let base = Base::nth(rng, number);
        for field in FIELDS {
            for (index, value) in (0..field.count).flat_map(|index| field.values.iter().map(move |value| (index, *value))) {
                let mut image = base.image.clone();
                set_bits(&mut image, field.first + index * field.width, field.width, value);
                pair.counts.reach(FIELD_VALUES);
                each_call(pair, rng, &base, &image)?;
            }
        }
        entries(pair, rng, &base)?;
        used_without_reserve(pair, rng, &base)?;
        options(pair, rng, &base)?;
        work_ram(pair, rng, &base)?;
        levels(pair, rng, &base)?;
    }
    Ok(())
}

/// H9, H11, N2: the image with each of some bytes of options, the unused bits one by one among them; and cut, which leaves another state
/// where an option was set.
fn options(pair: &mut Pair, rng: &mut Rng, base: &Base) -> Compared<()> {
    let mut image = base.image.clone();
    image.resize(OPTIONS_LEN, 0);
    for byte in [0x00, 0x20, 0x40, 0x60, 0x80, 0xA0, 0xC0, 0xE0, 0x10, 0xF0, 0x08, 0x04, 0x02, 0x01, 0x18, 0x81, 0xE1, 0x7F, 0xFF] {
        image[LEN] = byte;
        pair.counts.reach(FIELD_VALUES);
        each_call(pair, rng, base, &image)?;
    }
    each_call(pair, rng, base, &image[..LEN])
}

/// R9, H12: counts of PRG-RAM pages by the high bit and the seven others, at and beyond the greatest, with options and without.
fn work_ram(pair: &mut Pair, rng: &mut Rng, base: &Base) -> Compared<()> {
    let mut image = base.image.clone();
    image.resize(OPTIONS_LEN, 0);
    let options = image[LEN] & !PRG_RAM_HIGH;
    for (high, low) in [(0, 0), (0, 63), (0, 64), (0, 65), (0, 127), (1, 0), (1, 1), (1, 8), (1, 64), (1, 127)] {
        set_bits(&mut image, fields::PRG_RAM, fields::PRG_RAM_BITS, low);
        for byte in [options, 0x00, 0xE0] {
            image[LEN] = byte | if high == 1 { PRG_RAM_HIGH } else { 0 };
            pair.counts.reach(FIELD_VALUES);
            each_call(pair, rng, base, &image)?;
        }
        each_call(pair, rng, base, &image[..LEN])?;
    }
    Ok(())
}

/// R11: in each choice, with the other outputs and `out` of 0, an output and `out` at and beyond the ends of every choice.
fn levels(pair: &mut Pair, rng: &mut Rng, base: &Base) -> Compared<()> {
    pair.counts.want(&ENDS);
    let mut silent = base.image.clone();
    silent.resize(OPTIONS_LEN, 0);
    for (field, index) in LEVEL_FIELDS.iter().flat_map(|field| (0..field.count).map(move |index| (field, index))) {
        set_bits(&mut silent, field.first + index * field.width, field.width, 0);
    }
    for (choice, field) in (0..CHOICES.len()).flat_map(|choice| LEVEL_FIELDS.iter().map(move |field| (choice, field))) {
        silent[LEN] = silent[LEN] & PRG_RAM_HIGH | rng.pick(&[0, F800_PROTECTS]) | (choice as u8) << 5;
        for (index, value) in (0..field.count).flat_map(|index| field.values.iter().map(move |value| (index, *value))) {
            let mut image = silent.clone();
            set_bits(&mut image, field.first + index * field.width, field.width, value);
            each_call(pair, rng, base, &image)?;
            let taken = pair.host().session().is_some();
            pair.counts.reach(ENDS[2 * choice + usize::from(taken)]);
        }
    }
    Ok(())
}

/// One call of each kind that reads the image, each on the damaged one.
fn each_call(pair: &mut Pair, rng: &mut Rng, base: &Base, image: &[u8]) -> Compared<()> {
    for call in [
        HostCall::Read(draw::address(rng)),
        HostCall::Write(draw::address(rng), rng.byte()),
        HostCall::Preview(draw::address(rng), rng.byte()),
        HostCall::Run(rng.below(40)),
        HostCall::Reset(rng.below(2)),
    ] {
        base.lend(pair, rng, image);
        draw::make(pair, rng, call)?;
    }
    Ok(())
}

/// Each entry at the last page of the arena, at the first behind it, and at the last that the image can hold, with and without the flag,
/// also where the lent arena has that page.
fn entries(pair: &mut Pair, rng: &mut Rng, base: &Base) -> Compared<()> {
    let pages = base.arena.len() as u64 / PAGE;
    for index in 0..fields::ENTRIES {
        for page in [pages - 1, pages, 1_023] {
            let mut image = base.image.clone();
            set_bits(&mut image, fields::FIRST_ENTRY + 11 * index, 11, page << 1 | rng.below(2));
            pair.counts.reach(FIELD_VALUES);
            base.lend(pair, rng, &image);
            if rng.once_in(4) {
                pair.lend_arena(&base.arena_of(base.arena.len() + PAGE as usize));
            }
            draw::make_fit(pair, rng)?;
        }
    }
    Ok(())
}

fn used_without_reserve(pair: &mut Pair, rng: &mut Rng, base: &Base) -> Compared<()> {
    for (reserve, used) in [(0, 0), (0, 1), (1, 0), (1, 1)] {
        let mut image = base.image.clone();
        set_bits(&mut image, fields::RESERVE, 1, reserve);
        set_bits(&mut image, fields::USED, 1, used);
        pair.counts.reach(FIELD_VALUES);
        each_call(pair, rng, base, &image)?;
    }
    Ok(())
}

/// Images of random bytes, and images with some random bytes.
pub fn random_images(pair: &mut Pair, rng: &mut Rng, calls: u64) -> Compared<()> {
    let mut base = Base::nth(rng, 0);
    for number in 0..calls {
        if number % 100 == 0 {
            base = Base::nth(rng, number / 100);
        }
        let mut image = base.image.clone();
        if rng.once_in(4) {
            let len = rng.pick(&LENGTHS);
            image = rng.bytes(len);
        }
        for _ in 0..rng.below(3) {
            let place = rng.below(image.len() as u64) as usize;
            image[place] = rng.byte();
        }
        base.lend(pair, rng, &image);
        pair.counts.reach(RANDOM_IMAGES);
        draw::make_fit(pair, rng)?;
    }
    Ok(())
}

/// Calls with any number of things wrong at once, so that the first of their refusals shows.
pub fn several_wrong(pair: &mut Pair, rng: &mut Rng, calls: u64) -> Compared<()> {
    let mut base = Base::nth(rng, 0);
    for number in 0..calls {
        if number % 50 == 0 {
            base = Base::nth(rng, number / 50);
        }
        let call = any_call(rng);
        let mut image = base.image.clone();
        if rng.once_in(4) {
            bad_field(rng, &mut image);
        }
        if rng.once_in(6) {
            image.resize(rng.pick(&[0, 306, 307, 308, 309, 1_000]), 0);
        }
        if image.len() == OPTIONS_LEN && rng.once_in(8) {
            image[LEN] = rng.byte();
        }
        pair.lend_image(&image);
        let arena = arena(rng, &base, call);
        pair.lend_arena(&arena);
        match call {
            HostCall::Run(_) if rng.once_in(4) => {
                pair.lend_samples(rng.below(8) as usize);
                pair.call(call)?;
            }
            _ => {
                draw::make(pair, rng, call)?;
            }
        }
    }
    Ok(())
}

/// A call of any kind whose numbers are unfit in one of three.
fn any_call(rng: &mut Rng) -> HostCall {
    let fit = !rng.once_in(3);
    match rng.below(7) {
        0 | 1 => {
            let load = if fit { loads::accepted(rng) } else { unfit_load(rng) };
            let load = loads::with_options(rng, load);
            draw::load(rng, load)
        }
        2 if fit => HostCall::Reset(rng.below(2)),
        2 => HostCall::Reset(rng.pick(&[2, 3, 256, 1 << 32, (1 << 32) + 1, 1 << 63, u64::MAX])),
        3 if fit => HostCall::Run(rng.below(100)),
        3 => HostCall::Run(rng.pick(&[RUN_LIMIT, RUN_LIMIT + 1, RUN_LIMIT + 1, 65_536, 1 << 32, (1 << 32) + 5, u64::MAX])),
        4 => HostCall::Read(if fit { draw::address(rng) } else { low_address(rng) }),
        5 => HostCall::Preview(if fit { draw::address(rng) } else { low_address(rng) }, rng.byte()),
        _ => HostCall::Write(if fit { draw::address(rng) } else { low_address(rng) }, rng.byte()),
    }
}

fn low_address(rng: &mut Rng) -> u16 {
    rng.pick(&[0x0000, 0x0001, 0x2000, 0x4018, 0x47FE, 0x47FF])
}

/// Refused by one or more of 4, 5 and 6.
fn unfit_load(rng: &mut Rng) -> Load {
    let mut load = loads::refused(rng);
    if rng.once_in(4) {
        load.mapper = rng.pick(&[0, 18, 20, 209, 211, 65_555, 1 << 32, (1 << 63) + 210, u64::MAX]);
    }
    if rng.once_in(4) {
        let sizes = [&mut load.prg_rom, &mut load.prg_ram, &mut load.battery, &mut load.chr, &mut load.ciram];
        let one = rng.below(5) as usize;
        for size in sizes.into_iter().skip(one).take(1) {
            *size = rng.pick(&[u64::MAX, u64::MAX - 1_022, 1 << 63, 1 << 32]);
        }
    }
    load
}

/// The arena that the call wants, or one of another length.
fn arena(rng: &mut Rng, base: &Base, call: HostCall) -> Vec<u8> {
    let len = match call {
        HostCall::Load(load) | HostCall::LoadOptions(load) => load.arena_len() as usize,
        _ => base.arena.len(),
    };
    let page = PAGE as usize;
    let wrong = [0, 1, len.saturating_sub(1), len + 1, len.saturating_sub(page), len + page, 2 * len];
    base.arena_of(if rng.once_in(4) { rng.pick(&wrong) } else { len })
}
