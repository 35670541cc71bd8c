// SPDX-License-Identifier: MIT OR Apache-2.0
//! S13 to S17: random lists under all eight sets of options in step. Registers, sound RAM and port are alike; outputs, `out` and samples
//! are the same in both editions; outputs go by the levels alone, sums are exact, and an average is its sum divided once; no float is -0;
//! every state is in range.

use crate::selftest::{
    bench::{Handy, loaded, refusal},
    checks::Checks,
};
use oracle::{
    generate::loads,
    image::{OPTIONS_LEN, decode, of_length},
    layout::{Load, Region},
    options::{CHOICES, Options},
    rng::Rng,
    session::Session,
};
use tetanes::m019_namco163::Audio;

const LISTS: usize = 300;
const CALLS: usize = 40;

#[derive(Default)]
struct Counts {
    updates: usize,
    negative: usize,
    cancelled: usize,
    fractions: usize,
    resets: usize,
}

pub fn check(t: &mut Checks) {
    let mut rng = Rng::new(6);
    let mut counts = Counts::default();
    for number in 0..LISTS {
        let load = loads::accepted(&mut rng);
        t.holds(&format!("list {number} of {load:?}"), list(&mut rng, load, &mut counts));
    }
    let Counts { updates, negative, cancelled, fractions, resets } = counts;
    t.holds(
        &format!("each of it occurs: {:?}", [updates, negative, cancelled, fractions, resets]),
        [updates, negative, cancelled, fractions, resets].iter().all(|count| *count > 50),
    );
}

fn list(rng: &mut Rng, load: Load, counts: &mut Counts) -> bool {
    let mut carts: Vec<Session> = Options::all().into_iter().map(|options| loaded(load.with(options))).collect();
    let mut holds = alike(&carts);
    for _ in 0..CALLS {
        let samples = step(rng, &mut carts, counts);
        let made = samples[0].len();
        holds &= alike(&carts) && samples_alike(&samples) && (made == 0 || mixes_follow(&carts)) && carts.iter().all(is_fit);
        let audio = &carts[0].chip.audio;
        let signed_sum = carts[3].chip.audio.out;
        counts.updates += made;
        counts.negative += usize::from(signed_sum < 0.0);
        counts.cancelled += usize::from(signed_sum == 0.0 && in_use(&carts[3].chip.audio).iter().any(|output| *output != 0.0));
        counts.fractions += usize::from(audio.out.fract() != 0.0);
    }
    holds
}

/// 128 bytes of sound RAM; half of them have levels of 1 and -1 alone, so that sums of several channels can be 0.
fn sound_ram(rng: &mut Rng) -> Vec<u8> {
    let mut ram = rng.bytes(128);
    if rng.once_in(2) {
        ram[..0x40].fill_with(|| rng.pick(&[0x77, 0x79, 0x97, 0x99]));
        for channel in 0..8 {
            let base = 0x40 + 8 * channel;
            (ram[base + 4], ram[base + 6], ram[base + 7]) = (0xFC, ram[base + 6] & 0x3F, ram[base + 7] & 0x70 | 1);
        }
    }
    ram
}

/// Makes one call on each cart, with the samples of each; accepted or refused it is by all alike.
fn step(rng: &mut Rng, carts: &mut [Session], counts: &mut Counts) -> Vec<Vec<u32>> {
    let (clocks, kind, at) = (rng.pick(&[1, 15, 15, 40, 150, 300]), rng.below(2), rng.below(128));
    let (addr, byte, ram) = (rng.address(0x4800, 0xFFFF), rng.byte(), sound_ram(rng));
    let port = rng.pick(&[0x4800, 0x4800, 0xF800, 0xE000]);
    let val = rng.pick(&[byte, byte & 0x7F, 0x80 | at as u8]);
    let call = rng.below(12);
    counts.resets += usize::from(call == 0);
    let each = |cart: &mut Session| {
        let mut samples = Vec::new();
        let answer = match call {
            0 => refusal(cart.reset(kind)),
            1 => refusal(cart.write(addr, val)),
            2 | 3 => refusal(cart.fill(Region::Battery, &ram)).max(refusal(cart.restore_battery())),
            4..7 => refusal(cart.write(port, val)),
            7 => refusal(cart.read(0x4800)),
            _ => {
                samples = cart.samples(clocks);
                0
            }
        };
        (answer, samples)
    };
    let made: Vec<_> = carts.iter_mut().map(each).collect();
    assert!(made.iter().all(|(answer, _)| *answer == made[0].0), "a call is refused by all carts alike");
    made.into_iter().map(|(_, samples)| samples).collect()
}

fn in_use(audio: &Audio) -> &[f32] {
    &audio.channel_out[7 - usize::from(audio.ram[0x7F] >> 4 & 7)..]
}

/// Everything of the chip but its outputs and `out`, and by the choice these.
fn alike(carts: &[Session]) -> bool {
    let others = |cart: &Session| {
        let mut chip = cart.chip.clone();
        (chip.audio.channel_out, chip.audio.out) = ([0.0; 8], 0.0);
        format!("{chip:?} {:?} {:?}", chip.audio.ram.as_ref() as &[u8], cart.layout())
    };
    let floats = |cart: &Session| (cart.chip.audio.channel_out.map(f32::to_bits), cart.chip.audio.out.to_bits());
    carts.iter().all(|cart| others(cart) == others(&carts[0]))
        && carts.iter().all(|cart| floats(cart) == floats(&carts[cart.options.choice()]))
}

/// S6, S7, S14, S15, behind an update.
fn mixes_follow(carts: &[Session]) -> bool {
    let [wrapping_average, wrapping_sum, signed_average, signed_sum] = [0, 1, 2, 3].map(|choice| &carts[choice].chip.audio);
    let exact = |audio: &Audio| f64::from(audio.out) == in_use(audio).iter().map(|output| f64::from(*output)).sum::<f64>();
    let divided = |sum: &Audio| (sum.out / in_use(sum).len() as f32).to_bits();
    let whole = |wrapping: f32, signed: f32| wrapping >= signed && (wrapping - signed) % 256.0 == 0.0;
    let levels = wrapping_sum.channel_out.into_iter().zip(signed_sum.channel_out);
    exact(wrapping_sum)
        && exact(signed_sum)
        && wrapping_average.out.to_bits() == divided(wrapping_sum)
        && signed_average.out.to_bits() == divided(signed_sum)
        && wrapping_average.channel_out == wrapping_sum.channel_out
        && signed_average.channel_out == signed_sum.channel_out
        && levels.into_iter().all(|(wrapping, signed)| whole(wrapping, signed))
}

/// As many in each choice, the same in both editions, and none -0.
fn samples_alike(samples: &[Vec<u32>]) -> bool {
    let choices = CHOICES.len();
    (0..choices).all(|choice| samples[choice] == samples[choice + choices])
        && samples.iter().flatten().all(|bits| *bits != (-0.0f32).to_bits())
        && samples.iter().all(|made| made.len() == samples[0].len())
}

/// R9, R11, S16, H3: in range, so without -0, and read back from its image.
fn is_fit(cart: &Session) -> bool {
    let image = of_length(cart, OPTIONS_LEN);
    let negative_zero = |level: &f32| level.to_bits() == (-0.0f32).to_bits();
    let audio = &cart.chip.audio;
    !audio.channel_out.iter().chain([&audio.out]).any(negative_zero)
        && decode(&image).is_ok_and(|read| of_length(&read, OPTIONS_LEN) == image && read.options == cart.options)
}
