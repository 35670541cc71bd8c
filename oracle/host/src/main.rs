// SPDX-License-Identifier: MIT OR Apache-2.0
//! `host-test`: the C archive against the oracle, which is the unchanged Rust with the amendments of M5, L20, L21, S14 and S15, call by
//! call.

mod archive;
mod blocks;
mod counts;
mod draw;
mod editions;
mod functions;
mod lent;
mod levels;
mod pair;
mod places;
mod previews;
mod sessions;
mod states;
mod unfit;
mod work_ram;

use oracle::{layout::Load, rng::Rng, session::Session};
use pair::{Compared, Pair};
use std::{
    env,
    process::ExitCode,
    time::{SystemTime, UNIX_EPOCH},
};

const USAGE: &str = "usage: host-test [--seed S] [--calls N] [--guard BYTES]
  S: a new one each time unless it is given; N: about how many calls, 400000 unless it is given
  BYTES: guard bytes before and behind what is lent, 64 unless it is given; 0 shows reads beyond the ends to valgrind";

struct Wanted {
    seed: u64,
    calls: u64,
    guard: usize,
}

fn main() -> ExitCode {
    let arguments: Vec<String> = env::args().skip(1).collect();
    let Some(wanted) = wanted(&arguments) else {
        eprintln!("{USAGE}");
        return ExitCode::from(2);
    };
    println!("host-test: seed {}", wanted.seed);
    let mut pair = Pair::new(first_session(), wanted.guard);
    if let Err(difference) = play(&mut pair, &wanted) {
        println!("host-test: the archive and the Rust differ; seed {}, calls {}\n{difference}", wanted.seed, wanted.calls);
        return ExitCode::FAILURE;
    }
    print!("{}", pair.counts);
    let missing = pair.counts.missing();
    if !missing.is_empty() {
        println!("host-test: never reached: {}", missing.join(", "));
        return ExitCode::FAILURE;
    }
    let (calls, with_directory) = (pair.counts.calls(), pair.counts.block_calls());
    println!("host-test: {calls} calls of the archive are the Rust's, {with_directory} of them with a directory, 0 differences");
    ExitCode::SUCCESS
}

fn wanted(arguments: &[String]) -> Option<Wanted> {
    let mut wanted = Wanted { seed: fresh_seed(), calls: 400_000, guard: 64 };
    for option in arguments.chunks(2) {
        let [name, value] = option else { return None };
        match name.as_str() {
            "--seed" => wanted.seed = value.parse().ok()?,
            "--calls" => wanted.calls = value.parse().ok()?,
            "--guard" => wanted.guard = value.parse().ok()?,
            _ => return None,
        }
    }
    Some(wanted)
}

fn fresh_seed() -> u64 {
    let now = SystemTime::now().duration_since(UNIX_EPOCH).expect("the clock is past 1970");
    Rng::new(now.as_nanos() as u64).below(1 << 32)
}

/// What is lent before the first session loads.
fn first_session() -> Session {
    let load = Load { mapper: 210, prg_rom: 8_192, ..Load::default() };
    Session::load(&load, load.arena_len()).unwrap_or_else(|_| unreachable!("a small 210 is accepted"))
}

/// Half of the calls are sessions; half as many again are calls with a directory. Whatever number is wanted, every bit is flipped in one
/// image or more.
fn play(pair: &mut Pair, wanted: &Wanted) -> Compared<()> {
    let mut rng = Rng::new(wanted.seed);
    let bases = wanted.calls.div_ceil(50_000);
    editions::want(&mut pair.counts);
    levels::want(&mut pair.counts);
    work_ram::want(&mut pair.counts);
    sessions::play(pair, &mut rng, wanted.calls / 2)?;
    states::play(pair, &mut rng, wanted.calls / 5)?;
    unfit::flip_bits(pair, &mut rng, bases)?;
    unfit::set_fields(pair, &mut rng, bases)?;
    unfit::random_images(pair, &mut rng, wanted.calls / 20)?;
    unfit::several_wrong(pair, &mut rng, wanted.calls / 8)?;
    blocks::play(pair, &mut rng, wanted.calls / 2)
}
