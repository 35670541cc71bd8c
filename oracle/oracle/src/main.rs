// SPDX-License-Identifier: MIT OR Apache-2.0
//! The oracle's program.

mod selftest;

use oracle::{
    compare::{compare, lines},
    generate::generate,
    player::Player,
    recut::recut,
};
use std::{
    env, fs,
    io::{self, BufWriter, Read, Write},
    process::ExitCode,
    str::FromStr,
};

const USAGE: &str = "usage:
  oracle self-test
  oracle generate [--options] --seed S --calls N --out CALLS --answers ANSWERS
  oracle answer < CALLS > ANSWERS
  oracle check CALLS ANSWERS
  oracle recut --seed S < CALLS > CALLS2";

/// Differences that `check` shows in full.
const SHOWN: usize = 10;

fn main() -> ExitCode {
    let arguments: Vec<String> = env::args().skip(1).collect();
    let words: Vec<&str> = arguments.iter().map(String::as_str).collect();
    let result = match words.as_slice() {
        ["self-test"] => Ok(selftest::run()),
        ["generate", "--options", rest @ ..] => record(rest, true),
        ["generate", rest @ ..] => record(rest, false),
        ["answer"] => answer(),
        ["check", calls, answers] => check(calls, answers),
        ["recut", "--seed", seed] => cut(seed),
        _ => Err(USAGE.into()),
    };
    match result {
        Ok(true) => ExitCode::SUCCESS,
        Ok(false) => ExitCode::FAILURE,
        Err(message) => {
            eprintln!("{message}");
            ExitCode::from(2)
        }
    }
}

fn standard_input() -> Result<Vec<u8>, String> {
    let mut text = Vec::new();
    io::stdin().read_to_end(&mut text).map_err(|error| format!("standard input: {error}"))?;
    Ok(text)
}

fn number<T: FromStr>(what: &str, word: &str) -> Result<T, String> {
    word.parse().map_err(|_| format!("{what} is not a number: {word}"))
}

fn record(words: &[&str], options: bool) -> Result<bool, String> {
    let ["--seed", seed, "--calls", calls, "--out", out, "--answers", answers] = words else { return Err(USAGE.into()) };
    let recorded = generate(number("the seed", seed)?, number("the number of calls", calls)?, options);
    for (path, text) in [(out, recorded.calls_text()), (answers, recorded.answers_text())] {
        fs::write(path, text).map_err(|error| format!("{path}: {error}"))?;
    }
    Ok(true)
}

fn cut(seed: &str) -> Result<bool, String> {
    let calls = recut(&standard_input()?, number("the seed", seed)?);
    io::stdout().write_all(&calls).map_err(|error| format!("standard output: {error}"))?;
    Ok(true)
}

fn answer() -> Result<bool, String> {
    let calls = standard_input()?;
    let mut player = Player::default();
    let mut out = BufWriter::new(io::stdout().lock());
    for answer in lines(&calls).filter_map(|line| player.line(line)) {
        writeln!(out, "{answer}").map_err(|error| format!("standard output: {error}"))?;
    }
    out.flush().map_err(|error| format!("standard output: {error}"))?;
    Ok(true)
}

fn read(path: &str) -> Result<Vec<u8>, String> {
    fs::read(path).map_err(|error| format!("{path}: {error}"))
}

fn check(calls: &str, answers: &str) -> Result<bool, String> {
    let comparison = compare(&read(calls)?, &read(answers)?);
    for difference in comparison.differences.iter().take(SHOWN) {
        println!("{difference}");
    }
    println!("{} calls compared, {} differences", comparison.calls, comparison.differences.len());
    Ok(comparison.differences.is_empty())
}
