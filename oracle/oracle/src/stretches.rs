// SPDX-License-Identifier: MIT OR Apache-2.0
//! What D3.1 compares (C19): the samples and rises of each stretch, and the answers of the other calls.

use crate::{
    compare::lines,
    player::Player,
    text::{Call, Line, parse},
};

/// C13, C14: the runs between two neighbouring other calls, before the first, or behind the last.
#[derive(Debug, Default, Clone, PartialEq, Eq)]
pub struct Stretch {
    /// Clocks of the accepted runs.
    pub clocks: u64,
    /// Their samples' bits, joined.
    pub samples: Vec<String>,
    /// Their rises, as counts of clocks since the load.
    pub rises: Vec<u64>,
}

#[derive(Debug, Default, PartialEq, Eq)]
pub struct Trace {
    /// One more than the other calls.
    pub stretches: Vec<Stretch>,
    pub others: Vec<String>,
}

impl Trace {
    pub fn of(calls: &[u8]) -> Self {
        let mut player = Player::default();
        let mut trace = Self::default();
        let mut stretch = Stretch::default();
        let mut clocks = 0;
        for line in lines(calls) {
            let run = run_clocks(&player, line);
            let Some(answer) = player.line(line) else { continue };
            match run {
                Some(n) if answer.starts_with("ok") => {
                    stretch.add(&answer, n, clocks);
                    clocks += n;
                }
                Some(_) => (),
                None => {
                    if matches!(parse(line), Line::Call(Call::Load(_))) && answer == "ok" {
                        clocks = 0;
                    }
                    trace.stretches.push(std::mem::take(&mut stretch));
                    trace.others.push(answer);
                }
            }
        }
        trace.stretches.push(stretch);
        trace
    }
}

impl Stretch {
    fn add(&mut self, answer: &str, clocks: u64, before: u64) {
        let mut words = answer.split(' ').skip(2);
        let rise: u64 = words.next().and_then(|word| word.parse().ok()).unwrap_or(0);
        if rise > 0 {
            self.rises.push(before + rise);
        }
        self.samples.extend(words.map(String::from));
        self.clocks += clocks;
    }
}

/// The clocks of a line that is a run of a loaded cartridge. Without one it is answered like any other call.
pub fn run_clocks(player: &Player, line: &[u8]) -> Option<u64> {
    match parse(line) {
        Line::Call(Call::Run { clocks, .. }) if player.session.is_some() => Some(clocks),
        _ => None,
    }
}
