// SPDX-License-Identifier: MIT OR Apache-2.0
//! Cuts the runs of a list differently: the same other calls, and as many accepted clocks in each stretch (D3.1).

use crate::{
    compare::lines,
    player::Player,
    rng::Rng,
    session::{RUN_LIMIT, samples_made},
    stretches::run_clocks,
    text::{Call, Line, parse},
};

/// The new list. Its first line is a comment that says what it is; it takes the place of such a line of the given list, and repeats it.
pub fn recut(calls: &[u8], seed: u64) -> Vec<u8> {
    let mut original = Player::default();
    let mut cutter = Cutter { rng: Rng::new(seed), player: Player::default(), out: Vec::new() };
    let mut clocks = 0;
    let title = lines(calls).next().and_then(comment);
    cutter.line(&titled(seed, title));
    for line in lines(calls).skip(usize::from(title.is_some())) {
        match run_clocks(&original, line) {
            Some(n) => {
                let accepted = original.line(line).is_some_and(|answer| answer.starts_with("ok"));
                clocks += if accepted { n } else { 0 };
            }
            None => {
                if !matches!(parse(line), Line::Nothing) {
                    cutter.stretch(std::mem::take(&mut clocks));
                }
                original.line(line);
                cutter.line(line);
            }
        }
    }
    cutter.stretch(clocks);
    cutter.out
}

/// What a comment says.
fn comment(line: &[u8]) -> Option<&[u8]> {
    let text = line.strip_prefix(b"#")?;
    matches!(parse(line), Line::Nothing).then(|| text.strip_prefix(b" ").unwrap_or(text))
}

fn titled(seed: u64, title: Option<&[u8]>) -> Vec<u8> {
    let mut line = format!("# oracle recut: seed {seed}").into_bytes();
    if let Some(title) = title {
        line.extend_from_slice(b", of: ");
        line.extend_from_slice(title);
    }
    line
}

/// Writes the new list and plays it, since the room that a piece needs depends on the state.
struct Cutter {
    rng: Rng,
    player: Player,
    out: Vec<u8>,
}

impl Cutter {
    fn line(&mut self, line: &[u8]) {
        self.player.line(line);
        self.out.extend_from_slice(line);
        self.out.push(b'\n');
    }

    fn run(&mut self, clocks: u64, room: u64) {
        self.line(Call::Run { clocks, room }.to_string().as_bytes());
    }

    fn stretch(&mut self, clocks: u64) {
        let mut left = clocks;
        while left > 0 {
            let piece = self.piece(left);
            self.idle(piece);
            let room = self.made(piece) + self.rng.pick(&[0, 0, 1, 7]);
            self.run(piece, room);
            left -= piece;
        }
        if self.rng.once_in(16) {
            self.idle(0);
        }
    }

    /// A piece of what is left. Long stretches are cut coarsely, so that the new list is not much longer.
    fn piece(&mut self, left: u64) -> u64 {
        let any = self.rng.between(1, left);
        let piece = if left > 1_000 { any } else { self.rng.pick(&[1, 14, 15, 16, left, left, any]) };
        piece.min(left).min(RUN_LIMIT)
    }

    /// At times a run that changes nothing: of no clock, too long, or without the room that the coming piece needs.
    fn idle(&mut self, piece: u64) {
        if self.player.session.is_none() {
            return;
        }
        match self.rng.below(12) {
            0 => self.run(0, 0),
            1 => self.run(RUN_LIMIT + 1, 0),
            2 if self.made(piece) > 0 => self.run(piece, self.made(piece) - 1),
            _ => (),
        }
    }

    fn made(&self, clocks: u64) -> u64 {
        self.player.session.as_ref().map_or(0, |session| samples_made(&session.chip, clocks))
    }
}
