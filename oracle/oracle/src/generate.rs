// SPDX-License-Identifier: MIT OR Apache-2.0
//! Random sessions in the replay program's language. A seed gives the same calls everywhere. With options, loads have each of their eight
//! sets as often (L19, S13), images have both lengths, F800 is written more often, and there are sounds at the ends of levels. Without,
//! nothing of that is drawn; the list that is recorded in the repository is such a one. In both some PRG-RAM has up to 128 pages (H12).

mod actions;
pub mod loads;

use crate::{image, layout::Load, player::Player, rng::Rng, session::Session, text::Call};
use actions::{ACTIONS, Action, OPTION_ACTIONS, weighted};
use std::fmt::Write;
use tetanes::m019_namco163::Board;

/// Calls and the Rust's answers to them, in order.
pub struct Recorded {
    pub seed: u64,
    /// Whether options were drawn.
    pub options: bool,
    pub calls: Vec<Call>,
    pub answers: Vec<String>,
}

impl Recorded {
    /// The calls file.
    pub fn calls_text(&self) -> String {
        let options = if self.options { ", options" } else { "" };
        let mut text = format!("# oracle generate: seed {}, {} calls{options}\n", self.seed, self.calls.len());
        for call in &self.calls {
            let _ = writeln!(text, "{call}");
        }
        text
    }

    /// The answers file.
    pub fn answers_text(&self) -> String {
        self.answers.iter().flat_map(|answer| [answer, "\n"]).collect()
    }
}

pub fn generate(seed: u64, calls: usize, options: bool) -> Recorded {
    let recorded = Recorded { seed, options, calls: Vec::new(), answers: Vec::new() };
    let mut generator = Generator { rng: Rng::new(seed), player: Player::default(), recorded, body_end: 0 };
    while generator.recorded.calls.len() < calls {
        generator.session(calls);
    }
    generator.recorded
}

struct Generator {
    rng: Rng,
    player: Player,
    recorded: Recorded,
    /// A session's body ends here, whatever an action still wants to say.
    body_end: usize,
}

impl Generator {
    const SHORTEST: u64 = 20;
    const LONGEST: u64 = 100;
    /// One session in that many has a directory whose places are all held, and is that much longer.
    const FULL: u64 = 50;
    const FULL_CALLS: usize = 300;

    /// A session: a load, marks in its memory, actions, and at the end its directory, image and arena.
    fn session(&mut self, calls: usize) {
        let begin = self.recorded.calls.len();
        let full = self.rng.once_in(Self::FULL);
        let length = self.rng.between(Self::SHORTEST, Self::LONGEST) as usize + if full { Self::FULL_CALLS } else { 0 };
        // A rest too short for a session of its own belongs to this one.
        let rest = calls - begin;
        let end = if rest < length + Self::SHORTEST as usize { calls } else { begin + length };
        self.body_end = end.saturating_sub(3).max(begin);
        if begin == 0 {
            self.before_any_load();
        }
        self.load();
        if full && self.player.session.is_some() {
            actions::fill_up(self);
        }
        let favourites = [weighted(&mut self.rng), weighted(&mut self.rng)];
        while self.recorded.calls.len() < self.body_end && self.player.session.is_some() {
            let action = self.action(&favourites);
            action(self);
        }
        let image = self.whole_image();
        for call in [Call::Directory, image, Call::Arena].into_iter().take(end - self.recorded.calls.len()) {
            self.record(call);
        }
    }

    /// An `image` that is accepted.
    fn whole_image(&self) -> Call {
        let long = self.player.session.as_ref().is_some_and(Session::is_long);
        Call::Image(long.then_some(image::OPTIONS_LEN as u64))
    }

    /// Half of a session goes to two actions, so that states get deep; the rest to all of them. Where options are drawn, one action in
    /// six is about them.
    fn action(&mut self, favourites: &[Action]) -> Action {
        if self.recorded.options && self.rng.once_in(6) {
            let about = self.rng.pick(&OPTION_ACTIONS);
            return self.rng.pick(about);
        }
        match self.rng.below(8) {
            0..4 => self.rng.pick(favourites),
            4..6 => weighted(&mut self.rng),
            _ => self.rng.pick(ACTIONS).1,
        }
    }

    fn say(&mut self, call: Call) {
        if self.recorded.calls.len() < self.body_end {
            self.record(call);
        }
    }

    fn record(&mut self, call: Call) {
        self.recorded.answers.push(self.player.call(&call));
        self.recorded.calls.push(call);
    }

    /// The loaded cartridge. Actions run only where there is one.
    fn loaded(&self) -> &Session {
        self.player.session.as_ref().expect("an action has a cartridge")
    }

    /// Calls that meet no cartridge, also after a refused load.
    fn before_any_load(&mut self) {
        self.say(Call::Sram);
        let refused = loads::refused(&mut self.rng);
        self.say_load(refused);
        self.say(Call::Run { clocks: 15, room: 1 });
        self.say(Call::Preview(0x8000, 0xE1));
        self.say(Call::Register { start: 0x6000, length: 0, number: 1 });
        self.say(Call::Lookup(0x6000));
        self.say(Call::Directory);
    }

    /// A load, where options are drawn with any of them.
    fn say_load(&mut self, load: Load) {
        let load = if self.recorded.options { loads::with_options(&mut self.rng, load) } else { load };
        self.say(Call::Load(load));
    }

    fn load(&mut self) {
        if self.rng.once_in(6) {
            let refused = loads::refused(&mut self.rng);
            self.say_load(refused);
        }
        let accepted = loads::accepted(&mut self.rng);
        self.say_load(accepted);
        if self.player.session.is_some() {
            actions::mark(self);
            actions::far_pages(self);
        }
        // An Unknown soon becomes something else; it shall be seen before.
        if self.player.session.as_ref().is_some_and(|session| session.chip.board == Board::Unknown) {
            actions::quiet(self);
        }
    }
}
