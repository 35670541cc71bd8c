// SPDX-License-Identifier: MIT OR Apache-2.0
//! What a list of calls reaches, counted from the states that it is played through and from its answers.
//!
//! Each area names all its classes, so that one that is never reached shows with a count of 0.

mod banking;
mod blocks;
mod levels;
mod loads;
mod memory;
mod previews;
mod protection;
mod reads;
mod runs;
mod work_ram;

use crate::{
    directory::Directory,
    layout::{Layout, PAGE, Region},
    options::Options,
    player::Player,
    session::Session,
    text::Call,
};
use std::collections::{BTreeMap, BTreeSet};
use tetanes::{
    m019_namco163::{Board, Namco163},
    memory::Page,
};

/// A state with its arena and its directory.
#[derive(Clone)]
struct View {
    chip: Namco163,
    layout: Layout,
    used: usize,
    options: Options,
    prg: [Page; 64],
    chr: [Page; 16],
    arena: Vec<u8>,
    /// Whether the zero page is zeros.
    zeros: bool,
    directory: Directory,
}

impl View {
    fn of(session: &Session) -> Self {
        Self {
            chip: session.chip.clone(),
            layout: session.layout(),
            used: *session.memory.raw_battery_ext_len(),
            options: session.options,
            prg: *session.memory.prg_pages(),
            chr: *session.memory.chr_pages(),
            arena: session.arena().into(),
            zeros: session.arena()[..PAGE as usize].iter().all(|byte| *byte == 0),
            directory: session.directory.clone(),
        }
    }

    fn board(&self) -> &'static str {
        board_name(self.chip.board)
    }

    fn prg_entry(&self, addr: u16) -> Page {
        self.prg[usize::from(addr) / PAGE as usize]
    }

    fn chr_entry(&self, addr: u16) -> Page {
        self.chr[usize::from(addr) / PAGE as usize % 16]
    }

    /// The region that an entry shows.
    fn shows(&self, page: Page) -> &'static str {
        match self.layout.region_of(page.offset() as u64 / PAGE) {
            None => "the zero page",
            Some(Region::Chr) if self.layout.chr_ram => "CHR-RAM",
            Some(Region::Chr) => "CHR-ROM",
            Some(Region::PrgRom) => "PRG-ROM",
            Some(Region::PrgRam) => "PRG-RAM",
            Some(Region::Battery) => "the reserve",
            Some(Region::CiRam) => "CIRAM",
        }
    }

    fn region_len(&self, region: Region) -> u64 {
        if region == Region::Battery { self.used as u64 } else { self.layout.pages(region) * PAGE }
    }
}

fn board_name(board: Board) -> &'static str {
    match board {
        Board::Unknown => "Unknown",
        Board::Namco163 => "163",
        Board::Namco175 => "175",
        Board::Namco340 => "340",
    }
}

const BOARDS: [&str; 4] = ["Unknown", "163", "175", "340"];

/// One call as it was played. Before and after are none where no cartridge is loaded.
struct Played<'a> {
    call: &'a Call,
    answer: &'a str,
    before: Option<&'a View>,
    after: Option<&'a View>,
    /// The call right before it, and its answer.
    last: Option<(&'a Call, &'a str)>,
}

impl Played<'_> {
    fn accepted(&self) -> bool {
        self.answer.starts_with("ok")
    }

    fn refused(&self, number: u8) -> bool {
        self.answer == format!("refused {number}")
    }

    /// The answer's words behind `ok`.
    fn words(&self) -> Vec<&str> {
        self.answer.split(' ').skip(1).collect()
    }
}

pub struct Coverage {
    /// Every listed class and how often it was reached.
    pub counts: BTreeMap<String, u64>,
    /// Classes that were reached and are not listed: what should be impossible happened.
    pub unlisted: BTreeSet<String>,
}

/// Counts classes of one played call.
struct Counter<'a>(&'a mut Coverage);

impl Counter<'_> {
    fn hit(&mut self, class: impl Into<String>) {
        let class = class.into();
        match self.0.counts.get_mut(&class) {
            Some(count) => *count += 1,
            None => _ = self.0.unlisted.insert(class),
        }
    }

    fn hit_if(&mut self, condition: bool, class: impl Into<String>) {
        if condition {
            self.hit(class);
        }
    }

    /// What R10 lets a lent state have or do, and no list from a load shows. It is not listed, so a hit is a failure.
    fn never(&mut self, condition: bool, what: &str) {
        self.hit_if(condition, format!("never: {what}"));
    }
}

type Classes = fn() -> Vec<String>;
type Observe = fn(&Played, &mut Counter);

const AREAS: [(Classes, Observe); 10] = [
    (loads::classes, loads::observe),
    (levels::classes, levels::observe),
    (banking::classes, banking::observe),
    (protection::classes, protection::observe),
    (previews::classes, previews::observe),
    (reads::classes, reads::observe),
    (runs::classes, runs::observe),
    (memory::classes, memory::observe),
    (work_ram::classes, work_ram::observe),
    (blocks::classes, blocks::observe),
];

impl Coverage {
    pub fn of(calls: &[Call]) -> Self {
        let listed = AREAS.iter().flat_map(|(classes, _)| classes());
        let mut coverage = Self { counts: listed.map(|class| (class, 0)).collect(), unlisted: BTreeSet::new() };
        let mut player = Player::default();
        let mut before: Option<View> = None;
        let mut last: Option<(&Call, String)> = None;
        for call in calls {
            let answer = player.call(call);
            let after = player.session.as_ref().map(View::of);
            let last_played = last.as_ref().map(|(call, answer)| (*call, answer.as_str()));
            let played = Played { call, answer: &answer, before: before.as_ref(), after: after.as_ref(), last: last_played };
            for (_, observe) in AREAS {
                observe(&played, &mut Counter(&mut coverage));
            }
            before = after;
            last = Some((call, answer));
        }
        coverage
    }

    /// The class that was reached least.
    pub fn rarest(&self) -> Option<(&str, u64)> {
        self.counts.iter().min_by_key(|(_, count)| **count).map(|(class, count)| (class.as_str(), *count))
    }
}
