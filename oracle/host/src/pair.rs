// SPDX-License-Identifier: MIT OR Apache-2.0
//! The archive and the Rust, side by side: both are lent the same, get the same calls, and are compared after each.

use crate::{archive, counts::Counts, editions, lent::Lent, levels, places::Places, work_ram};
use oracle::{
    directory::Directory,
    host::{BlockCall, Host, HostCall},
    session::Session,
};
use std::fmt::Write;

/// A difference, told in full.
pub type Compared<T> = Result<T, String>;

pub struct Pair {
    host: Host,
    image: Lent,
    arena: Lent,
    samples: Lent,
    directory: Places,
    /// Guard bytes on each side.
    guard: usize,
    pub counts: Counts,
}

impl Pair {
    pub fn new(session: Session, guard: usize) -> Self {
        let [image, arena, samples] = Default::default();
        let directory = Places::default();
        let mut pair = Self { host: Host::new(session), image, arena, samples, directory, guard, counts: Counts::default() };
        pair.lend_again();
        pair
    }

    /// The Rust's side.
    pub fn host(&self) -> &Host {
        &self.host
    }

    /// A block for these bytes; where there are guards, blocks start at changing distances from a whole word.
    fn block(&self, bytes: &[u8]) -> Lent {
        let shift = if self.guard == 0 { 0 } else { self.counts.calls() as usize % 8 };
        Lent::new(bytes, self.guard + shift, self.guard)
    }

    /// Lends the archive what the Rust's side holds.
    fn lend_again(&mut self) {
        self.image = self.block(self.host.image());
        self.arena = self.block(self.host.arena());
        self.directory = Places::new(&self.host.directory.places, self.guard);
    }

    /// Lends a state by an image of a length that can hold it.
    pub fn lend_state(&mut self, session: Session, image_len: usize) {
        self.host = Host::of_length(session, image_len);
        self.lend_again();
        self.samples = Lent::default();
    }

    pub fn lend_image(&mut self, bytes: &[u8]) {
        self.host.lend_image(bytes);
        self.image = self.block(bytes);
    }

    pub fn lend_arena(&mut self, bytes: &[u8]) {
        self.host.lend_arena(bytes);
        self.arena = self.block(bytes);
    }

    pub fn lend_directory(&mut self, directory: Directory) {
        self.directory = Places::new(&directory.places, self.guard);
        self.host.directory = directory;
    }

    /// That many bytes for samples, none of them 0, by a pattern that changes from call to call.
    pub fn lend_samples(&mut self, len: usize) {
        let salt = self.counts.calls() as usize;
        self.host.samples = (0..len).map(|place| ((place * 31 + salt) % 255) as u8 + 1).collect();
        self.samples = self.block(&self.host.samples);
    }

    /// Image, arena and samples, as the archive has left them.
    pub fn lent(&self) -> [&[u8]; 3] {
        [self.image.bytes(), self.arena.bytes(), self.samples.bytes()]
    }

    /// Something that the host does by itself, between calls.
    pub fn edit(&mut self, change: impl FnOnce(&mut Session)) {
        self.host.edit(change);
        let same = self.host.arena().len() == self.arena.bytes().len() && self.host.image().len() == self.image.bytes().len();
        if same {
            self.arena.set(self.host.arena());
            self.image.set(self.host.image());
        } else {
            self.lend_again();
        }
    }

    /// The word that both answer.
    pub fn call(&mut self, call: HostCall) -> Compared<u64> {
        let image_before = self.image.bytes().to_vec();
        let before = editions::seen(&self.host);
        let came = archive::call(call, &mut self.image, &mut self.arena, &mut self.samples);
        let expected = self.host.call(call);
        self.counts.call(call, expected);
        editions::count(&mut self.counts, &before, call, expected);
        levels::count(&mut self.counts, &self.host, call, expected);
        work_ram::count(&mut self.counts, &image_before, &self.host, call, expected);
        let differences = self.differences(expected, came);
        if differences.is_empty() {
            return Ok(expected);
        }
        let (number, arena, samples) = (self.counts.calls(), self.arena.bytes().len(), self.samples.bytes().len());
        Err(format!(
            "call {number}: {call:X?}\narena of {arena} bytes, samples of {samples} bytes, image before:\n  {}\n{differences}",
            hexadecimal(&image_before)
        ))
    }

    /// The word that both answer to a call with a directory.
    pub fn call_blocks(&mut self, call: BlockCall) -> Compared<u64> {
        let (image_before, places_before) = (self.image.bytes().to_vec(), self.directory.places().to_vec());
        let image_len = image_before.len();
        let came = archive::call_blocks(call, &mut self.image, &mut self.arena, &mut self.directory);
        let expected = self.host.call_blocks(call);
        self.counts.call_blocks(call, expected);
        editions::count_blocks(&mut self.counts, image_len, call, expected);
        levels::count_blocks(&mut self.counts, call, expected);
        work_ram::count_blocks(&mut self.counts, image_len, call, expected);
        let differences = self.differences(expected, came);
        if differences.is_empty() {
            return Ok(expected);
        }
        let (number, arena) = (self.counts.calls(), self.arena.bytes().len());
        Err(format!(
            "call {number}: {call:X?}\narena of {arena} bytes, image before:\n  {}\nplaces before:\n  {}\n{differences}",
            hexadecimal(&image_before),
            held(&places_before)
        ))
    }

    fn differences(&self, expected: u64, came: u64) -> String {
        let mut text = String::new();
        if expected != came {
            let _ = writeln!(text, "answer: the Rust {expected:016X}, the archive {came:016X}");
        }
        for (what, expected, lent) in [
            ("image", self.host.image(), &self.image),
            ("arena", self.host.arena(), &self.arena),
            ("samples", &self.host.samples, &self.samples),
        ] {
            if expected != lent.bytes() {
                text += &different_bytes(what, expected, lent.bytes());
            }
            if !lent.guards_hold() {
                let _ = writeln!(text, "{what}: the archive wrote before or behind it");
            }
        }
        text + &self.different_places()
    }

    /// Every call is compared in the directory, too, those that are not lent one by the places that were lent last.
    fn different_places(&self) -> String {
        let mut text = String::new();
        let (expected, came) = (&self.host.directory.places[..], self.directory.places());
        if expected != came {
            let _ = writeln!(text, "places of the Rust:\n  {}\nplaces of the archive:\n  {}", held(expected), held(came));
        }
        if !self.directory.guards_hold() {
            let _ = writeln!(text, "directory: the archive wrote before or behind it");
        }
        text
    }
}

/// How many places there are, and those that are not 0.
fn held(places: &[u64]) -> String {
    let held = places.iter().enumerate().filter(|(_, place)| **place != 0);
    let shown: Vec<String> = held.map(|(index, place)| format!("{index}: {place:016X}")).collect();
    format!("{} places, {}", places.len(), shown.join(", "))
}

/// The first differing bytes, and all bytes of what is short.
fn different_bytes(what: &str, expected: &[u8], came: &[u8]) -> String {
    let places = expected.iter().zip(came).enumerate().filter(|(_, (expected, came))| expected != came);
    let shown: Vec<String> = places.take(8).map(|(place, (expected, came))| format!("{place:X}: {expected:02X} {came:02X}")).collect();
    let mut text = format!("{what}, place: the Rust, the archive: {}\n", shown.join(", "));
    if expected.len() <= 1_000 {
        let _ = writeln!(text, "{what} of the Rust:\n  {}\n{what} of the archive:\n  {}", hexadecimal(expected), hexadecimal(came));
    }
    text
}

fn hexadecimal(bytes: &[u8]) -> String {
    bytes.iter().map(|byte| format!("{byte:02X}")).collect()
}
