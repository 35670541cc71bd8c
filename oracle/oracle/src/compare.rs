// SPDX-License-Identifier: MIT OR Apache-2.0
//! Compares an answers file with the answers of the Rust.

use crate::player::{Player, is_free_error};
use std::fmt;

/// One answer line that is not the Rust's.
#[derive(Debug, Clone, PartialEq, Eq)]
pub struct Difference {
    /// Line of the answers file, from 1.
    pub answer_line: usize,
    /// Line of the calls file, from 1, and the call; none for a surplus answer.
    pub call: Option<(usize, String)>,
    pub expected: Option<String>,
    pub found: Option<String>,
}

#[derive(Debug, Default)]
pub struct Comparison {
    pub calls: usize,
    pub differences: Vec<Difference>,
}

/// Lines of a file; a last line without a line feed is a line, too.
pub fn lines(text: &[u8]) -> impl Iterator<Item = &[u8]> {
    text.split_inclusive(|byte| *byte == b'\n').map(|line| line.strip_suffix(b"\n").unwrap_or(line))
}

pub fn compare(calls: &[u8], answers: &[u8]) -> Comparison {
    let mut player = Player::default();
    let mut found_lines = lines(answers).map(|line| String::from_utf8_lossy(line).into_owned());
    let mut comparison = Comparison::default();
    for (index, line) in lines(calls).enumerate() {
        let Some(expected) = player.line(line) else { continue };
        comparison.calls += 1;
        let found = found_lines.next();
        if !found.as_ref().is_some_and(|found| agree(&expected, found)) {
            comparison.differences.push(Difference {
                answer_line: comparison.calls,
                call: Some((index + 1, String::from_utf8_lossy(line).into_owned())),
                expected: Some(expected),
                found,
            });
        }
    }
    for (index, found) in found_lines.enumerate() {
        let answer_line = comparison.calls + index + 1;
        comparison.differences.push(Difference { answer_line, call: None, expected: None, found: Some(found) });
    }
    comparison
}

/// Equal, or both say that the line is no call: those words are free.
fn agree(expected: &str, found: &str) -> bool {
    expected == found || (is_free_error(expected) && is_free_error(found))
}

impl fmt::Display for Difference {
    fn fmt(&self, f: &mut fmt::Formatter<'_>) -> fmt::Result {
        write!(f, "answer line {}", self.answer_line)?;
        if let Some((line, call)) = &self.call {
            write!(f, ", call line {line}: {}", excerpt(call, 0))?;
        }
        let expected = self.expected.as_deref().unwrap_or("no line");
        let found = self.found.as_deref().unwrap_or("no line");
        let place = expected.bytes().zip(found.bytes()).take_while(|(left, right)| left == right).count();
        write!(f, "\n  expected {}\n  found    {}", excerpt(expected, place), excerpt(found, place))
    }
}

/// Long lines are shown around the place where they differ.
fn excerpt(line: &str, place: usize) -> String {
    const BEFORE: usize = 20;
    const SHOWN: usize = 120;
    if line.len() <= SHOWN {
        return line.into();
    }
    let start = place.saturating_sub(BEFORE);
    let part = String::from_utf8_lossy(&line.as_bytes()[start.min(line.len())..line.len().min(start + SHOWN)]).into_owned();
    let ahead = if start > 0 { ".. " } else { "" };
    let behind = if start + SHOWN < line.len() { " .." } else { "" };
    format!("{ahead}{part}{behind}")
}
