// SPDX-License-Identifier: MIT OR Apache-2.0
//! What was called, how it was answered, and what else was reached.

use oracle::host::{BlockCall, HostCall};
use std::{collections::BTreeMap, fmt};

const KINDS: [&str; 13] = [
    "load",
    "load_options",
    "read",
    "write",
    "preview",
    "run",
    "reset",
    "register",
    "lookup",
    "find",
    "load_blocks",
    "write_blocks",
    "stored",
];
/// The first kind that is lent a directory.
const BLOCKS: usize = 7;

/// Refusals that a host can meet.
const REFUSALS: [usize; 12] = [1, 2, 3, 4, 5, 6, 7, 8, 10, 11, 13, 14];

#[derive(Default)]
pub struct Counts {
    /// For each kind of call, how often it was accepted and refused.
    kinds: [(u64, u64); KINDS.len()],
    refusals: [u64; 15],
    reached: BTreeMap<&'static str, u64>,
}

impl Counts {
    pub fn calls(&self) -> u64 {
        self.kinds.iter().map(|(accepted, refused)| accepted + refused).sum()
    }

    /// Calls that are lent a directory.
    pub fn block_calls(&self) -> u64 {
        self.kinds[BLOCKS..].iter().map(|(accepted, refused)| accepted + refused).sum()
    }

    pub fn call(&mut self, call: HostCall, word: u64) {
        let kind = match call {
            HostCall::Load(_) => 0,
            HostCall::LoadOptions(_) => 1,
            HostCall::Read(_) => 2,
            HostCall::Write(..) => 3,
            HostCall::Preview(..) => 4,
            HostCall::Run(_) => 5,
            HostCall::Reset(_) => 6,
        };
        self.count(kind, word);
    }

    pub fn call_blocks(&mut self, call: BlockCall, word: u64) {
        let kind = match call {
            BlockCall::Register { .. } => 0,
            BlockCall::Lookup(_) => 1,
            BlockCall::Find(_) => 2,
            BlockCall::Load(_) => 3,
            BlockCall::Write(..) => 4,
            BlockCall::Stored(_) => 5,
        };
        self.count(BLOCKS + kind, word);
    }

    fn count(&mut self, kind: usize, word: u64) {
        match word as u8 {
            0 => self.kinds[kind].0 += 1,
            number => {
                self.kinds[kind].1 += 1;
                self.refusals[usize::from(number)] += 1;
            }
        }
    }

    /// Names what has to be reached.
    pub fn want(&mut self, wanted: &[&'static str]) {
        for what in wanted {
            self.reach_if(false, what);
        }
    }

    pub fn reach(&mut self, what: &'static str) {
        self.reach_if(true, what);
    }

    pub fn reach_if(&mut self, reached: bool, what: &'static str) {
        *self.reached.entry(what).or_default() += u64::from(reached);
    }

    /// What was never reached.
    pub fn missing(&self) -> Vec<String> {
        let refusals = REFUSALS.into_iter().filter(|number| self.refusals[*number] == 0).map(|number| format!("refusal {number}"));
        let kinds =
            KINDS.into_iter().zip(self.kinds).filter(|(_, (accepted, _))| *accepted == 0).map(|(kind, _)| format!("accepted {kind}"));
        let others = self.reached.iter().filter(|(_, count)| **count == 0).map(|(what, _)| what.to_string());
        refusals.chain(kinds).chain(others).collect()
    }
}

impl fmt::Display for Counts {
    fn fmt(&self, f: &mut fmt::Formatter) -> fmt::Result {
        for (kind, (accepted, refused)) in KINDS.into_iter().zip(self.kinds) {
            writeln!(f, "  {kind}: {accepted} accepted, {refused} refused")?;
        }
        let refusals: Vec<String> = REFUSALS.into_iter().map(|number| format!("{number}: {}", self.refusals[number])).collect();
        writeln!(f, "  refusals by number: {}", refusals.join(", "))?;
        for (what, count) in &self.reached {
            writeln!(f, "  {what}: {count}")?;
        }
        Ok(())
    }
}
