// SPDX-License-Identifier: MIT OR Apache-2.0
//! Counts results that hold and keeps what was expected and what came where one does not.

use std::fmt::Debug;

/// A part of the self-test.
pub type Check = fn(&mut Checks);

#[derive(Default)]
pub struct Checks {
    pub held: usize,
    pub failures: Vec<String>,
}

impl Checks {
    pub fn eq<T: PartialEq + Debug>(&mut self, what: &str, found: T, expected: T) {
        if found == expected {
            self.held += 1;
        } else {
            self.failures.push(format!("{what}: expected {expected:?}, came {found:?}"));
        }
    }

    pub fn holds(&mut self, what: &str, found: bool) {
        self.eq(what, found, true);
    }
}
