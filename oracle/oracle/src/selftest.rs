// SPDX-License-Identifier: MIT OR Apache-2.0
//! `oracle self-test`.

mod bench;
mod checks;
mod edges;
mod generated;
mod images;
mod language;
mod table;
mod voice;

use checks::{Check, Checks};
use std::panic::{self, AssertUnwindSafe};

/// Parts besides the twelve cases and the edge results.
const PARTS: [(&str, Check); 8] = [
    ("image encoder", images::check),
    ("image reading", images::reading),
    ("image lengths and options", images::options),
    ("language", language::check),
    ("classes that the generator reaches", generated::coverage),
    ("same seed, same bytes", generated::repeatable),
    ("runs cut differently", generated::recuts),
    ("comparison", generated::comparison),
];

/// Runs everything; true if all of it holds.
pub fn run() -> bool {
    let mut failures = Vec::new();
    twelve_cases(&mut failures);
    edge_results(&mut failures);
    for (part, check) in PARTS {
        println!("{part}: {} hold", held(&mut failures, part, check));
    }
    for failure in &failures {
        println!("FAILED {failure}");
    }
    println!("{}", if failures.is_empty() { "self-test: all hold" } else { "self-test: FAILED" });
    failures.is_empty()
}

/// Runs one check, keeps its failures, and says how many results held. A panic is a failure, too, and leaves the rest to run.
fn held(failures: &mut Vec<String>, what: &str, check: Check) -> usize {
    let mut checks = Checks::default();
    if panic::catch_unwind(AssertUnwindSafe(|| check(&mut checks))).is_err() {
        checks.failures.push("expected answers, came a panic".into());
    }
    failures.extend(checks.failures.iter().map(|failure| format!("{what}: {failure}")));
    checks.held
}

fn twelve_cases(failures: &mut Vec<String>) {
    let mut hold = 0;
    for (name, case) in table::CASES {
        let before = failures.len();
        let holds = held(failures, name, case) > 0 && failures.len() == before;
        println!("  {} {name}", if holds { "holds" } else { "FAILS" });
        hold += usize::from(holds);
    }
    println!("cases T1 to T12: {hold} hold");
}

fn edge_results(failures: &mut Vec<String>) {
    let hold: usize = edges::SECTIONS.iter().map(|(section, check)| held(failures, section, *check)).sum();
    println!("edge results: {hold} hold");
}
