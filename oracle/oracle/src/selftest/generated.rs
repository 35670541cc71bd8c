// SPDX-License-Identifier: MIT OR Apache-2.0
//! Tests of the generator, of recutting and of the comparison.

use super::checks::Checks;
use oracle::{
    compare::{compare, lines},
    coverage::Coverage,
    generate::{Recorded, generate},
    options::Options,
    player::Player,
    recut::recut,
    stretches::Trace,
    text::{Call, Line, parse},
};

const SEED: u64 = 1;
const COVERAGE_CALLS: usize = 160_000;

/// Every class of calls is reached, counted from the played states.
pub fn coverage(t: &mut Checks) {
    let coverage = Coverage::of(&generate(SEED, COVERAGE_CALLS, true).calls);
    for (class, count) in &coverage.counts {
        t.holds(&format!("`{class}` is reached"), *count > 0);
    }
    t.eq("reached and not listed", &coverage.unlisted, &Default::default());
    let (without, loads) = (coverage.counts["load with PRG-RAM of 0 pages"], coverage.counts["load accepted"]);
    t.holds("a tenth of the accepted loads or more have no PRG-RAM", 10 * without >= loads);
    println!("coverage: {without} of {loads} accepted loads have no PRG-RAM");
    let with = |options: Options| coverage.counts[&format!("load with options {:02X}", options.byte())];
    t.holds("each set of options is in a tenth of them or more", Options::all().into_iter().all(|options| 10 * with(options) >= loads));
    if let Some((class, count)) = coverage.rarest() {
        println!("coverage: {} classes in {COVERAGE_CALLS} calls, the rarest {count} times ({class})", coverage.counts.len());
    }
}

/// The same seed gives the same bytes, another seed others; files say what was played, and calls read back as they were.
pub fn repeatable(t: &mut Checks) {
    for (calls, options) in [1, 2, 3, 5, 19, 20, 100, 5_000].into_iter().flat_map(|calls| [(calls, false), (calls, true)]) {
        let (first, again, other) = (generate(7, calls, options), generate(7, calls, options), generate(8, calls, options));
        t.eq("calls", first.calls.len(), calls);
        t.holds("same seed, calls file", first.calls_text() == again.calls_text());
        t.holds("same seed, answers file", first.answers_text() == again.answers_text());
        t.holds("other seed", calls < 5 || first.calls_text() != other.calls_text());
        let read_back = |call: &Call| parse(call.to_string().as_bytes()) == Line::Call(call.clone());
        t.holds("calls read back", first.calls.iter().all(read_back));
        let comparison = compare(first.calls_text().as_bytes(), first.answers_text().as_bytes());
        t.eq("files agree", (comparison.calls, comparison.differences), (calls, vec![]));
    }
}

/// D3.1 on the Rust: with runs cut differently, other answers, joined samples and rises are the same.
pub fn recuts(t: &mut Checks) {
    for seed in 0..8 {
        let options = seed % 2 == 1;
        let calls = generate(seed, 4_000, options).calls_text().into_bytes();
        let trace = Trace::of(&calls);
        for cut in 0..3 {
            let cut_calls = recut(&calls, cut);
            let what = format!("seed {seed}, cut {cut}");
            let title = format!(
                "# oracle recut: seed {cut}, of: oracle generate: seed {seed}, 4000 calls{}",
                if options { ", options" } else { "" }
            );
            t.eq(&format!("{what}: first line"), lines(&cut_calls).next(), Some(title.as_bytes()));
            t.holds(&format!("{what}: the list is another"), lines(&cut_calls).skip(1).ne(lines(&calls).skip(1)));
            t.eq(&format!("{what}: first other trace"), first_difference(&trace, &Trace::of(&cut_calls)), None);
        }
        let heard = trace.stretches.iter().any(|stretch| stretch.samples.iter().any(|sample| sample != "$00000000"));
        t.holds("there are samples", heard);
        t.holds("there are previews", lines(&calls).any(|line| line.starts_with(b"preview ")));
        for word in ["register", "lookup", "directory"] {
            t.holds(&format!("there is {word}"), lines(&calls).any(|line| line.starts_with(word.as_bytes())));
        }
        t.holds("there are rises", trace.stretches.iter().any(|stretch| !stretch.rises.is_empty()));
        options_stay(t, &calls, options);
    }
    rises_since_load(t);
    previews_cut(t);
    blocks_cut(t);
}

/// Loads with an option: many or, where no option is drawn, none. Images of a said length, which 128 pages of PRG-RAM need too: many or
/// some. As many of both in another cut.
fn options_stay(t: &mut Checks, calls: &[u8], options: bool) {
    let spaces = |line: &[u8]| line.iter().filter(|byte| **byte == b' ').count();
    let with_option = |line: &&[u8]| line.starts_with(b"load ") && spaces(line) == 11;
    let counts = |list: &[u8]| {
        let images = lines(list).filter(|line| line.starts_with(b"image ")).count();
        (lines(list).filter(with_option).count(), images)
    };
    let (loads, images) = counts(calls);
    t.holds("options", if options { loads > 30 } else { loads == 0 });
    t.holds("images of a said length", images > if options { 20 } else { 0 });
    t.eq("options in another cut", counts(&recut(calls, 0)), (loads, images));
}

fn first_difference(left: &Trace, right: &Trace) -> Option<String> {
    if left.others.len() != right.others.len() {
        return Some(format!("{} other calls, then {}", left.others.len(), right.others.len()));
    }
    let other = left.others.iter().zip(&right.others).position(|(left, right)| left != right);
    let stretch = left.stretches.iter().zip(&right.stretches).position(|(left, right)| left != right);
    match (other, stretch) {
        (None, None) => None,
        (Some(index), _) => Some(format!("other call {index}: {}, then {}", left.others[index], right.others[index])),
        (_, Some(index)) => Some(format!("stretch {index}: {:?}, then {:?}", left.stretches[index], right.stretches[index])),
    }
}

/// C14: a stretch's rises count the clocks since the load, where C5's answer counts those of the run.
fn rises_since_load(t: &mut Checks) {
    let calls = "load 19 0 0 1 32768 8192 128 8192 0 2048\nwrite $5000 $FD\nwrite $5800 $FF\nrun 1 0\nread $6000\nrun 5 0\n";
    let mut player = Player::default();
    let answers: Vec<_> = calls.lines().filter_map(|line| player.line(line.as_bytes())).collect();
    t.eq("the last run", answers.last().map(String::as_str), Some("ok 0 1"));
    let rises: Vec<_> = Trace::of(calls.as_bytes()).stretches.into_iter().map(|stretch| stretch.rises).collect();
    t.eq("rises of the stretches", rises, vec![vec![], vec![], vec![], vec![], vec![2]]);
}

/// C13, L18: a preview is another call. It cuts a stretch as a peek does, and its answer is the same however clocks are cut.
fn previews_cut(t: &mut Checks) {
    let list = |other| format!("load 19 0 0 1 32768 8192 128 8192 0 2048\nrun 20 1\n{other}\nrun 40 3\n").into_bytes();
    let (peek, preview) = (Trace::of(&list("peek $8000")), Trace::of(&list("preview $8000 $E1")));
    t.eq("its stretches", &preview.stretches, &peek.stretches);
    t.eq("their clocks", preview.stretches.iter().map(|stretch| stretch.clocks).collect(), vec![0, 20, 40]);
    t.eq("its answer", preview.others.last().map(String::as_str), Some("ok $0000000000000000 0 64 $0001 1 0"));
    for cut in 0..8 {
        t.eq("recut", first_difference(&preview, &Trace::of(&recut(&list("preview $8000 $E1"), cut))), None);
    }
}

/// C13, K7: register, lookup and directory are other calls; runs, however they are cut, hand the directory on.
fn blocks_cut(t: &mut Checks) {
    let load = "load 19 0 0 1 32768 8192 128 8192 0 2048";
    let list = format!("{load}\nrun 20 1\nregister $6000 16 5\nrun 40 3\nlookup $6000\nrun 7 1\ndirectory\nrun 9 1\n").into_bytes();
    let trace = Trace::of(&list);
    t.eq("their stretches' clocks", trace.stretches.iter().map(|stretch| stretch.clocks).collect(), vec![0, 20, 40, 7, 9]);
    t.eq("their answers", trace.others.join(", "), "ok, ok, ok 16 $00000005, ok 1 $6000 16 $00000005".into());
    for cut in 0..8 {
        t.eq("recut", first_difference(&trace, &Trace::of(&recut(&list, cut))), None);
    }
}

/// A kind of answer: its name, the calls that give it, which word to change and which digit of it, from the end.
type Kind = (&'static str, fn(&Call, &str) -> bool, usize, usize);

const KINDS: [Kind; 22] = [
    ("a read's byte", |call, answer| matches!(call, Call::Read(_)) && answer.starts_with("ok"), 1, 0),
    ("a write's PRG mask", |call, answer| matches!(call, Call::Write(..)) && answer.contains(" 8 24 "), 1, 7),
    ("a write's PRG count", |call, answer| matches!(call, Call::Write(..)) && answer.contains(" 8 32 "), 2, 0),
    ("a write's lowest PRG page", |call, answer| matches!(call, Call::Write(..)) && answer.contains(" 0 64 "), 3, 0),
    ("a write's CHR mask", |call, answer| matches!(call, Call::Write(..)) && answer.ends_with(" 8 8"), 4, 2),
    ("a preview's PRG mask", |call, answer| matches!(call, Call::Preview(..)) && answer.contains(" 8 24 "), 1, 7),
    ("a preview's PRG count", |call, answer| matches!(call, Call::Preview(..)) && answer.contains(" 8 32 "), 2, 0),
    ("a preview's lowest CHR page", |call, answer| matches!(call, Call::Preview(..)) && answer.ends_with(" 0 16"), 6, 0),
    ("a preview's CHR mask", |call, answer| matches!(call, Call::Preview(..)) && answer.ends_with(" 8 8"), 4, 2),
    ("a run's samples made", |call, answer| matches!(call, Call::Run { .. }) && answer.starts_with("ok 1 "), 1, 0),
    ("a run's rise", |call, answer| matches!(call, Call::Run { .. }) && rose(answer), 2, 0),
    ("a sample's last bit", |call, answer| matches!(call, Call::Run { .. }) && answer.starts_with("ok 2 0 $3"), 4, 0),
    ("an image digit", |call, answer| matches!(call, Call::Image(_)) && answer.starts_with("ok"), 1, 300),
    ("the arena's Adler-32", |call, answer| matches!(call, Call::Arena) && answer.starts_with("ok"), 2, 0),
    ("the arena's length", |call, answer| matches!(call, Call::Arena) && answer.starts_with("ok"), 1, 0),
    ("the battery's length", |call, answer| matches!(call, Call::Sram) && answer.starts_with("ok"), 2, 0),
    ("a lookup's length", |call, answer| matches!(call, Call::Lookup(_)) && answer.contains('$'), 1, 0),
    ("a lookup's number", |call, answer| matches!(call, Call::Lookup(_)) && answer.contains('$'), 2, 7),
    ("a directory's count", |call, answer| matches!(call, Call::Directory) && answer.contains('$'), 1, 0),
    ("a directory's start", |call, answer| matches!(call, Call::Directory) && answer.contains('$'), 2, 3),
    ("a directory's last number", |call, answer| matches!(call, Call::Directory) && answer.contains('$'), 4, 0),
    ("a refusal", |_, answer| answer.starts_with("refused"), 1, 0),
];

/// An accepted run's answer with a rise.
fn rose(answer: &str) -> bool {
    answer.starts_with("ok") && answer.split(' ').nth(2) != Some("0")
}

/// One changed bit is reported as exactly one difference, at its line; so are a missing and a surplus line.
pub fn comparison(t: &mut Checks) {
    let recorded = generate(SEED, 10_000, true);
    for (what, gives, word, digit) in KINDS {
        let pairs = recorded.calls.iter().zip(&recorded.answers).enumerate();
        let given: Vec<_> = pairs.filter(|(_, (call, answer))| gives(call, answer)).collect();
        t.holds(&format!("{what} occurs twice"), given.len() > 1);
        for (index, (_, answer)) in given.first().into_iter().chain(given.last()) {
            reported(t, &recorded, what, *index, &flipped(answer, word, digit));
        }
    }
    missing_and_surplus(t, &recorded);
}

/// The answer with the lowest bit of one digit changed.
fn flipped(answer: &str, word: usize, digit: usize) -> String {
    let mut words: Vec<String> = answer.split(' ').map(String::from).collect();
    let place = words[word].len() - 1 - digit;
    let old = &words[word][place..=place];
    let new = format!("{:X}", u8::from_str_radix(old, 16).expect("a digit is changed") ^ 1);
    words[word].replace_range(place..=place, &new);
    words.join(" ")
}

fn reported(t: &mut Checks, recorded: &Recorded, what: &str, index: usize, changed: &str) {
    let mut answers = recorded.answers.clone();
    answers[index] = changed.into();
    let comparison = compare(recorded.calls_text().as_bytes(), (answers.join("\n") + "\n").as_bytes());
    t.eq(what, comparison.differences.len(), 1);
    for difference in comparison.differences {
        t.eq(what, difference.answer_line, index + 1);
        // The calls file begins with a comment.
        t.eq(what, difference.call, Some((index + 2, recorded.calls[index].to_string())));
        t.eq(what, difference.expected.as_ref(), Some(&recorded.answers[index]));
        t.eq(what, difference.found.as_deref(), Some(changed));
    }
}

fn missing_and_surplus(t: &mut Checks, recorded: &Recorded) {
    let calls = recorded.calls_text();
    let answers = recorded.answers_text();
    let short = recorded.answers[..9_999].join("\n");
    let missing = compare(calls.as_bytes(), short.as_bytes()).differences;
    t.eq("a missing line", missing.iter().map(|d| (d.answer_line, d.found.clone())).collect(), vec![(10_000, None)]);
    let surplus = compare(calls.as_bytes(), (answers + "ok\n").as_bytes()).differences;
    t.eq("a surplus line", surplus.iter().map(|d| (d.answer_line, d.expected.clone())).collect(), vec![(10_001, None)]);
}
