//! Seeded random calls on two sides: the proved library against the second implementation; and, to see that a difference is found,
//! the second implementation with a fault against itself.

use std::fmt::Write;

use crate::compare::{Seen, first_difference, see};
use crate::fault::{Fault, TRAPS};
use crate::generate::{self, Case};
use crate::line::Line;
use crate::meddle::{CHANGES, Meddled};
use crate::outcomes::{Outcomes, for_length};
use crate::published;
use crate::random::Random;
use crate::shrink::shrink;
use crate::side::{Library, Reply, Second, Side};
use crate::tally::Tally;
use crate::transcript::{question, result};

/// After so many differences the library's run ends.
const MOST: usize = 3;

/// So many lines at the most may a fault's difference be left with.
const FEW: usize = 4;

/// A side to be compared with the second implementation: how a new one is made, and what it is called.
struct Other<'a, S> {
    new: &'a dyn Fn() -> S,
    name: &'a str,
}

#[derive(Default)]
struct Run {
    tally: Tally,
    outcomes: Outcomes,
    /// Each difference: shrunk, as a transcript.
    found: Vec<String>,
}

impl<S: Side> Other<'_, S> {
    fn differs(&self, lines: &[Line], pattern: u64) -> bool {
        first_difference(lines, pattern, &mut Second::new(Fault::None), &mut (self.new)()).is_some()
    }

    /// The lines with the second implementation's results, and behind a line that differs the other side's.
    fn transcript(&self, lines: &[Line], pattern: u64) -> String {
        let (mut second, mut other) = (Second::new(Fault::None), (self.new)());
        let mut text = String::new();
        for line in lines {
            let (wanted, got) = (see(&mut second, line, pattern), see(&mut other, line, pattern));
            let _ = writeln!(text, "{} => {}", question(line), result(&wanted));
            if wanted != got {
                let _ = writeln!(text, "# {}: {}\n# differs in: {}", self.name, result(&got), wanted.differing(&got));
            }
        }
        text
    }

    /// Compares a case line by line up to the first difference. Gives the last call seen, `None` after a difference.
    fn compare(&self, case: &Case, pattern: u64, run: &mut Run) -> Option<Seen> {
        let (mut second, mut other) = (Second::new(Fault::None), (self.new)());
        let mut last = None;
        for line in &case.lines {
            let (wanted, got) = (see(&mut second, line, pattern), see(&mut other, line, pattern));
            run.tally.count(wanted == got);
            run.outcomes.count_reply(line, &wanted.reply, second.why);
            if wanted != got {
                return None;
            }
            last = Some(got);
        }
        last
    }

    /// Compares so many calls, or until there are so many differences.
    fn run(&self, calls: usize, seed: u64, most: usize) -> Run {
        let mut random = Random(seed);
        let mut run = Run::default();
        while run.tally.ran() < calls && run.found.len() < most {
            let case = generate::case(&mut random);
            let pattern = random.next();
            match self.compare(&case, pattern, &mut run) {
                None => {
                    let lines = shrink(case.lines, &|lines| self.differs(lines, pattern));
                    run.found.push(self.transcript(&lines, pattern));
                }
                Some(last) if broken_promise(&case, &last, &mut run.outcomes) => {
                    run.tally.count(false);
                    run.found.push(format!("# a promise is broken\n{}", self.transcript(&case.lines, pattern)));
                }
                Some(_) => {}
            }
        }
        run
    }
}

/// Whether a session to which the promise applies ended without the chosen record, or a door number did not come back.
fn broken_promise(case: &Case, last: &Seen, outcomes: &mut Outcomes) -> bool {
    let returned = match &last.reply {
        Reply::Accept { number: 0, part, .. } => last.lent().get(part.clone()),
        Reply::Door { number: 0, length, .. } => last.lent().get(..*length),
        _ => None,
    };
    let lengths: Vec<usize> = case.lines.iter().filter_map(Line::key_length).collect();
    let kind = match case.lines.first() {
        Some(Line::Door { of, .. }) => format!("{} and back", of.name()),
        _ => for_length("session", lengths.first().copied()),
    };
    let ended = if loaded_between(&case.lines) { "ended as promised, key sets loaded in between" } else { "ended as promised" };
    match &case.promised {
        Some(record) if returned == Some(record) => outcomes.count(kind, ended),
        Some(_) => return true,
        None if case.session && lengths.iter().any(|l| *l != lengths[0]) => outcomes.count("session".to_string(), "two key lengths"),
        None if case.session => outcomes.count("session".to_string(), "without promise"),
        None => {}
    }
    false
}

/// Whether key sets were loaded between the first command and the last.
fn loaded_between(lines: &[Line]) -> bool {
    let mut lines = lines.iter().skip_while(|line| !matches!(line, Line::Call { .. }));
    let loaded = lines.position(|line| matches!(line, Line::Sets(_)));
    loaded.is_some() && lines.any(|line| matches!(line, Line::Call { .. }))
}

pub fn library(calls: usize, seed: u64) -> Tally {
    let Run { mut tally, outcomes, mut found } = Other { new: &Library::default, name: "library" }.run(calls, seed, MOST);
    outcomes.print();
    found.dedup();
    found.iter().for_each(|transcript| print!("{transcript}"));
    // A run that ended at its differences has not come to all outcomes.
    for outcome in outcomes.missing().iter().filter(|_| found.is_empty()) {
        println!("never came up: {outcome}");
        tally.count(false);
    }
    tally.reported(&format!("library against second implementation, seed {seed}"))
}

/// A transcript's lines that are no comments.
fn line_count(transcript: &str) -> usize {
    transcript.lines().filter(|line| !line.starts_with('#')).count()
}

/// Whether a difference was found, shrunk to a few lines, and printed so that it can be read and run again.
fn shown(name: &str, run: &Run) -> bool {
    let [transcript] = &run.found[..] else {
        println!("{name}: NOT found within {} calls", run.tally.passed);
        return false;
    };
    let again = published::check(name, transcript);
    again.failed == 0 && (1..=FEW).contains(&again.passed) && transcript.contains("\n# with the fault: ")
}

/// Each of document 01's traps, T-01's, T-02's, and T-04's to T-07's, and a change of each thing compared, has to be found.
pub fn self_test(calls: usize, seed: u64) -> Tally {
    let mut traps = Tally::default();
    for (fault, trap) in TRAPS {
        let run = Other { new: &|| Second::new(fault), name: "with the fault" }.run(calls, seed, 1);
        traps.count(shown(trap, &run));
        let lines = run.found.first().map_or(0, |transcript| line_count(transcript));
        println!("  {trap}: found after {} calls, shrunk to {lines} lines", run.tally.passed);
    }
    let mut all = traps.reported("self-test, traps found");
    let mut changes = Tally::default();
    for (name, change) in CHANGES {
        let run = Other { new: &|| Meddled::new(change), name: "with the fault" }.run(calls, seed, 1);
        changes.count(shown(name, &run));
    }
    all.add(changes.reported("self-test, changed fields found"));
    all
}
