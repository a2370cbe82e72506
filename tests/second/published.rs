//! The second implementation on the transcripts: every field of every line.

use crate::compare::see;
use crate::fault::Fault;
use crate::side::Second;
use crate::tally::Tally;
use crate::transcript::{parse, question, result};

const FILES: [&str; 4] = [
    "tests/transcripts/t07-card.txt",
    "tests/transcripts/t04-reader.txt",
    "tests/transcripts/t05-door.txt",
    "tests/transcripts/edges.txt",
];

/// The line as the second implementation gives it.
fn given(side: &mut Second, published: &str) -> Option<String> {
    let (asked, _) = published.split_once(" => ")?;
    let line = parse(asked)?;
    Some(format!("{} => {}", question(&line), result(&see(side, &line, 1))))
}

/// Each line that is no comment counts; the first ones that differ are printed.
pub fn check(name: &str, text: &str) -> Tally {
    let mut side = Second::new(Fault::None);
    let mut tally = Tally::default();
    for (at, published) in text.lines().enumerate().filter(|(_, line)| !line.starts_with('#')) {
        let got = given(&mut side, published);
        tally.count(got.as_deref() == Some(published));
        if got.as_deref() != Some(published) && tally.failed < 4 {
            println!("{name}, line {}: {}", at + 1, got.as_deref().unwrap_or("cannot be read"));
        }
    }
    tally
}

pub fn run() -> Tally {
    let mut all = Tally::default();
    for path in FILES {
        let text = std::fs::read_to_string(path).unwrap_or_default();
        all.add(check(path, &text).reported(path));
    }
    all
}
