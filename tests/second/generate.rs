//! Seeded random calls. Random bytes alone reach no depth: each case is first made valid, then some are damaged.

mod command;
mod door;
mod load;
mod reader;
mod session;

use crate::card::{self, Card};
use crate::fault::Fault;
use crate::keys::LENGTHS;
use crate::line::Line;
use crate::random::Random;

/// Lines that belong together: a load with what follows it, one call of the reader, a whole session, or door numbers.
pub struct Case {
    pub lines: Vec<Line>,
    /// What the last line has to hand back: by the session promise the record; there and back, the door number that was given.
    pub promised: Option<Vec<u8>>,
    /// Whether the lines are a session, or the part of one up to where it ended.
    pub session: bool,
}

pub fn case(random: &mut Random) -> Case {
    let lines = match random.below(140) {
        0..16 => vec![Line::Load(load::any(random))],
        16..46 => card_list(random),
        46..56 => vec![reader::list(random)],
        56..68 => vec![reader::open(random)],
        68..80 => vec![reader::seal(random)],
        80..95 => vec![reader::accept(random)],
        95..110 => return session::any(random),
        _ => return door::case(random),
    };
    Case { lines, promised: None, session: false }
}

/// Runs the line on the generator's own card, so that the next one can be made for the card as it is then. Gives a command's answer.
fn follow(card: &mut Card, line: &Line) -> Vec<u8> {
    if let Line::Sets(sets) = line {
        let _ = card::load_sets(card, sets, Fault::None);
    }
    let Line::Call { interface, command, fresh, out } = line else { return Vec::new() };
    let mut buffer = vec![0; *out];
    let answer = card::command(card, *interface, command, fresh, &mut buffer, Fault::None);
    buffer.truncate(answer.length);
    buffer
}

/// A load, and up to sixteen commands and loads of key sets.
pub fn card_list(random: &mut Random) -> Vec<Line> {
    let given = load::good(random);
    let mut lines = vec![Line::Load(given.clone())];
    if let Ok(mut card) = card::load(&given, Fault::None) {
        for _ in 0..random.between(1, 16) {
            let loads = if card.session.is_some() { 40 } else { 15 };
            let line = if random.percent(loads) { load::onto(random, &card) } else { command::call(random, &card, &lines) };
            follow(&mut card, &line);
            lines.push(line);
        }
    }
    lines
}

/// So many key sets at the most come in a list for a card.
pub const MOST_SETS: usize = 12;

/// Interfaces that no card has. Those from 256 on are 0, 1 or another in fewer bits.
pub const UNKNOWN_INTERFACES: [usize; 14] = [2, 3, 4, 127, 128, 254, 255, 256, 257, 1 << 16, 1 << 32, (1 << 32) + 1, 1 << 63, usize::MAX];

/// Mostly one of the two.
fn interface(random: &mut Random) -> usize {
    if random.percent(93) { random.below(2) } else { random.pick(&UNKNOWN_INTERFACES) }
}

/// An identifier; small ones and 0 come often, so that sets, modes and empty slots meet.
fn id(random: &mut Random) -> u16 {
    match random.below(10) {
        0..5 => random.below(20) as u16,
        5 => random.pick(&[0, 1, 0x0100, 0x0402, 0x8000, 0xffff]),
        _ => random.next() as u16,
    }
}

fn distinct_ids(random: &mut Random, count: usize) -> Vec<u16> {
    let mut ids = Vec::new();
    while ids.len() < count {
        let next = id(random);
        if !ids.contains(&next) {
            ids.push(next);
        }
    }
    ids
}

/// A key length: mostly one of the three.
fn key_length(random: &mut Random) -> usize {
    let other = random.pick(&[0, 1, 8, 15, 17, 20, 23, 25, 31, 33, 40, 48, 64, 255, 256, 272, (1 << 32) + 16, usize::MAX]);
    if random.percent(8) { other } else { random.pick(&LENGTHS) }
}

/// A key, RND or KeysHash, mostly of L bytes.
fn value(random: &mut Random, key_length: usize) -> Vec<u8> {
    if random.percent(4) { off_value(random, key_length) } else { random.bytes(key_length.min(255)) }
}

/// A value of any length, sometimes L; one over 32 says that it has more than it can hold.
fn off_value(random: &mut Random, key_length: usize) -> Vec<u8> {
    let about = [key_length.saturating_sub(1), key_length.saturating_add(1)].map(|length| length.min(255));
    let length = random.edge(&[0, 16, 24, 32, 33, 40, 255, about[0], about[1]], 0, 40);
    random.bytes(length)
}

/// A buffer size: mostly enough, often one too short, sometimes anything.
fn size(random: &mut Random, least: usize) -> usize {
    match random.below(10) {
        0..4 => least,
        4 => least.saturating_sub(1),
        5 => least + 1,
        6 => random.between(0, 300),
        _ => least + random.below(45),
    }
}
