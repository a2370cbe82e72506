//! T-06: refused final commands up to 65,535 and beyond, one by one; and random calls on cards whose counts are set, most of them high, which
//! no line of a transcript can do. Two sides are compared in all that a call hands back or writes, and the counts with what was refused.

use std::collections::BTreeSet;
use std::fmt::Write;

use crate::card::{Given, KeySet, Mode};
use crate::compare::{Seen, see};
use crate::fault::{Fault, LIMIT_TRAPS};
use crate::generate;
use crate::line::Line;
use crate::plaid::Tries;
use crate::random::Random;
use crate::reader::{Sealing, framed, id_list, seal};
use crate::shrink::shrink;
use crate::side::{Library, Reply, Second, Side};
use crate::tally::Tally;
use crate::transcript::{question, result};

/// So many refused final commands come by each interface: two more than a count can say.
const TRIES: usize = 65_537;

/// After so many of them, each time, calls of other kinds come.
const APART: usize = 1_024;

/// So many calls are one test.
const BLOCK: usize = 1_000;

/// So many lists of random calls are made for cards with set counts.
const LISTS: usize = 1_500;

/// So many lines at the most may a fault's difference be left with: a load, three tries up to a count's end, and one more.
const FEW: usize = 5;

const REFUSED: &str = "final refused";

/// The counts after so many refused final commands on each interface.
fn held(refused: [usize; 2]) -> Tries {
    let [contact, contactless] = refused.map(|tries| tries.min(65_535) as u16);
    Tries { contact, contactless }
}

/// Two sides that get the same lines, and how many final commands were refused on each interface since the load.
struct Pair<S> {
    second: Second,
    other: S,
    refused: [usize; 2],
}

impl<S: Side> Pair<S> {
    fn new(other: S) -> Pair<S> {
        Pair { second: Second::new(Fault::None), other, refused: [0, 0] }
    }

    /// Lets so many final commands have been refused.
    fn set(&mut self, refused: [usize; 2]) {
        self.refused = refused;
        self.second.set_tries(held(refused));
        self.other.set_tries(held(refused));
    }

    /// Runs a line on both sides. An error says what the two gave if they differ, or if a count is not what was refused.
    fn run(&mut self, line: &Line, pattern: u64) -> Result<(), String> {
        let (wanted, got) = (see(&mut self.second, line, pattern), see(&mut self.other, line, pattern));
        match line {
            Line::Load(_) => self.refused = [0, 0],
            Line::Call { interface, .. } if self.second.why.starts_with(REFUSED) => self.refused[*interface] += 1,
            _ => {}
        }
        let counts = held(self.refused);
        if wanted == got && has_counts(&got, counts) {
            return Ok(());
        }
        let Tries { contact, contactless } = counts;
        let differing = wanted.differing(&got);
        let (wanted, got) = (result(&wanted), result(&got));
        Err(format!("{wanted}\n# the other: {got}\n# differs in: {differing}\n# tries by what was refused: {contact}:{contactless}"))
    }

    /// A line on both sides that has to be decided by a rule of this name.
    fn decided(&mut self, line: &Line, pattern: u64, rule: &str) -> Result<(), String> {
        self.run(line, pattern)?;
        if self.second.why.starts_with(rule) { Ok(()) } else { Err(format!("{}, where {rule} was meant", self.second.why)) }
    }
}

/// Whether the card, and what is read of it, has these counts.
fn has_counts(seen: &Seen, counts: Tries) -> bool {
    match &seen.reply {
        Reply::Load { number: 0, card, tries, .. } | Reply::Sets { card, tries, .. } | Reply::Call { card, tries, .. } => {
            card.0.tries == counts && *tries == counts
        }
        _ => true,
    }
}

// ---- One card, and refused final commands one by one

const KEY_SET: u16 = 5;
const MODE: u16 = 7;
const FA_KEY: [u8; 16] = *b"FAKey of the set";
const DIV_DATA: [u8; 16] = *b"DivData: a card.";

fn key_sets(fa_key: [u8; 16]) -> Vec<KeySet> {
    vec![KeySet { id: KEY_SET, handle: 1, fa_key: fa_key.to_vec() }]
}

/// L = 16 and B = 2, so that a command takes few steps.
fn small_card() -> Line {
    let sets = key_sets(FA_KEY);
    let (modes, shill_key) = (vec![Mode { id: MODE, start: 0, len: 4 }], b"shill key, AES's".to_vec());
    Line::Load(Given { key_length: 16, sets, modes, area: b"door".to_vec(), div_data: DIV_DATA, shill_key, shill_handle: 9 })
}

struct Counting<S> {
    pair: Pair<S>,
    random: Random,
    calls: usize,
    tally: Tally,
}

/// What a call is made of beside its interface, with the rule that has to decide it.
struct Made {
    command: Vec<u8>,
    fresh: Vec<u8>,
    out: usize,
    rule: &'static str,
}

impl Made {
    /// Lent what it needs.
    fn good(random: &mut Random, command: Vec<u8>, rule: &'static str) -> Made {
        let fresh = random.bytes(253).into_iter().map(|byte| byte.max(1)).collect();
        Made { command, fresh, out: 256, rule }
    }
}

impl<S: Side> Counting<S> {
    fn new(other: S, seed: u64) -> Counting<S> {
        Counting { pair: Pair::new(other), random: Random(seed), calls: 0, tally: Tally::default() }
    }

    fn call(&mut self, interface: usize, made: Made) -> Result<(), String> {
        let Made { command, fresh, out, rule } = made;
        self.line(&Line::Call { interface, command, fresh, out }, rule)
    }

    /// A whole number of blocks without a difference is so many tests passed.
    fn line(&mut self, line: &Line, rule: &str) -> Result<(), String> {
        let pattern = self.random.next();
        self.pair.decided(line, pattern, rule).map_err(|wrong| format!("call {}, {} => {wrong}", self.calls + 1, question(line)))?;
        self.calls += 1;
        if self.calls % BLOCK == 0 {
            self.tally.count(true);
        }
        Ok(())
    }

    fn good(&mut self, interface: usize, command: Vec<u8>, rule: &'static str) -> Result<(), String> {
        let made = Made::good(&mut self.random, command, rule);
        self.call(interface, made)
    }

    /// A final command of so much data, all random.
    fn refused(&mut self, interface: usize, lc: usize) -> Result<(), String> {
        let data = self.random.bytes(lc);
        self.good(interface, framed(0x86, &data), REFUSED)
    }

    /// A final command, declined in every way.
    fn declined(&mut self, interface: usize, command: &[u8]) -> Result<(), String> {
        let mut made = |rule| Made::good(&mut self.random, command.to_vec(), rule);
        let unknown = made("unknown interface alone");
        let mut short = made("fresh bytes not 253");
        short.fresh.pop();
        let mut zero = made("a zero pad byte");
        zero.fresh[252] = 0;
        let mut little = made("output below 256");
        little.out = 255;
        let mut ended = made("Le not 00");
        *ended.command.last_mut().unwrap() = 1;
        self.call(interface + 2, unknown)?;
        [short, zero, little, ended].into_iter().try_for_each(|made| self.call(interface, made))
    }

    /// Opens a session by the one interface and gives the final command that it is waiting for.
    fn opened(&mut self, interface: usize) -> Result<Vec<u8>, String> {
        let made = Made::good(&mut self.random, framed(0x87, &id_list(&[KEY_SET])), "initial accepted");
        let (rnd1, rnd2) = (made.fresh[..16].to_vec(), self.random.bytes(16));
        self.call(interface, made)?;
        let of = Sealing { key_length: 16, fa_key: FA_KEY.to_vec(), div_data: DIV_DATA, rnd1, rnd2, mode: MODE };
        let mut command = vec![0; 246];
        let (length, _) = seal(&of, &[], &mut command, Fault::None).unwrap_or_default();
        command.truncate(length);
        Ok(command)
    }

    /// Loads of key sets into an open session: another key, none, and the first key again.
    fn loads(&mut self) -> Result<(), String> {
        self.line(&Line::Sets(key_sets(*b"another FAKey of")), "its set with another key")?;
        self.line(&Line::Sets(Vec::new()), "no key set")?;
        self.line(&Line::Sets(key_sets(FA_KEY)), "its set at its slot")
    }

    /// Calls of every other kind by this interface, among them longer final commands that are refused.
    fn others(&mut self, interface: usize) -> Result<(), String> {
        for first in [0, 1] {
            let command = self.opened(first)?;
            self.declined(interface, &command)?;
            self.loads()?;
            self.good(interface, command, "final accepted")?;
        }
        let mut command = self.opened(interface)?;
        command[5] ^= 1;
        self.good(interface, command, REFUSED)?;
        self.good(interface, framed(0x87, &id_list(&[KEY_SET + 1])), "initial refused")?;
        self.good(interface, framed(0x87, &[0x31]), "initial refused")?;
        [16, 48, 240, 255].into_iter().try_for_each(|lc| self.refused(interface, lc))
    }

    /// The commands by one interface, most of them with one byte of data.
    fn interface(&mut self, interface: usize) -> Result<(), String> {
        for at in 0..TRIES {
            if at % APART == 0 || at + 2 > TRIES {
                [0, 1].into_iter().try_for_each(|of| self.others(of))?;
            }
            self.refused(interface, 1)?;
        }
        Ok(())
    }

    /// Contactless first, then contact; both counts end where they stay.
    fn run(&mut self) -> Result<(), String> {
        self.pair.run(&small_card(), 1)?;
        [1, 0].into_iter().try_for_each(|interface| self.interface(interface))?;
        let full = held(self.pair.refused) == held([65_535; 2]) && self.pair.refused.iter().all(|refused| *refused > TRIES);
        if full { Ok(()) } else { Err("a count has not come to its end".to_string()) }
    }
}

fn counted<S: Side>(other: S, seed: u64, name: &str) -> Tally {
    let mut counting = Counting::new(other, seed);
    let ended = counting.run();
    if let Err(wrong) = &ended {
        println!("{wrong}");
    }
    counting.tally.count(ended.is_ok());
    let [contact, contactless] = counting.pair.refused;
    println!("  {} calls of one card, {contact} final commands refused by contact and {contactless} by contactless", counting.calls);
    counting.tally.reported(name)
}

// ---- Random calls on cards with set counts

/// An interface, its count before a call, and whether the call was a refused final command.
type Met = (usize, u16, bool);

#[derive(Default)]
struct High {
    tally: Tally,
    calls: usize,
    met: BTreeSet<Met>,
    /// The first difference: shrunk, as a transcript with comments.
    found: Option<String>,
}

/// A count, most of them high.
fn count(random: &mut Random) -> usize {
    random.edge(&[0, 254, 255, 256, 32_767, 65_532, 65_533, 65_533, 65_534, 65_534, 65_535, 65_535], 0, 65_535)
}

impl High {
    /// Runs lines on a new pair, the counts set behind each load. Gives the place of the first line that differs, and what is wrong.
    fn first<S: Side>(&mut self, new: &dyn Fn() -> S, lines: &[Line], start: [usize; 2], pattern: u64) -> Option<(usize, String)> {
        let mut pair = Pair::new(new());
        for (place, line) in lines.iter().enumerate() {
            let before = pair.refused;
            if let Err(wrong) = pair.run(line, pattern) {
                return Some((place, wrong));
            }
            self.calls += 1;
            match line {
                Line::Load(_) => pair.set(start),
                Line::Call { interface: interface @ (0 | 1), .. } => {
                    let count = before[*interface].min(65_535) as u16;
                    self.met.insert((*interface, count, pair.refused != before));
                }
                _ => {}
            }
        }
        None
    }

    /// Lists of commands for cards whose counts start anywhere. Ends at the first difference.
    fn run<S: Side>(new: &dyn Fn() -> S, seed: u64) -> High {
        let (mut random, mut high) = (Random(seed), High::default());
        for _ in 0..LISTS {
            let (lines, start) = (generate::card_list(&mut random), [count(&mut random), count(&mut random)]);
            let pattern = random.next();
            let differs = |lines: &[Line]| High::default().first(new, lines, start, pattern);
            let difference = high.first(new, &lines, start, pattern);
            high.tally.count(difference.is_none());
            if difference.is_some() {
                let lines = shrink(lines, &|lines| differs(lines).is_some());
                high.found = differs(&lines).map(|(place, wrong)| shown(&lines[..=place], start, &wrong));
                return high;
            }
        }
        high
    }

    /// What has to come up near the end on each interface.
    fn missing(&self) -> Vec<Met> {
        let counts = [65_533, 65_534, 65_535].into_iter().flat_map(|count| [(count, true), (count, false)]);
        let wanted = counts.flat_map(|(count, refused)| [0, 1].map(|interface| (interface, count, refused)));
        wanted.filter(|met| !self.met.contains(met)).collect()
    }
}

/// The lines, with the last one's results on both sides.
fn shown(lines: &[Line], [contact, contactless]: [usize; 2], wrong: &str) -> String {
    let mut text = format!("# behind the load the counts are set to {contact}:{contactless}\n");
    for line in lines {
        let _ = writeln!(text, "{}", question(line));
    }
    format!("{} => {wrong}\n", text.trim_end())
}

fn high(new: &dyn Fn() -> Library, seed: u64, name: &str) -> Tally {
    let mut high = High::run(new, seed);
    high.found.iter().for_each(|found| print!("{found}"));
    // A run that ended at a difference has not come to all of them.
    for (interface, count, refused) in high.missing().iter().filter(|_| high.found.is_none()) {
        println!("never came up: interface {interface} at {count}, {}", if *refused { "refused" } else { "kept" });
        high.tally.count(false);
    }
    println!("  {} calls of {} cards whose counts were set", high.calls, high.tally.ran());
    high.tally.reported(name)
}

pub fn library(seed: u64) -> Tally {
    let mut all = counted(Library::default(), seed, "library against second implementation, tries counted to their end");
    all.add(high(&Library::default, seed, "library against second implementation, high counts"));
    all
}

/// Each fault of a count at its end has to be found in both ways.
pub fn self_test(seed: u64) -> Tally {
    let mut traps = Tally::default();
    for (fault, trap) in LIMIT_TRAPS {
        let mut counting = Counting::new(Second::new(fault), seed);
        let ended = counting.run();
        traps.count(ended.is_err());
        let high = High::run(&|| Second::new(fault), seed);
        let lines = high.found.as_deref().map_or(0, |found| found.lines().filter(|line| !line.starts_with('#')).count());
        traps.count((1..=FEW).contains(&lines));
        println!("  {trap}: found after {} calls of one card; after {} with set counts, shrunk to {lines} lines", counting.calls, high.calls);
    }
    traps.reported("self-test, faults at a count's end found")
}
