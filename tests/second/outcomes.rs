//! How often each outcome that documents 01 and 02 name came up, so that the generator cannot become weak unseen.

use std::collections::{BTreeMap, BTreeSet};

use crate::door::{Conversion, bad_place};
use crate::fault::Fault;
use crate::generate::{MOST_SETS, UNKNOWN_INTERFACES};
use crate::keys::LENGTHS;
use crate::line::Line;
use crate::loads::Loads;
use crate::plaid::Tries;
use crate::side::{Image, Reply};

/// The outcomes that have to come up: for each kind of call and number or status, the rules that decide.
const REQUIRED: [(&str, &[&str]); 35] = [
    ("load 21", UNKNOWN_LENGTH),
    ("open 21", UNKNOWN_LENGTH),
    ("seal 21", UNKNOWN_LENGTH),
    ("accept 21", UNKNOWN_LENGTH),
    ("list 0", &["listed"]),
    ("list 11", &["no KeySetID", "over 16 KeySetIDs"]),
    ("list 12", &["repeated KeySetID"]),
    ("list 13", &["output too short"]),
    ("session", &["without promise", "two key lengths"]),
    ("wiegand_record 0", CONVERTED),
    ("wiegand_record 23", MISFIT),
    ("wiegand_record 25", &["neither 0 nor 1"]),
    ("wiegand_record 24", PARITY),
    ("wiegand_text 0", CONVERTED),
    ("wiegand_text 23", MISFIT),
    ("wiegand_text 24", PARITY),
    ("wiegand_text 24", &["a bit above alone", "a bit above and parity"]),
    ("uuid_record 0", &["converted, no letter", "converted, small letters", "converted, capitals", "converted, letters of both cases"]),
    ("uuid_record 23", MISFIT),
    ("uuid_record 25", &["no digit first", "no hyphen first"]),
    ("uuid_text 0", CONVERTED),
    ("uuid_text 23", MISFIT),
    ("wiegand_record and back", BACK),
    ("wiegand_text and back", BACK),
    ("uuid_record and back", BACK),
    ("uuid_text and back", BACK),
    ("contact, no tries", KEPT),
    ("contact, tries on one", ONE_TRIED),
    ("contact, tries on both", BOTH_TRIED),
    ("contactless, no tries", KEPT),
    ("contactless, tries on one", ONE_TRIED),
    ("contactless, tries on both", BOTH_TRIED),
    ("neither interface, no tries", DECLINED),
    ("neither interface, tries on one", DECLINED),
    ("neither interface, tries on both", DECLINED),
];

/// Those that have to come up for each L.
const REQUIRED_FOR_EACH: [(&str, &[&str]); 62] = [
    ("load 0", LOADED),
    ("load 1", COUNT),
    ("load 22", FA_KEY),
    ("load 22", &["shill key not of L bytes", "shill key over 32 bytes"]),
    ("load 2", REPEATED),
    ("load 3", HANDLE),
    ("load 4", &["no mode", "over 16 modes"]),
    ("load 5", &["repeated OpModeID"]),
    ("load 6", &["area over 1,024", "a record empty", "a record over 64", "a record outside the area"]),
    ("sets 0, no session", &["no session's set"]),
    ("sets 0, session open", SET_NOW),
    ("sets 0", &["a shorter table", "a table as long", "a longer table"]),
    ("sets 1, no session", COUNT),
    ("sets 1, session open", COUNT),
    ("sets 22, no session", FA_KEY),
    ("sets 22, session open", FA_KEY),
    ("sets 2, no session", REPEATED),
    ("sets 2, session open", REPEATED),
    ("sets 3, no session", HANDLE),
    ("sets 3, session open", HANDLE),
    ("sets 1", &["alone", "and 22", "and 2", "and 3"]),
    ("sets 22", &["alone", "and 2", "and 3"]),
    ("sets 2", &["alone", "and 3"]),
    ("initial accepted after loads", &["a new set", "an old set with another key", "an old set", "a set that is gone"]),
    ("initial refused after loads", &["a set that is gone"]),
    ("final accepted after loads", AFTER_LOADS),
    ("final refused after loads", AFTER_LOADS),
    ("call 26, no session", UNKNOWN_INTERFACE),
    ("call 26, session open", UNKNOWN_INTERFACE),
    ("call 8", &["fresh bytes not 253"]),
    ("call 9", &["a zero pad byte"]),
    ("call 10", &["output below 256"]),
    ("call 6700", &["under four bytes", "no Lc", "Lc 0", "total not Lc + 6", "Le not 00"]),
    ("call 6e00", &["CLA"]),
    ("call 6d00", &["INS"]),
    ("call 6a86", &["P1 P2"]),
    ("call 9000, 256 bytes", LISTED),
    ("call 9000, 256 bytes", &["initial refused: malformed", "initial refused: no match"]),
    ("call 9000, 32 bytes", FINAL),
    ("call 9000, 48 bytes", FINAL),
    ("call 9000, 64 bytes", FINAL),
    ("call 9000, 80 bytes", FINAL),
    ("call 9000, 96 bytes", FINAL),
    ("call 9000, 48 bytes", FILLED),
    ("call 9000, 64 bytes", FILLED),
    ("call 9000, 80 bytes", FILLED),
    ("call 9000, 96 bytes", FILLED),
    ("open 0", &["opened"]),
    ("open 14", &["no KeySetID", "over 16 KeySetIDs", "a total that is not 256k"]),
    ("open 15", &["no block opens"]),
    ("seal 0", &["sealed"]),
    ("seal 22", &["FAKey not of L bytes", "RND1 not of L bytes", "RND2 not of L bytes"]),
    ("seal 22", &["FAKey over 32 bytes", "RND1 over 32 bytes", "RND2 over 32 bytes"]),
    ("seal 16", &["payload too long"]),
    ("seal 17", &["output below Lc + 6"]),
    ("accept 0", ACCEPTED),
    ("accept 22", &["KeysHash not of L bytes", "KeysHash over 32 bytes"]),
    ("accept 18", &["length not 32, 48, 64, 80 or 96"]),
    ("accept 19", &["work buffer shorter than the response"]),
    ("accept 20", &["padding", "body empty alone", "body over 64 alone", "DivData alone"]),
    ("accept 20", &["record length 0 alone", "body shorter than the record alone", "several"]),
    ("session", &["ended as promised", "ended as promised, key sets loaded in between"]),
];

const UNKNOWN_LENGTH: &[&str] = &["L none of the three"];

/// Of key sets, in a load of a card or onto one.
const COUNT: &[&str] = &["no key set", "over 8 key sets"];
const FA_KEY: &[&str] = &["a FAKey not of L bytes", "a FAKey over 32 bytes"];
const REPEATED: &[&str] = &["repeated KeySetID"];
const HANDLE: &[&str] = &["a set with the shill handle"];

/// Of key sets loaded in a session, and of a final command behind such loads: the session's set afterwards.
const SET_NOW: &[&str] = &["its set at its slot", "its set at another slot", "its set with another key", "its set gone"];
const AFTER_LOADS: &[&str] = &["loads refused", "its set held", "its set with another key", "its set gone"];

/// Of a call by neither interface: alone, and together with each other decline.
const UNKNOWN_INTERFACE: &[&str] = &[
    "unknown interface alone",
    "unknown interface, and 8",
    "unknown interface, and 9",
    "unknown interface, and 10",
    "unknown interface, and a fault of the frame",
];

/// Of a call by an interface, by the counts afterwards: what has to move that interface's count alone, and what has to keep both.
const DECLINED: &[&str] = &["final declined", "other declined"];
const KEPT: &[&str] = &["initial accepted", "initial refused", "final accepted", "final declined", "other declined"];
const ONE_TRIED: &[&str] =
    &["initial accepted", "initial refused", "final accepted", "final declined", "other declined", "final refused, its first"];
const BOTH_TRIED: &[&str] = &[
    "initial accepted",
    "initial refused",
    "final accepted",
    "final declined",
    "other declined",
    "final refused, its first",
    "final refused, a further one",
];

/// Of a door number.
const CONVERTED: &[&str] = &["converted"];
const MISFIT: &[&str] = &["input too short", "input too long", "output too short"];
const PARITY: &[&str] = &["even parity alone", "odd parity alone", "both parities"];
const BACK: &[&str] = &["ended as promised"];

/// Of a load: where the largest B stands.
const LOADED: &[&str] = &[
    "loaded, every record's B the same",
    "loaded, largest B first",
    "loaded, largest B first and last",
    "loaded, largest B last",
    "loaded, largest B between",
];

/// Of an accepted initial command: the lengths in its list.
const LISTED: &[&str] = &[
    "initial accepted, short lengths",
    "initial accepted, a long length",
    "initial accepted, indefinite form",
    "initial accepted, indefinite form with a long length",
];

/// Of a final command, for each B. `alone`: all other conditions held.
const FINAL: &[&str] = &[
    "final accepted, no filler",
    "final refused: no session alone",
    "final refused: Lc alone",
    "final refused: padding alone",
    "final refused: text too short alone",
    "final refused: KeysHash alone",
    "final refused: mode alone",
    "final refused: several",
];

/// For each B but 2, with which no record is too short.
const FILLED: &[&str] = &["final accepted, with filler"];

const ALONE: &str = "accepted, record alone";
const ACCEPTED: &[&str] = &[ALONE, "accepted, zero bytes behind the record", "accepted, other bytes behind the record"];

#[derive(Default)]
pub struct Outcomes {
    counts: BTreeMap<(String, &'static str), usize>,
    /// The lengths of the bodies that Accept handed back whole.
    bodies: BTreeSet<usize>,
    /// The places, counted from 0, of the first bad character of a text, and of the highest bit set above a record's 26.
    places: BTreeSet<(&'static str, usize)>,
    /// The interfaces that were refused.
    interfaces: BTreeSet<usize>,
    loads: Loads,
    /// How many key sets were loaded onto a card, or meant to be.
    set_counts: BTreeSet<usize>,
}

impl Outcomes {
    pub fn count(&mut self, kind: String, why: &'static str) {
        *self.counts.entry((kind, why)).or_default() += 1;
    }

    pub fn count_reply(&mut self, line: &Line, reply: &Reply, why: &'static str) {
        let length = line.key_length().or(reply.card().map(|card| card.0.key_length));
        self.count(for_length(&kind(reply), length), why);
        for (kind, what) in self.loads.outcomes(line, reply, why) {
            self.count(for_length(&kind, length), what);
        }
        if let Line::Sets(sets) = line {
            self.set_counts.insert(sets.len());
        }
        if let (Line::Call { interface, command, .. }, Reply::Call { tries: Tries { contact, contactless }, .. }) = (line, reply) {
            let tries = [*contact, *contactless];
            let declined = if command.get(1) == Some(&0x86) { "final declined" } else { "other declined" };
            self.count(by_interface(*interface, tries), tried(why, tries.get(*interface) == Some(&1)).unwrap_or(declined));
        }
        if let (Line::Call { interface, .. }, Reply::Call { number: 26, .. }) = (line, reply) {
            self.interfaces.insert(*interface);
        }
        if let (Reply::Accept { length, .. }, ALONE) = (reply, why) {
            self.bodies.insert(*length);
        }
        if let (Line::Door { of, given, .. }, Reply::Door { number: 24 | 25, .. }) = (line, reply) {
            self.places.extend(refused_place(*of, given).map(|place| (of.name(), place)));
        }
    }

    /// A line for each kind.
    pub fn print(&self) {
        let mut kinds: Vec<&String> = self.counts.keys().map(|(kind, _)| kind).collect();
        kinds.dedup();
        for kind in kinds {
            let of_kind = self.counts.iter().filter(|((k, _), _)| k == kind);
            println!("  {kind}: {}", of_kind.map(|((_, why), count)| format!("{count} {why}")).collect::<Vec<_>>().join("; "));
        }
    }

    /// The required outcomes that never came up.
    pub fn missing(&self) -> Vec<String> {
        let any = REQUIRED.iter().map(|(kind, rules)| (kind.to_string(), rules));
        let of_length = |l| REQUIRED_FOR_EACH.iter().map(move |(kind, rules)| (for_length(kind, Some(l)), rules));
        let required = any.chain(LENGTHS.into_iter().flat_map(of_length));
        let required = required.flat_map(|(kind, rules)| rules.iter().map(move |why| (kind.clone(), *why)));
        let missing = required.filter(|outcome| !self.counts.contains_key(outcome)).map(|(kind, why)| format!("{kind}: {why}"));
        let lengths = (1..=64).filter(|length| !self.bodies.contains(length)).map(|length| format!("accept 0: a body of {length}"));
        let places = PLACES.iter().flat_map(|(of, count)| (0..*count).map(|place| (of.name(), place)));
        let places = places.filter(|at| !self.places.contains(at)).map(|(name, place)| format!("{name}: refused at place {place}"));
        let unknown = UNKNOWN_INTERFACES.iter().filter(|interface| !self.interfaces.contains(interface));
        let unknown = unknown.map(|interface| format!("call 26: interface {interface}"));
        let counts = (0..=MOST_SETS).filter(|count| !self.set_counts.contains(count)).map(|count| format!("sets: a list of {count}"));
        missing.chain(lengths).chain(places).chain(unknown).chain(counts).collect()
    }
}

/// A call's interface, and on how many interfaces there have been tries.
fn by_interface(interface: usize, tries: [u16; 2]) -> String {
    let name = ["contact", "contactless"].get(interface).unwrap_or(&"neither interface");
    let on = ["no tries", "tries on one", "tries on both"][tries.iter().filter(|count| **count > 0).count()];
    format!("{name}, {on}")
}

/// What a command that was not declined does to the counts.
fn tried(why: &str, first: bool) -> Option<&'static str> {
    let kinds = ["initial accepted", "initial refused", "final accepted"];
    let refused = if first { "final refused, its first" } else { "final refused, a further one" };
    if why.starts_with("final refused") { Some(refused) } else { kinds.into_iter().find(|kind| why.starts_with(kind)) }
}

/// A bad character has to come up at each place of a text, and each bit above a record's 26.
const PLACES: [(Conversion, usize); 3] = [(Conversion::WiegandRecord, 26), (Conversion::UuidRecord, 36), (Conversion::WiegandText, 6)];

fn refused_place(of: Conversion, given: &[u8]) -> Option<usize> {
    if of.takes_text() { bad_place(of, given, Fault::None) } else { Some(given[0].leading_zeros() as usize) }
}

/// The kind, with L where it is one of the three.
pub fn for_length(kind: &str, key_length: Option<usize>) -> String {
    let known = key_length.filter(|l| LENGTHS.contains(l));
    known.map_or(kind.to_string(), |l| format!("{kind}, L {l}"))
}

fn session(card: &Image) -> &'static str {
    if card.0.session.opened { "session open" } else { "no session" }
}

/// The kind of call with its number or status, and the answer's length where there is one.
fn kind(reply: &Reply) -> String {
    match reply {
        Reply::Load { number, .. } => format!("load {number}"),
        Reply::Sets { number, card, .. } => format!("sets {number}, {}", session(card)),
        Reply::Call { number: 0, status, length: 0, .. } => format!("call {status:04x}"),
        Reply::Call { number: 0, status, length, .. } => format!("call {status:04x}, {length} bytes"),
        Reply::Call { number: 26, card, .. } => format!("call 26, {}", session(card)),
        Reply::Call { number, .. } => format!("call {number}"),
        Reply::List { number, .. } => format!("list {number}"),
        Reply::Open { number, .. } => format!("open {number}"),
        Reply::Seal { number, .. } => format!("seal {number}"),
        Reply::Accept { number, .. } => format!("accept {number}"),
        Reply::Door { of, number, .. } => format!("{} {number}", of.name()),
        Reply::NoCard => "no card".to_string(),
    }
}
