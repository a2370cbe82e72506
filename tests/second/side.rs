//! The two sides that are compared: the second implementation and the proved library, each with the card of its last load.

use std::ops::Range;

use crate::aes::Block;
use crate::card::{self, Card, Decline, Given, KeySet, Mode, Session};
use crate::door::{self, Conversion};
use crate::fault::Fault;
use crate::line::Line;
use crate::plaid::{self, Tries, Value};
use crate::reader::{self, Accepting, Sealing};
use crate::work::Work;

/// A card with every field of the library's struct.
#[derive(Clone)]
pub struct Image(pub plaid::Card);

/// What a call hands back, every field of it. `tries` is what the personaliser reads of the card afterwards.
#[derive(Clone, PartialEq)]
pub enum Reply {
    Load { number: u8, card: Image, lists_kept: bool, tries: Tries },
    Sets { number: u8, card: Image, list_kept: bool, tries: Tries },
    Call { number: u8, status: u16, work: Work, length: usize, handle: u8, card: Image, tries: Tries },
    List { number: u8, length: usize },
    Open { number: u8, place: usize, id: u16, div_data: Block, rnd1: Value },
    Seal { number: u8, length: usize, keys_hash: Value },
    Accept { number: u8, length: usize, part: Range<usize> },
    Door { of: Conversion, number: u8, length: usize },
    /// A command, or key sets, without a loaded card before it.
    NoCard,
}

impl Reply {
    pub fn card(&self) -> Option<&Image> {
        match self {
            Reply::Load { card, .. } | Reply::Sets { card, .. } | Reply::Call { card, .. } => Some(card),
            _ => None,
        }
    }
}

pub trait Side {
    /// Runs one line with this buffer lent for writing.
    fn run(&mut self, line: &Line, lent: &mut [u8]) -> Reply;
    /// Makes these the counts of the card, as many refused final commands would.
    fn set_tries(&mut self, tries: Tries);
}

impl PartialEq for Image {
    fn eq(&self, other: &Image) -> bool {
        let (a, b) = (&self.0, &other.0);
        let set = |s: &plaid::KeySetSlot| (s.held, s.id, s.handle, s.fa_key);
        let mode = |m: &plaid::ModeSlot| (m.held, m.id, m.start, m.len);
        let rest = |c: &plaid::Card| (c.div_data, c.shill_key, c.shill_handle, c.key_length, c.reply_size);
        let session = |s: &plaid::Session| (s.opened, s.id, s.rnd1, s.fa_key);
        a.sets.each_ref().map(set) == b.sets.each_ref().map(set)
            && a.modes.each_ref().map(mode) == b.modes.each_ref().map(mode)
            && a.area == b.area
            && rest(a) == rest(b)
            && session(&a.session) == session(&b.session)
            && a.tries == b.tries
    }
}

const NO_SESSION: plaid::Session = plaid::Session { opened: false, id: 0, rnd1: [0; 32], fa_key: [0; 32] };

/// No card: what a refused load leaves.
const BLANK: plaid::Card = plaid::Card {
    sets: [plaid::KeySetSlot { held: false, id: 0, handle: 0, fa_key: [0; 32] }; 8],
    modes: [plaid::ModeSlot { held: false, id: 0, start: 0, len: 0 }; 16],
    area: [0; 1024],
    div_data: [0; 16],
    shill_key: [0; 32],
    shill_handle: 0,
    key_length: 0,
    reply_size: 0,
    session: NO_SESSION,
    tries: Tries { contact: 0, contactless: 0 },
};

fn tries([contact, contactless]: [u16; 2]) -> Tries {
    Tries { contact, contactless }
}

/// Zeros stand behind a key or RND1 that is shorter than its place in the card.
fn image(card: &Card) -> Image {
    let in_card = |value: &[u8]| Value::of(value).bytes;
    let Given { key_length, sets, modes, area, div_data, shill_key, shill_handle } = &card.given;
    let mut to = BLANK;
    for (slot, set) in to.sets.iter_mut().zip(sets) {
        *slot = plaid::KeySetSlot { held: true, id: set.id, handle: set.handle, fa_key: in_card(&set.fa_key) };
    }
    for (slot, mode) in to.modes.iter_mut().zip(modes) {
        *slot = plaid::ModeSlot { held: true, id: mode.id, start: mode.start, len: mode.len };
    }
    to.area[..area.len()].copy_from_slice(area);
    (to.div_data, to.shill_key, to.shill_handle) = (*div_data, in_card(shill_key), *shill_handle);
    (to.key_length, to.reply_size) = (*key_length, card.reply_size);
    let open = |s: &Session| plaid::Session { opened: true, id: s.id, rnd1: in_card(&s.rnd1), fa_key: in_card(&s.fa_key) };
    to.session = card.session.as_ref().map_or(NO_SESSION, open);
    to.tries = tries(card.tries);
    Image(to)
}

/// Where among the modes the largest B stands, for the statistics.
fn largest(card: &Card) -> &'static str {
    let has = |mode: &Mode| card::reply_size(mode.len) == card.reply_size;
    let modes = &card.given.modes;
    match (modes.iter().all(has), modes.first().is_some_and(has), modes.last().is_some_and(has)) {
        (true, ..) => "loaded, every record's B the same",
        (_, true, true) => "loaded, largest B first and last",
        (_, true, _) => "loaded, largest B first",
        (_, _, true) => "loaded, largest B last",
        _ => "loaded, largest B between",
    }
}

/// What a load of key sets did to the set of an open session, which the table before had at this slot; for the statistics.
fn set_now(card: &Card, slot: Option<usize>) -> &'static str {
    let Some(Session { id, fa_key, .. }) = &card.session else { return "no session's set" };
    let now = card.given.sets.iter().position(|set| set.id == *id);
    match now.map(|at| card.given.sets[at].fa_key == *fa_key) {
        None => "its set gone",
        Some(false) => "its set with another key",
        Some(true) if now == slot => "its set at its slot",
        Some(true) => "its set at another slot",
    }
}

pub struct Second {
    pub card: Option<Card>,
    pub fault: Fault,
    /// Which rule decided the last call.
    pub why: &'static str,
}

impl Second {
    pub fn new(fault: Fault) -> Second {
        Second { card: None, fault, why: "" }
    }

    /// The result, or after a decline its number alone.
    fn decided<T>(&mut self, result: Result<T, Decline>, success: &'static str) -> (u8, Option<T>) {
        match result {
            Ok(value) => {
                self.why = success;
                (0, Some(value))
            }
            Err(decline) => {
                self.why = decline.why;
                (decline.number, None)
            }
        }
    }

    fn load(&mut self, given: &Given) -> Reply {
        let (number, card) = self.decided(card::load(given, self.fault), "");
        self.card = card;
        self.why = self.card.as_ref().map_or(self.why, largest);
        let read = self.card.as_ref().map_or([0, 0], card::read_tries);
        Reply::Load { number, card: self.card.as_ref().map_or(Image(BLANK), image), lists_kept: true, tries: tries(read) }
    }

    fn load_sets(&mut self, sets: &[KeySet]) -> Reply {
        let Some(card) = &mut self.card else { return Reply::NoCard };
        let slot = card.session.as_ref().and_then(|s| card.given.sets.iter().position(|set| set.id == s.id));
        let loaded = card::load_sets(card, sets, self.fault);
        let (now, card, read) = (set_now(card, slot), image(card), tries(card::read_tries(card)));
        let (number, _) = self.decided(loaded, now);
        Reply::Sets { number, card, list_kept: true, tries: read }
    }

    fn command(&mut self, interface: usize, command: &[u8], fresh: &[u8], lent: &mut [u8]) -> Reply {
        let Some(card) = &mut self.card else { return Reply::NoCard };
        let answer = card::command(card, interface, command, fresh, lent, self.fault);
        let card::Answer { number, status, work, length, handle, why } = answer;
        self.why = why;
        Reply::Call { number, status, work, length, handle, card: image(card), tries: tries(card::read_tries(card)) }
    }

    fn open(&mut self, key_length: usize, ids: &[u16], blocks: &[u8]) -> Reply {
        let (number, opened) = self.decided(reader::open(key_length, ids, blocks), "opened");
        let reader::Opened { place, id, div_data, rnd1 } = opened.unwrap_or_default();
        Reply::Open { number, place, id, div_data, rnd1: Value::of(&rnd1) }
    }

    fn seal(&mut self, of: &Sealing, payload: &[u8], lent: &mut [u8]) -> Reply {
        let (number, sealed) = self.decided(reader::seal(of, payload, lent, self.fault), "sealed");
        let (length, keys_hash) = sealed.unwrap_or_default();
        Reply::Seal { number, length, keys_hash: Value::of(&keys_hash) }
    }

    fn accept(&mut self, of: &Accepting, response: &[u8], lent: &mut [u8]) -> Reply {
        let (number, accepted) = self.decided(reader::accept(of, response, lent, self.fault), "");
        let (length, why) = accepted.unwrap_or((0, self.why));
        self.why = why;
        Reply::Accept { number, length, part: 0..length }
    }

    fn door(&mut self, of: Conversion, given: &[u8], lent: &mut [u8]) -> Reply {
        let (number, converted) = self.decided(door::convert(of, given, lent, self.fault), "");
        let (length, why) = converted.unwrap_or((0, self.why));
        self.why = why;
        Reply::Door { of, number, length }
    }
}

impl Side for Second {
    fn run(&mut self, line: &Line, lent: &mut [u8]) -> Reply {
        match line {
            Line::Load(given) => self.load(given),
            Line::Sets(sets) => self.load_sets(sets),
            Line::Call { interface, command, fresh, .. } => self.command(*interface, command, fresh, lent),
            Line::List { ids, .. } => {
                let (number, length) = self.decided(reader::list(ids, lent), "listed");
                Reply::List { number, length: length.unwrap_or(0) }
            }
            Line::Open { key_length, ids, blocks } => self.open(*key_length, ids, blocks),
            Line::Seal { of, payload, .. } => self.seal(of, payload, lent),
            Line::Accept { of, response, .. } => self.accept(of, response, lent),
            Line::Door { of, given, .. } => self.door(*of, given, lent),
        }
    }

    fn set_tries(&mut self, tries: Tries) {
        if let Some(card) = &mut self.card {
            card.tries = [tries.contact, tries.contactless];
        }
    }
}

/// A value as the library gets it. What stands behind its length is no part of it, so that is not left zero.
fn lent_value(value: &[u8]) -> Value {
    let mut lent = Value::of(value);
    lent.bytes.iter_mut().skip(value.len()).for_each(|byte| *byte = 0xa5);
    lent
}

fn lent_sets(sets: &[KeySet]) -> Vec<plaid::KeySet> {
    sets.iter().map(|s| plaid::KeySet { id: s.id, handle: s.handle, fa_key: lent_value(&s.fa_key) }).collect()
}

#[derive(Default)]
pub struct Library {
    card: Option<plaid::Card>,
}

impl Library {
    fn load(&mut self, given: &Given) -> Reply {
        let Given { key_length, sets, modes, area, div_data, shill_key, shill_handle } = given;
        let mode = |m: &Mode| plaid::Mode { id: m.id, start: m.start, len: m.len };
        let sets = lent_sets(sets);
        let modes: Vec<_> = modes.iter().map(mode).collect();
        let before = (sets.clone(), modes.clone());
        let given = plaid::given(*key_length, *div_data, lent_value(shill_key), *shill_handle);
        let plaid::Loaded { number, card } = plaid::run_load(&sets, &modes, area, given);
        self.card = if number == 0 { Some(card) } else { None };
        let lists_kept = *std::hint::black_box(&(sets, modes)) == before;
        Reply::Load { number, card: Image(card), lists_kept, tries: plaid::run_read_tries(card) }
    }

    fn load_sets(&mut self, sets: &[KeySet]) -> Reply {
        let Some(held) = self.card else { return Reply::NoCard };
        let sets = lent_sets(sets);
        let before = sets.clone();
        let plaid::Loaded { number, card } = plaid::run_load_sets(&sets, held);
        self.card = Some(card);
        let list_kept = *std::hint::black_box(&sets) == before;
        Reply::Sets { number, card: Image(card), list_kept, tries: plaid::run_read_tries(card) }
    }

    fn command(&mut self, interface: usize, command: &[u8], fresh: &[u8], lent: &mut [u8]) -> Reply {
        let Some(held) = self.card else { return Reply::NoCard };
        let plaid::Outcome { answer, sum, card } = plaid::run_command(held, interface, command, fresh, lent);
        self.card = Some(card);
        let plaid::Answer { comparisons, decipherments, encipherments, expansions, hash_blocks, .. } = answer;
        let work = Work { comparisons, decipherments, encipherments, expansions, hash_blocks, sum };
        let plaid::Answer { number, status, length, handle, .. } = answer;
        Reply::Call { number, status, work, length, handle, card: Image(card), tries: plaid::run_read_tries(card) }
    }

    fn seal(of: &Sealing, payload: &[u8], lent: &mut [u8]) -> Reply {
        let Sealing { key_length, div_data, mode, .. } = *of;
        let [fa_key, rnd1, rnd2] = [&of.fa_key, &of.rnd1, &of.rnd2].map(|value| lent_value(value));
        let sealing = plaid::Sealing { key_length, fa_key, div_data, rnd1, rnd2, mode };
        let plaid::Sealed { number, length, keys_hash } = plaid::run_seal(sealing, payload, lent);
        Reply::Seal { number, length, keys_hash }
    }

    fn accept(of: &Accepting, response: &[u8], lent: &mut [u8]) -> Reply {
        let Accepting { key_length, div_data, record_length, .. } = *of;
        let accepting = plaid::Accepting { key_length, keys_hash: lent_value(&of.keys_hash), div_data, record_length };
        let accepted = plaid::run_accept(accepting, response, lent);
        let plaid::Accepted { number, length } = accepted;
        Reply::Accept { number, length, part: plaid::run_record(lent, accepted) }
    }

    fn door(of: Conversion, given: &[u8], lent: &mut [u8]) -> Reply {
        let run = match of {
            Conversion::WiegandRecord => plaid::run_wiegand_record,
            Conversion::WiegandText => plaid::run_wiegand_text,
            Conversion::UuidRecord => plaid::run_uuid_record,
            Conversion::UuidText => plaid::run_uuid_text,
        };
        let plaid::Converted { number, length } = run(given, lent);
        Reply::Door { of, number, length }
    }
}

impl Side for Library {
    fn run(&mut self, line: &Line, lent: &mut [u8]) -> Reply {
        match line {
            Line::Load(given) => self.load(given),
            Line::Sets(sets) => self.load_sets(sets),
            Line::Call { interface, command, fresh, .. } => self.command(*interface, command, fresh, lent),
            Line::List { ids, .. } => {
                let plaid::Written { number, length } = plaid::run_list(ids, lent);
                Reply::List { number, length }
            }
            Line::Open { key_length, ids, blocks } => {
                let plaid::Opened { number, place, id, div_data, rnd1 } = plaid::run_open(*key_length, ids, blocks);
                Reply::Open { number, place, id, div_data, rnd1 }
            }
            Line::Seal { of, payload, .. } => Library::seal(of, payload, lent),
            Line::Accept { of, response, .. } => Library::accept(of, response, lent),
            Line::Door { of, given, .. } => Library::door(*of, given, lent),
        }
    }

    fn set_tries(&mut self, tries: Tries) {
        if let Some(card) = &mut self.card {
            card.tries = tries;
        }
    }
}
