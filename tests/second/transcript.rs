//! Prints and parses lines in the form of the transcripts: `word=value`, and the result behind `=>`.

use std::fmt::Display;

use crate::aes::Block;
use crate::card::{Given, KeySet, Mode};
use crate::compare::Seen;
use crate::door::CONVERSIONS;
use crate::line::Line;
use crate::plaid;
use crate::reader::{Accepting, Sealing};
use crate::side::Reply;

pub fn hex(bytes: &[u8]) -> String {
    if bytes.is_empty() { "-".to_string() } else { bytes.iter().map(|b| format!("{b:02x}")).collect() }
}

pub fn bytes(text: &str) -> Option<Vec<u8>> {
    if text == "-" {
        return Some(Vec::new());
    }
    let digits: Option<Vec<u8>> = text.chars().map(|c| c.to_digit(16).map(|d| d as u8)).collect();
    let (pairs, odd) = digits.as_ref()?.as_chunks::<2>();
    if odd.is_empty() { Some(pairs.iter().map(|[high, low]| 16 * high + low).collect()) } else { None }
}

pub fn block(text: &str) -> Option<Block> {
    bytes(text)?.try_into().ok()
}

/// The parts of a list, `-` for none.
fn joined<T>(items: &[T], part: impl Fn(&T) -> String) -> String {
    if items.is_empty() { "-".to_string() } else { items.iter().map(part).collect::<Vec<_>>().join(",") }
}

fn parted<T>(text: &str, part: impl Fn(&str) -> Option<T>) -> Option<Vec<T>> {
    if text == "-" { Some(Vec::new()) } else { text.split(',').map(part).collect() }
}

fn words(kind: &str, fields: &[(&str, &dyn Display)]) -> String {
    fields.iter().fold(kind.to_string(), |line, (name, value)| format!("{line} {name}={value}"))
}

fn key_sets(sets: &[KeySet]) -> String {
    joined(sets, |s| format!("{}:{}:{}", s.id, s.handle, hex(&s.fa_key)))
}

/// The line without its result.
pub fn question(line: &Line) -> String {
    match line {
        Line::Load(Given { key_length, sets, modes, area, div_data, shill_key, shill_handle }) => {
            let sets = key_sets(sets);
            let modes = joined(modes, |m| format!("{}:{}:{}", m.id, m.start, m.len));
            let (area, div, key) = (hex(area), hex(div_data), hex(shill_key));
            let given = format!("load l={key_length} sets={sets} modes={modes} area={area} div={div}");
            words(&given, &[("shill_key", &key), ("shill_handle", shill_handle)])
        }
        Line::Sets(sets) => words("sets", &[("sets", &key_sets(sets))]),
        Line::Call { interface, command, fresh, out } => {
            words("call", &[("interface", interface), ("command", &hex(command)), ("fresh", &hex(fresh)), ("out", out)])
        }
        Line::List { ids, out } => words("list", &[("ids", &joined(ids, u16::to_string)), ("out", out)]),
        Line::Open { key_length, ids, blocks } => {
            words("open", &[("l", key_length), ("ids", &joined(ids, u16::to_string)), ("blocks", &hex(blocks))])
        }
        Line::Seal { of: Sealing { key_length, fa_key, div_data, rnd1, rnd2, mode }, payload, out } => {
            let keys = words("seal", &[("l", key_length), ("fakey", &hex(fa_key)), ("div", &hex(div_data))]);
            let keys = words(&keys, &[("rnd1", &hex(rnd1)), ("rnd2", &hex(rnd2))]);
            words(&keys, &[("mode", mode), ("payload", &hex(payload)), ("out", out)])
        }
        Line::Accept { of: Accepting { key_length, keys_hash, div_data, record_length }, response, work } => {
            let of = words("accept", &[("l", key_length), ("keyshash", &hex(keys_hash)), ("div", &hex(div_data))]);
            let of = words(&of, &[("reclen", record_length)]);
            words(&of, &[("response", &hex(response)), ("work", &hex(work))])
        }
        Line::Door { of, given, out } => words(of.name(), &[(of.words().0, &hex(given)), ("out", out)]),
    }
}

/// The result in the transcripts' words.
pub fn result(seen: &Seen) -> String {
    let shown = |length: usize| hex(&seen.lent()[..length.min(seen.lent().len())]);
    match &seen.reply {
        Reply::Load { number, card, .. } => format!("number={number} reply_size={}", card.0.reply_size),
        Reply::Sets { number, .. } => format!("number={number}"),
        Reply::Call { number, status, work, length, handle, card, tries } => {
            let start = words("", &[("number", number), ("status", status), ("comparisons", &work.comparisons)]);
            let counts = words(&start, &[("decipherments", &work.decipherments), ("encipherments", &work.encipherments)]);
            let counts = words(&counts, &[("expansions", &work.expansions), ("hash_blocks", &work.hash_blocks)]);
            let rest = words(&counts, &[("length", length), ("handle", handle), ("sum", &work.sum)]);
            let tries = format!("{}:{}", tries.contact, tries.contactless);
            words(&rest, &[("answer", &shown(*length)), ("session", &session(&card.0)), ("tries", &tries)]).trim_start().to_string()
        }
        Reply::List { number, length } => format!("number={number} length={length} command={}", shown(*length)),
        Reply::Open { number: 0, place, id, div_data, rnd1 } => {
            format!("number=0 place={place} id={id} div={} rnd1={}", hex(div_data), hex(rnd1.held()))
        }
        Reply::Open { number, .. } => format!("number={number}"),
        Reply::Seal { number, length, keys_hash } => {
            let hash = if *number == 0 { hex(keys_hash.held()) } else { "-".to_string() };
            format!("number={number} length={length} keyshash={hash} command={}", shown(*length))
        }
        Reply::Accept { number, part, .. } => {
            let record = seen.lent().get(part.clone()).map_or("outside".to_string(), hex);
            format!("number={number} record={record} work={}", hex(seen.lent()))
        }
        Reply::Door { of, number, length } => {
            words("", &[("number", number), ("length", length), (of.words().1, &shown(*length))]).trim_start().to_string()
        }
        Reply::NoCard => "error: there is no loaded card before it".to_string(),
    }
}

fn session(card: &plaid::Card) -> String {
    card.open_session().map_or("-".to_string(), |(id, rnd1, key)| format!("{id}:{}:{}", hex(rnd1), hex(key)))
}

/// The values of a line that has exactly these words, in this order.
fn values<'a, const N: usize>(line: &'a str, names: [&str; N]) -> Option<[&'a str; N]> {
    let found: Vec<&str> = line.split(' ').skip(1).collect();
    let found: [&str; N] = found.try_into().ok()?;
    let mut values = [""; N];
    for ((value, word), name) in values.iter_mut().zip(found).zip(names) {
        *value = word.strip_prefix(name)?.strip_prefix('=')?;
    }
    Some(values)
}

fn key_set(text: &str) -> Option<KeySet> {
    let [id, handle, key] = text.split(':').collect::<Vec<_>>().try_into().ok()?;
    Some(KeySet { id: id.parse().ok()?, handle: handle.parse().ok()?, fa_key: bytes(key)? })
}

fn mode(text: &str) -> Option<Mode> {
    let [id, start, len] = text.split(':').collect::<Vec<_>>().try_into().ok()?;
    Some(Mode { id: id.parse().ok()?, start: start.parse().ok()?, len: len.parse().ok()? })
}

fn ids(text: &str) -> Option<Vec<u16>> {
    parted(text, |id| id.parse().ok())
}

fn parse_load(line: &str) -> Option<Line> {
    let [length, sets, modes, area, div, key, handle] = values(line, ["l", "sets", "modes", "area", "div", "shill_key", "shill_handle"])?;
    let (key_length, sets, modes) = (length.parse().ok()?, parted(sets, key_set)?, parted(modes, mode)?);
    let (div_data, shill_key, shill_handle) = (block(div)?, bytes(key)?, handle.parse().ok()?);
    Some(Line::Load(Given { key_length, sets, modes, area: bytes(area)?, div_data, shill_key, shill_handle }))
}

fn parse_seal(line: &str) -> Option<Line> {
    let names = ["l", "fakey", "div", "rnd1", "rnd2", "mode", "payload", "out"];
    let [length, fa_key, div, rnd1, rnd2, mode, payload, out] = values(line, names)?;
    let (key_length, div_data) = (length.parse().ok()?, block(div)?);
    let [fa_key, rnd1, rnd2] = [bytes(fa_key)?, bytes(rnd1)?, bytes(rnd2)?];
    let of = Sealing { key_length, fa_key, div_data, rnd1, rnd2, mode: mode.parse().ok()? };
    Some(Line::Seal { of, payload: bytes(payload)?, out: out.parse().ok()? })
}

fn parse_accept(line: &str) -> Option<Line> {
    let [length, hash, div, record, response, work] = values(line, ["l", "keyshash", "div", "reclen", "response", "work"])?;
    let (key_length, keys_hash, div_data) = (length.parse().ok()?, bytes(hash)?, block(div)?);
    let of = Accepting { key_length, keys_hash, div_data, record_length: record.parse().ok()? };
    Some(Line::Accept { of, response: bytes(response)?, work: bytes(work)? })
}

fn parse_door(line: &str) -> Option<Line> {
    let of = CONVERSIONS.into_iter().find(|of| line.starts_with(&format!("{} ", of.name())))?;
    let [given, out] = values(line, [of.words().0, "out"])?;
    Some(Line::Door { of, given: bytes(given)?, out: out.parse().ok()? })
}

/// A line without its result, `None` if it cannot be read.
pub fn parse(line: &str) -> Option<Line> {
    match line.split(' ').next()? {
        "load" => parse_load(line),
        "sets" => {
            let [sets] = values(line, ["sets"])?;
            Some(Line::Sets(parted(sets, key_set)?))
        }
        "call" => {
            let [interface, command, fresh, out] = values(line, ["interface", "command", "fresh", "out"])?;
            let (interface, out) = (interface.parse().ok()?, out.parse().ok()?);
            Some(Line::Call { interface, command: bytes(command)?, fresh: bytes(fresh)?, out })
        }
        "list" => {
            let [listed, out] = values(line, ["ids", "out"])?;
            Some(Line::List { ids: ids(listed)?, out: out.parse().ok()? })
        }
        "open" => {
            let [length, listed, blocks] = values(line, ["l", "ids", "blocks"])?;
            Some(Line::Open { key_length: length.parse().ok()?, ids: ids(listed)?, blocks: bytes(blocks)? })
        }
        "seal" => parse_seal(line),
        "accept" => parse_accept(line),
        _ => parse_door(line),
    }
}
