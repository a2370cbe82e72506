//! Reads lines in the form of the transcripts from standard input, runs each on the proved library, and writes it again with
//! the result that the library gives. What stands behind `=>` is not looked at.
//!
//! A `load` line starts a new card; each `sets` line, which loads key sets onto it, and each `call` line gets the card as the line before left
//! it. A call names its `interface=` in front, any number; `session=` is KeySetID, RND1 and FAKey of the session that is open afterwards, and
//! `tries=` are the counts that are read of the card then, contact and contactless. The output buffer is filled before a call, and `kept=no`
//! stands at the line's end where a byte behind the answer changed. `list`, `open`, `seal` and `accept` lines are the reader's.
//! `wiegand_record`, `wiegand_text`, `uuid_record` and `uuid_text` lines convert door numbers; a text is the hexadecimal of its bytes. A line
//! that cannot be read gets an error with its number, and the run goes on; the exit status is then 1.

use std::collections::HashMap;
use std::fmt::Write as _;
use std::io::{BufRead, Write};

mod plaid;
use plaid::*;

type Fields<'a> = HashMap<&'a str, &'a str>;

/// What behind `word=` a line of this kind has to have, no more and no less.
fn fields<'a>(line: &'a str, names: &[&str]) -> Result<Fields<'a>, String> {
    let mut found = HashMap::new();
    for word in line.split(' ').skip(1).filter(|w| !w.is_empty()) {
        let (name, value) = word.split_once('=').ok_or(format!("'{word}' is not word=value"))?;
        if !names.contains(&name) {
            return Err(format!("unknown word '{name}'"));
        }
        if found.insert(name, value).is_some() {
            return Err(format!("'{name}' stands twice"));
        }
    }
    for name in names {
        if !found.contains_key(name) {
            return Err(format!("'{name}=' is missing"));
        }
    }
    Ok(found)
}

fn bytes(text: &str) -> Result<Vec<u8>, String> {
    if text == "-" {
        return Ok(Vec::new());
    }
    if text.len() % 2 != 0 || !text.bytes().all(|b| b.is_ascii_hexdigit()) {
        return Err(format!("'{text}' is not hexadecimal bytes"));
    }
    Ok((0..text.len()).step_by(2).map(|i| u8::from_str_radix(&text[i..i + 2], 16).unwrap()).collect())
}

fn sixteen(text: &str) -> Result<[u8; 16], String> {
    bytes(text)?.try_into().map_err(|_| format!("'{text}' is not 16 bytes"))
}

/// A key, RND or KeysHash: as many bytes as one can say that it has.
fn value(text: &str) -> Result<Value, String> {
    let bytes = bytes(text)?;
    if bytes.len() > 255 { Err(format!("'{text}' is over 255 bytes")) } else { Ok(Value::of(&bytes)) }
}

fn number<T: std::str::FromStr>(text: &str) -> Result<T, String> {
    text.parse().map_err(|_| format!("'{text}' is not a number in range"))
}

fn hex(b: &[u8]) -> String {
    if b.is_empty() {
        return "-".to_string();
    }
    b.iter().fold(String::new(), |mut s, x| {
        let _ = write!(s, "{x:02x}");
        s
    })
}

/// The parts of a list, none for `-`.
fn parts(text: &str) -> Vec<&str> {
    if text == "-" { Vec::new() } else { text.split(',').collect() }
}

fn key_set(text: &str) -> Result<KeySet, String> {
    match text.split(':').collect::<Vec<_>>()[..] {
        [id, handle, key] => Ok(KeySet { id: number(id)?, handle: number(handle)?, fa_key: value(key)? }),
        _ => Err(format!("'{text}' is not KeySetID:handle:FAKey")),
    }
}

fn key_sets(text: &str) -> Result<Vec<KeySet>, String> {
    parts(text).into_iter().map(key_set).collect()
}

fn mode(text: &str) -> Result<Mode, String> {
    match text.split(':').collect::<Vec<_>>()[..] {
        [id, start, len] => Ok(Mode { id: number(id)?, start: number(start)?, len: number(len)? }),
        _ => Err(format!("'{text}' is not OpModeID:start:length")),
    }
}

fn load(line: &str) -> Result<(Option<Card>, String), String> {
    let f = fields(line, &["l", "sets", "modes", "area", "div", "shill_key", "shill_handle"])?;
    let sets = key_sets(f["sets"])?;
    let modes = parts(f["modes"]).into_iter().map(mode).collect::<Result<Vec<_>, _>>()?;
    let area = bytes(f["area"])?;
    let given = given(number(f["l"])?, sixteen(f["div"])?, value(f["shill_key"])?, number(f["shill_handle"])?);
    let r = run_load(&sets, &modes, &area, given);
    let result = format!("number={} reply_size={}", r.number, r.card.reply_size);
    Ok((if r.number == 0 { Some(r.card) } else { None }, result))
}

const NO_CARD: &str = "there is no loaded card before it";

/// A load of key sets: whatever its number, the library hands back the next card.
fn load_sets(line: &str, card: &mut Option<Card>) -> Result<String, String> {
    let sets = key_sets(fields(line, &["sets"])?["sets"])?;
    let r = run_load_sets(&sets, card.ok_or(NO_CARD)?);
    *card = Some(r.card);
    Ok(format!("number={}", r.number))
}

/// An output buffer of so many bytes, each with a value of its own, so that a change shows.
fn filled(text: &str) -> Result<Vec<u8>, String> {
    let size: usize = number(text)?;
    if size > 1 << 20 {
        return Err(format!("'{size}' bytes of output are more than this program lends"));
    }
    Ok((0..size).map(|i| (i * 167 + 91) as u8).collect())
}

/// A buffer's first bytes in hexadecimal, and whether the others are as they were.
fn written(out: &[u8], fill: &[u8], length: usize) -> (String, &'static str) {
    let end = length.min(out.len());
    (hex(&out[..end]), if out[end..] == fill[end..] { "" } else { " kept=no" })
}

fn ids(text: &str) -> Result<Vec<u16>, String> {
    parts(text).into_iter().map(number).collect()
}

fn list(line: &str) -> Result<String, String> {
    let f = fields(line, &["ids", "out"])?;
    let fill = filled(f["out"])?;
    let mut out = fill.clone();
    let r = run_list(&ids(f["ids"])?, &mut out);
    let (command, kept) = written(&out, &fill, r.length);
    Ok(format!("number={} length={} command={command}{kept}", r.number, r.length))
}

fn open(line: &str) -> Result<String, String> {
    let f = fields(line, &["l", "ids", "blocks"])?;
    let r = run_open(number(f["l"])?, &ids(f["ids"])?, &bytes(f["blocks"])?);
    if r.number != 0 {
        return Ok(format!("number={}", r.number));
    }
    Ok(format!("number=0 place={} id={} div={} rnd1={}", r.place, r.id, hex(&r.div_data), hex(r.rnd1.held())))
}

fn seal(line: &str) -> Result<String, String> {
    let f = fields(line, &["l", "fakey", "div", "rnd1", "rnd2", "mode", "payload", "out"])?;
    let (key_length, fa_key, div_data) = (number(f["l"])?, value(f["fakey"])?, sixteen(f["div"])?);
    let of = Sealing { key_length, fa_key, div_data, rnd1: value(f["rnd1"])?, rnd2: value(f["rnd2"])?, mode: number(f["mode"])? };
    let fill = filled(f["out"])?;
    let mut out = fill.clone();
    let r = run_seal(of, &bytes(f["payload"])?, &mut out);
    let (command, kept) = written(&out, &fill, r.length);
    let hash = if r.number == 0 { hex(r.keys_hash.held()) } else { "-".to_string() };
    Ok(format!("number={} length={} keyshash={hash} command={command}{kept}", r.number, r.length))
}

fn accept(line: &str) -> Result<String, String> {
    let f = fields(line, &["l", "keyshash", "div", "reclen", "response", "work"])?;
    let (key_length, keys_hash) = (number(f["l"])?, value(f["keyshash"])?);
    let of = Accepting { key_length, keys_hash, div_data: sixteen(f["div"])?, record_length: number(f["reclen"])? };
    let response = bytes(f["response"])?;
    let before = bytes(f["work"])?;
    let mut work = before.clone();
    let r = run_accept(of, &response, &mut work);
    let end = response.len().min(work.len());
    let kept = if work[end..] == before[end..] { "" } else { " kept=no" };
    let record = work.get(run_record(&work, r)).map_or("outside".to_string(), hex);
    Ok(format!("number={} record={record} work={}{kept}", r.number, hex(&work)))
}

/// A conversion of door numbers, between the forms of these names.
fn convert(line: &str, from: &str, to: &str, run: fn(&[u8], &mut [u8]) -> Converted) -> Result<String, String> {
    let f = fields(line, &[from, "out"])?;
    let fill = filled(f["out"])?;
    let mut out = fill.clone();
    let r = run(&bytes(f[from])?, &mut out);
    let (result, kept) = written(&out, &fill, r.length);
    Ok(format!("number={} length={} {to}={result}{kept}", r.number, r.length))
}

fn call(line: &str, card: &mut Option<Card>) -> Result<String, String> {
    let f = fields(line, &["interface", "command", "fresh", "out"])?;
    let interface = number(f["interface"])?;
    let command = bytes(f["command"])?;
    let fresh = bytes(f["fresh"])?;
    let fill = filled(f["out"])?;
    let held = card.ok_or(NO_CARD)?;
    let mut out = fill.clone();
    let r = run_command(held, interface, &command, &fresh, &mut out);
    let a = r.answer;
    let tries = run_read_tries(r.card);
    *card = Some(r.card);
    let end = a.length.min(out.len());
    let after = r.card.open_session().map_or("-".to_string(), |(id, rnd1, key)| format!("{id}:{}:{}", hex(rnd1), hex(key)));
    let mut s = format!(
        "number={} status={} comparisons={} decipherments={} encipherments={} expansions={} hash_blocks={} length={} handle={} sum={} answer={} session={} tries={}:{}",
        a.number, a.status, a.comparisons, a.decipherments, a.encipherments, a.expansions, a.hash_blocks, a.length, a.handle, r.sum, hex(&out[..end]), after,
        tries.contact, tries.contactless
    );
    if out[end..] != fill[end..] {
        s.push_str(" kept=no");
    }
    Ok(s)
}

fn main() {
    let mut card: Option<Card> = None;
    let mut failed = false;
    let stdout = std::io::stdout();
    let mut out = std::io::BufWriter::new(stdout.lock());
    for (i, line) in std::io::stdin().lock().lines().enumerate() {
        let line = match line {
            Ok(l) => l,
            Err(e) => {
                eprintln!("line {}: {e}", i + 1);
                std::process::exit(2);
            }
        };
        let question = line.split(" =>").next().unwrap().trim_end();
        if question.is_empty() || question.starts_with('#') {
            writeln!(out, "{line}").unwrap();
            continue;
        }
        let result = match question.split(' ').next().unwrap() {
            "load" => load(question).map(|(c, s)| {
                card = c;
                s
            }),
            "sets" => load_sets(question, &mut card),
            "call" => call(question, &mut card),
            "list" => list(question),
            "open" => open(question),
            "seal" => seal(question),
            "accept" => accept(question),
            "wiegand_record" => convert(question, "text", "record", run_wiegand_record),
            "wiegand_text" => convert(question, "record", "text", run_wiegand_text),
            "uuid_record" => convert(question, "text", "record", run_uuid_record),
            "uuid_text" => convert(question, "record", "text", run_uuid_text),
            other => Err(format!("'{other}' is none of load, sets, call, list, open, seal, accept and the four conversions")),
        };
        match result {
            Ok(s) => writeln!(out, "{question} => {s}").unwrap(),
            Err(e) => {
                failed = true;
                writeln!(out, "{question} => error: line {}: {e}", i + 1).unwrap();
            }
        }
    }
    out.flush().unwrap();
    if failed {
        std::process::exit(1);
    }
}
