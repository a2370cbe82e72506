//! Commands for a card as it is: initial, final and broken ones, with fresh bytes and an output size.

use super::{id, interface, size};
use crate::card::{Card, final_keys};
use crate::fault::Fault;
use crate::keys;
use crate::line::Line;
use crate::padding::padded;
use crate::random::Random;
use crate::reader::{Sealing, final_data, framed, keys_hash, str2};

/// Any call. An open session mostly meets a final command, so that lists get deep. Some commands of earlier calls come again.
pub fn call(random: &mut Random, card: &Card, earlier: &[Line]) -> Line {
    let again = earlier.get(random.below(2 * earlier.len() + 1));
    let mut command = match (card.session.is_some(), random.below(10), again) {
        (_, 0, Some(Line::Call { command, .. })) => command.clone(),
        (_, 0, _) => strange(random),
        (true, 1..8, _) | (false, 1..4, _) => final_command(random, card),
        _ => initial(random, card),
    };
    if random.percent(8) {
        damage(random, &mut command);
    }
    Line::Call { interface: interface(random), command, fresh: fresh(random, card.given.key_length), out: size(random, 256) }
}

/// 253 bytes whose pad bytes are not zero.
pub fn good_fresh(random: &mut Random, key_length: usize) -> Vec<u8> {
    let mut fresh = random.bytes(253);
    fresh[keys::str1(key_length)..].iter_mut().for_each(|b| *b = (*b).max(1));
    fresh
}

fn fresh(random: &mut Random, key_length: usize) -> Vec<u8> {
    let mut fresh = good_fresh(random, key_length);
    let pads = keys::str1(key_length);
    match random.below(40) {
        0 => fresh.truncate(random.edge(&[0, pads - 1, pads, 252], 0, 252)),
        1 => fresh.resize(random.edge(&[254, 300], 254, 300), 1),
        2 | 3 => fresh[random.edge(&[pads, 252], pads, 252)] = 0,
        // Zeros in F are as good as any other byte.
        4 => fresh[random.edge(&[0, key_length - 1, key_length, pads - 1], 0, pads - 1)] = 0,
        5 => fresh[..pads].fill(0),
        _ => {}
    }
    fresh
}

/// One bit flipped, bytes cut or put on anywhere.
fn damage(random: &mut Random, command: &mut Vec<u8>) {
    match random.below(4) {
        0 => command.truncate(random.between(0, command.len())),
        1 => command.extend(random.bytes(2)),
        2 => command.insert(random.between(0, command.len()), random.byte()),
        _ => random.flip(command),
    }
}

/// Frames that are no operation: short ones, other CLA, INS, P1 P2, any Lc with a wrong or absent Le.
fn strange(random: &mut Random) -> Vec<u8> {
    let ins = random.pick(&[0x86, 0x87]);
    let lc = random.edge(&[0, 1, 2, 15, 16, 254, 255], 0, 255);
    let mut command = framed(ins, &random.bytes(lc));
    match random.below(8) {
        0 => command.truncate(random.between(0, 7)),
        1 => command[0] = random.byte(),
        2 => command[1] = random.pick(&[0x00, 0x06, 0x85, 0x88, 0x89, 0xff]),
        3 => command[random.pick(&[2, 3])] = random.byte(),
        4 => command[4] = random.byte(),
        5 => command.truncate(lc + 5),
        6 => command[lc + 5] = random.byte(),
        _ => {}
    }
    command
}

/// A list of up to 20 KeySetIDs, sometimes of as many as there is room for, held and unheld.
fn initial(random: &mut Random, card: &Card) -> Vec<u8> {
    let count = random.edge(&[1, 2, 5], 0, 20);
    let count = if random.percent(4) { random.between(21, 63) } else { count };
    let held = random.pick(&[0, 20, 50, 100]);
    let ids = (0..count).map(|_| if random.percent(held) { random.pick(&card.given.sets).id } else { id(random) });
    let mut entries: Vec<Vec<u8>> = ids.map(|id| id.to_be_bytes().to_vec()).collect();
    if count > 0 && random.percent(4) {
        entries[random.below(count)].resize(random.pick(&[0, 1, 3, 4]), 0);
    }
    let mut data = if random.percent(12) { wrong_sequence(random, &entries) } else { sequence(random, &entries) };
    if random.percent(20) {
        spoil_list(random, &mut data);
    }
    data.truncate(255);
    framed(0x87, &data)
}

/// The numbers of length bytes behind the first one in a list's lengths; 0 is the short form.
const FORMS: [&[usize]; 12] = [
    &[0],
    &[0],
    &[0],
    &[0],
    &[0, 0, 0, 1],
    &[0, 1],
    &[1],
    &[2],
    &[0, 1, 2, 3, 4],
    &[0, 7, 8, 9],
    &[0, 0, 0, 0, 0, 20, 60],
    &[0, 0, 125, 126],
];

/// A length below 256 in the short form, or with so many bytes behind the first one, zero bytes before its own. 127 of them make FF.
fn ber_length(length: usize, count: usize) -> Vec<u8> {
    let count = if length > 127 { count.max(1) } else { count };
    let mut bytes = vec![0; count + 1];
    bytes[0] = 0x80 + count as u8;
    bytes[count] = length as u8;
    bytes
}

/// A length that the card must not take for this one: FF, or a value that is too large by a multiple of 2^8, 2^16, 2^32, 2^64 or more.
fn wrong_length(random: &mut Random, length: usize) -> Vec<u8> {
    let count = random.pick(&[2, 3, 5, 9, 9, 10, 126, 127, 127]);
    let mut bytes = ber_length(length, count);
    if count < 127 {
        bytes[1] = random.pick(&[1, 2, 0x80, 0xff]);
    }
    bytes
}

/// An entry in the indefinite form, with its own 00 00 or without, or with a wrong length.
fn wrong_entry(random: &mut Random, entry: &[u8]) -> Vec<u8> {
    match random.below(5) {
        0 => [&[0x04, 0x80], entry].concat(),
        1 => [&[0x04, 0x80], entry, &[0, 0]].concat(),
        2 => [&[random.pick(&[0x04, 0x24]), 0x80, 0x04, 2], entry, &[0, 0]].concat(),
        _ => [&[0x04], &wrong_length(random, entry.len())[..], entry].concat(),
    }
}

/// As many of the entries as there is room for, with lengths of these forms; sometimes one of the first is wrong.
fn content(random: &mut Random, entries: &[Vec<u8>], forms: &[usize], room: usize) -> Vec<u8> {
    let wrong = if random.percent(10) { random.below(entries.len().clamp(1, 4)) } else { entries.len() };
    let mut content = Vec::new();
    for (place, entry) in entries.iter().enumerate() {
        let right = [&[0x04], &ber_length(entry.len(), random.pick(forms))[..], entry].concat();
        let element = if place == wrong { wrong_entry(random, entry) } else { right };
        if content.len() + element.len() <= room {
            content.extend(element);
        }
    }
    content
}

/// The list with a definite length, or in the indefinite form.
fn sequence(random: &mut Random, entries: &[Vec<u8>]) -> Vec<u8> {
    let forms = random.pick(&FORMS);
    if random.percent(20) {
        return [&[0x30, 0x80], &content(random, entries, forms, 251)[..], &[0, 0]].concat();
    }
    let count = random.pick(forms);
    let content = content(random, entries, forms, 253 - count.max(1));
    [&[0x30], &ber_length(content.len(), count)[..], &content].concat()
}

/// The list with a wrong length or a wrong end: bytes behind 00 00, one zero byte or none, 00 00 behind a definite length.
fn wrong_sequence(random: &mut Random, entries: &[Vec<u8>]) -> Vec<u8> {
    let forms = random.pick(&FORMS);
    let content = content(random, entries, forms, 125);
    let (length, longer) = (content.len() as u8, content.len() as u8 + 2);
    match random.below(8) {
        0 => [&[0x30, 0x80], &content[..], &[0, 0], &random.some_bytes(1, 4)].concat(),
        1 => [&[0x30, 0x80], &content[..], &[0, 0], &content].concat(),
        2 => [&[0x30, 0x80], &content[..], &[0]].concat(),
        3 => [&[0x30, 0x80], &content[..]].concat(),
        4 => [&[0x30, length], &content[..], &[0, 0]].concat(),
        5 => [&[0x30, longer], &content[..], &[0, 0]].concat(),
        _ => [&[0x30], &wrong_length(random, content.len())[..], &content].concat(),
    }
}

/// Wrong tags, lengths and forms, in the list or in one of its entries; bytes left over or missing.
fn spoil_list(random: &mut Random, data: &mut Vec<u8>) {
    let entry = 2 + 4 * random.below(data.len().div_ceil(4));
    let wrong_length = random.pick(&[0, 1, 3, 4, 0x7f, 0x80, 0x82, 0x84, 0xff]);
    match random.below(9) {
        0 => data[0] = random.pick(&[0x31, 0x04, 0x10, 0x00, 0xb0]),
        1 => data[1] = wrong_length,
        2 => data[1] = data[1].wrapping_add(random.pick(&[1, 4, 0xff, 0xfc])),
        3 => change(data, entry, random.pick(&[0x05, 0x30, 0x84, 0x00])),
        4 => change(data, entry + 1, wrong_length),
        5 => data.extend(random.some_bytes(1, 4)),
        6 => data.truncate(random.between(1, data.len())),
        7 => *data = [&[0x30, 3, 0x04, 1, random.byte()], &data[2..]].concat(),
        _ => random.flip(data),
    }
}

fn change(data: &mut [u8], at: usize, to: u8) {
    if let Some(byte) = data.get_mut(at) {
        *byte = to;
    }
}

/// A final command for the card's session, or for none; right in everything or wrong in something. A few are under a key that the table has now.
fn final_command(random: &mut Random, card: &Card) -> Vec<u8> {
    let (mut fa_key, rnd1) = final_keys(card, Fault::None);
    if random.percent(5) {
        let own = card.given.sets.iter().find(|set| card.session.as_ref().is_some_and(|s| s.id == set.id)).cloned();
        fa_key = own.unwrap_or_else(|| random.pick(&card.given.sets)).fa_key;
    }
    let mode = if random.percent(92) { random.pick(&card.given.modes).id } else { id(random) };
    let (key_length, div_data) = (card.given.key_length, card.given.div_data);
    let of = Sealing { key_length, fa_key, div_data, rnd1, rnd2: random.bytes(key_length), mode };
    let text = final_text(random, of.clone());
    let mut data = final_data(&of, &text, Fault::None);
    match random.below(20) {
        0 => data.extend(random.some_bytes(1, 15)),
        1 => random.flip(&mut data),
        2 => {
            let lc = random.edge(&[1, 15, 16, 17, 48, 240, 255], 1, 255);
            data = random.bytes(lc);
        }
        _ => {}
    }
    framed(0x86, &data)
}

/// STR2 with its padding, whole blocks; sometimes damaged before it is enciphered.
fn final_text(random: &mut Random, of: Sealing) -> Vec<u8> {
    let (length, most) = (of.key_length, keys::most_payload(of.key_length));
    let payload = random.edge(&[0, 0, 13, 14, 30, most], 0, most);
    let mut text = str2(&of, &random.bytes(payload), Fault::None);
    match random.below(24) {
        0 => random.flip(&mut text[2 + length + payload..]),
        1 => random.flip(&mut text),
        2 => text.truncate(random.edge(&[0, 16, length + 1, length + 2, 2 * length, 2 * length + 1], 0, 2 * length + 1)),
        3 => text = just_too_short(random, of),
        4 | 5 => return badly_padded(random, text),
        _ => {}
    }
    padded(&text, Fault::None)
}

/// 1 + 2L bytes that end in their own KeysHash: its first byte is RND2's last, so that only the length is wrong.
fn just_too_short(random: &mut Random, mut of: Sealing) -> Vec<u8> {
    for _ in 0..2000 {
        of.rnd2 = random.bytes(of.key_length);
        if keys_hash(&of, Fault::None).first() == of.rnd2.last() {
            break;
        }
    }
    let mut text = str2(&of, &[], Fault::None);
    text.remove(1 + of.key_length);
    text
}

/// Whole blocks whose last nonzero byte is not 0x80, or does not stand in the last one.
fn badly_padded(random: &mut Random, text: Vec<u8>) -> Vec<u8> {
    let mut padded = padded(&text, Fault::None);
    match random.below(5) {
        0 => padded[text.len()] = random.byte(),
        1 => *padded.last_mut().unwrap() = random.byte(),
        2 if padded.len() < 240 => padded.extend([0; 16]),
        3 => padded.fill(0),
        _ => padded[text.len()] = 0,
    }
    padded
}
