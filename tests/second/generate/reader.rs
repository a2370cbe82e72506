//! Calls of the reader: List, Open, Seal, Accept.

use super::{command, distinct_ids, id, key_length, size, value};
use crate::aes::Block;
use crate::fault::Fault;
use crate::keys::{self, LENGTHS};
use crate::line::Line;
use crate::padding::padded;
use crate::random::Random;
use crate::reader::{Accepting, Sealing, enciphered};

pub fn list(random: &mut Random) -> Line {
    let count = random.edge(&[1, 2, 16], 0, 20);
    let mut ids = distinct_ids(random, count);
    if count > 1 && random.percent(20) {
        ids[random.below(count)] = random.pick(&ids.clone());
    }
    Line::List { out: size(random, 4 * count + 8), ids }
}

/// The block of a card that holds this set.
pub fn card_block(random: &mut Random, key_length: usize, id: u16) -> Vec<u8> {
    let fresh = command::good_fresh(random, key_length);
    let (div_data, rnd1) = (random.block(), &fresh[..key_length]);
    let pads = &fresh[keys::str1(key_length)..];
    [&[0, 2], pads, &[0], &id.to_be_bytes(), &div_data, rnd1, rnd1].concat()
}

/// What a decryption may give for an entry: a good block, a damaged one, a stranger's, one with keys of another length, or random bytes.
fn block(random: &mut Random, key_length: usize, entry: u16) -> Vec<u8> {
    let owner = if random.percent(15) { id(random) } else { entry };
    let length = if random.percent(5) || !LENGTHS.contains(&key_length) { random.pick(&LENGTHS) } else { key_length };
    let mut block = card_block(random, length, owner);
    // The places of the zero byte and STR1.
    let (zero, last) = (2 + keys::pads(length), 3 + keys::pads(length));
    match random.below(12) {
        0 => block[random.pick(&[0, 1, zero])] = random.pick(&[0, 1, 2, 0xff]),
        1 => block[random.edge(&[2, zero - 1], 2, zero - 1)] = 0,
        2 => random.flip(&mut block[last..last + 2]),
        3 => random.flip(&mut block[last + 18..]),
        4 => random.flip(&mut block),
        5 => random.fill(&mut block[last..]),
        6 | 7 => {}
        _ => random.fill(&mut block),
    }
    block
}

pub fn open(random: &mut Random) -> Line {
    let (key_length, count) = (key_length(random), random.edge(&[1, 2, 3, 16], 0, 20));
    let ids: Vec<u16> = (0..count).map(|_| id(random)).collect();
    let mut blocks: Vec<u8> = ids.iter().flat_map(|id| block(random, key_length, *id)).collect();
    let off = random.pick(&[1, 255, 256]);
    match random.below(20) {
        0 => blocks.truncate(blocks.len().saturating_sub(off)),
        1 => blocks.extend(random.bytes(off)),
        _ => {}
    }
    Line::Open { key_length, ids, blocks }
}

/// A payload for one of the three lengths, or a little over its limit.
pub fn payload(random: &mut Random, key_length: usize) -> Vec<u8> {
    let most = keys::most_payload(key_length);
    let length = random.edge(&[0, 13, 14, 29, 30, most, most + 1, 205, 206], 0, most + 5);
    random.bytes(length)
}

pub fn seal(random: &mut Random) -> Line {
    let key_length = key_length(random);
    let [fa_key, rnd1, rnd2] = [(); 3].map(|()| value(random, key_length));
    let of = Sealing { key_length, fa_key, div_data: random.block(), rnd1, rnd2, mode: id(random) };
    let length = if LENGTHS.contains(&key_length) { key_length } else { random.pick(&LENGTHS) };
    let payload = payload(random, length);
    let lc = (keys::least_text(length) + payload.len()) / 16 * 16 + 16;
    Line::Seal { of, payload, out: size(random, lc + 6) }
}

/// A record length for a body: mostly one that it has room for, else one about its end, none, or one that a narrower number would cut
/// to the body's.
pub fn record_length(random: &mut Random, body: usize) -> usize {
    let cut = |bits: u32| body.wrapping_add(1 << bits);
    match random.below(20) {
        0..6 => body,
        6..12 => random.between(1, body.max(1)),
        12 => body.saturating_sub(1),
        13 | 14 => body + 1,
        15 => random.pick(&[body + 15, body + 16, body + 17, 64, 65]),
        16 | 17 => 0,
        18 => random.pick(&[cut(8), cut(16), cut(32), cut(63), usize::MAX, usize::MAX - 15, 1 << 32, 1 << 63]),
        _ => random.edge(&[1, 4, 16, 63, 64, 65, 96], 0, 100),
    }
}

/// A body and DivData, padded; sometimes other bytes before they are enciphered. Behind the record the body has zeros or any bytes.
fn response_text(random: &mut Random, div_data: &Block, body: usize, record: usize) -> Vec<u8> {
    let mut text = [&random.bytes(body)[..], div_data].concat();
    if random.percent(40) {
        text[record.min(body)..body].fill(0);
    }
    if random.percent(10) {
        random.flip(&mut text[body..]);
    }
    let mut padded = padded(&text, Fault::None);
    match random.below(12) {
        0 => padded[text.len()] = random.byte(),
        1 => *padded.last_mut().unwrap() = random.byte(),
        2 => padded.extend([0; 16]),
        3 => padded.fill(random.pick(&[0, 0x80])),
        _ => {}
    }
    padded
}

pub fn accept(random: &mut Random) -> Line {
    let key_length = key_length(random);
    let (keys_hash, div_data) = (value(random, key_length), random.block());
    let body = if random.percent(50) { random.between(1, 64) } else { random.edge(&[0, 1, 15, 16, 63, 64, 65, 79], 0, 79) };
    let record_length = record_length(random, body);
    let key = if LENGTHS.contains(&keys_hash.len()) { keys_hash.clone() } else { random.bytes(16) };
    let mut response = enciphered(&key, &response_text(random, &div_data, body, record_length));
    match random.below(12) {
        0 => random.flip(&mut response),
        1 => response.truncate(random.between(0, response.len())),
        2 => response.resize(random.edge(&[0, 16, 31, 32, 33, 96, 97, 112], 0, 112), 0x5a),
        _ => {}
    }
    let work = size(random, response.len());
    Line::Accept { of: Accepting { key_length, keys_hash, div_data, record_length }, work: random.bytes(work), response }
}
