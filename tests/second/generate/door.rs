//! Door numbers: conversions one way, and there and back.

use super::{Case, size};
use crate::door::{CONVERSIONS, Conversion, HYPHENS, convert};
use crate::fault::Fault;
use crate::line::Line;
use crate::random::Random;

/// 26 bits for facility and number, with the parities that document 02 wants, as a record.
fn wiegand(random: &mut Random) -> u32 {
    let data = match random.below(8) {
        0 => random.pick(&[0, 0x00ff_ffff, 0x0000_1000, 0x0000_0800, 0x0080_0000, 1]),
        1 => 1 << random.below(24),
        _ => random.next() as u32 & 0x00ff_ffff,
    };
    let even = (data >> 12).count_ones() % 2;
    let odd = 1 - (data & 0xfff).count_ones() % 2;
    even << 25 | data << 1 | odd
}

/// A few of the 26 bits turned; or, in a record, some bits above.
fn turned(random: &mut Random, number: u32, above: bool) -> u32 {
    let bit = |random: &mut Random| 1 << random.edge(&[0, 12, 13, 25], 0, 25);
    match random.below(10) {
        0..5 => number,
        5 => number ^ bit(random),
        6 => number ^ bit(random) ^ bit(random),
        7 | 8 if above => number | 1 << random.between(26, 31),
        9 if above => number ^ (random.next() as u32 & 0xfc00_0000) ^ bit(random),
        // The two parity bits, alone or with the bit next to each.
        7 => number ^ random.pick(&[1, 3, 1 << 25, 3 << 24]),
        8 => number ^ (1 << 25 | 1),
        _ => random.next() as u32 & 0x03ff_ffff,
    }
}

/// The text of the 26 bits.
fn binary(number: u32) -> Vec<u8> {
    (0..26).rev().map(|at| b'0' + (number >> at & 1) as u8).collect()
}

/// A UUID's text: small letters, capitals, or both.
fn uuid(random: &mut Random) -> Vec<u8> {
    let digits = random.pick(&[&b"0123456789abcdef"[..], b"0123456789ABCDEF", b"0123456789abcdefABCDEF", b"0123456789", b"fF", b"0"]);
    (0..36).map(|place| if HYPHENS.contains(&place) { b'-' } else { random.pick(digits) }).collect()
}

/// Characters next to those of a text, and others that a reader may take for them.
const NEAR: &[u8] = b"/:@G`g2.-_ \0\n\r+xXoOlI\xb0\xb1\xe1";

/// One bad character, sometimes more; a hyphen and the digit before or behind it in each other's place.
fn damaged(random: &mut Random, text: &mut [u8]) {
    let place = random.below(text.len());
    match random.below(14) {
        0..6 => text[place] = random.pick(NEAR),
        6 => text[place] = random.byte(),
        7 => (0..3).for_each(|_| text[random.below(text.len())] = random.pick(NEAR)),
        8..11 => text[random.pick(&HYPHENS)] = random.pick(b"0aF/.,"),
        11 | 12 => {
            let at = random.pick(&HYPHENS);
            text.swap(at, random.pick(&[at - 1, at + 1]));
        }
        _ => random.flip(text),
    }
}

/// What is to be converted: lawful, or damaged in its bits, its characters or its length.
fn given(random: &mut Random, of: Conversion, damage: bool) -> Vec<u8> {
    let number = wiegand(random);
    let bad = damage && of.takes_text() && random.percent(60);
    let mut given = match of {
        Conversion::WiegandRecord if damage => binary(turned(random, number, false)),
        Conversion::WiegandRecord => binary(number),
        Conversion::WiegandText if damage => turned(random, number, true).to_be_bytes().to_vec(),
        Conversion::WiegandText => number.to_be_bytes().to_vec(),
        Conversion::UuidRecord => uuid(random),
        Conversion::UuidText => random.bytes(16),
    };
    if bad {
        damaged(random, &mut given);
    }
    if damage && random.percent(12) {
        let right = given.len();
        given.resize(random.edge(&[0, 1, right - 1, right + 1, 2 * right, 32, 38, 45], 0, 60), b'0');
    }
    given
}

/// A conversion of anything.
fn any(random: &mut Random) -> Line {
    let of = random.pick(&CONVERSIONS);
    let damage = random.percent(80);
    let given = given(random, of, damage);
    let (_, least) = of.sizes();
    Line::Door { of, given, out: if random.percent(80) { least + random.below(4) } else { size(random, least) } }
}

/// There and back: what was given comes again, but for capitals.
fn round_trip(random: &mut Random) -> Case {
    let of = random.pick(&CONVERSIONS);
    let given = given(random, of, false);
    let (input, output) = of.sizes();
    let mut between = vec![0; output];
    let _ = convert(of, &given, &mut between, Fault::None);
    let promised = if of == Conversion::UuidRecord { given.to_ascii_lowercase() } else { given.clone() };
    let there = Line::Door { of, given, out: output + random.below(2) };
    let back = Line::Door { of: of.back(), given: between, out: input + random.below(2) };
    Case { lines: vec![there, back], promised: Some(promised), session: false }
}

pub fn case(random: &mut Random) -> Case {
    if random.percent(25) { round_trip(random) } else { Case { lines: vec![any(random)], promised: None, session: false } }
}
