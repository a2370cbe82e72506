//! Door numbers (T-05): Wiegand numbers and UUIDs, from text to record and back.

use crate::card::{Decline, decline_if};
use crate::fault::Fault;

#[derive(Clone, Copy, PartialEq)]
pub enum Conversion {
    WiegandRecord,
    WiegandText,
    UuidRecord,
    UuidText,
}

pub const CONVERSIONS: [Conversion; 4] =
    [Conversion::WiegandRecord, Conversion::WiegandText, Conversion::UuidRecord, Conversion::UuidText];

/// Where RFC 4122, section 3, has hyphens: behind time-low, time-mid, time-high-and-version and the two clock-seq bytes.
pub const HYPHENS: [usize; 4] = [8, 13, 18, 23];

impl Conversion {
    pub fn name(self) -> &'static str {
        match self {
            Conversion::WiegandRecord => "wiegand_record",
            Conversion::WiegandText => "wiegand_text",
            Conversion::UuidRecord => "uuid_record",
            Conversion::UuidText => "uuid_text",
        }
    }

    /// What it takes and what it gives, in the transcripts' words.
    pub fn words(self) -> (&'static str, &'static str) {
        if self.takes_text() { ("text", "record") } else { ("record", "text") }
    }

    pub fn takes_text(self) -> bool {
        matches!(self, Conversion::WiegandRecord | Conversion::UuidRecord)
    }

    /// The sizes of what it takes and of what it gives.
    pub fn sizes(self) -> (usize, usize) {
        match self {
            Conversion::WiegandRecord => (26, 4),
            Conversion::WiegandText => (4, 26),
            Conversion::UuidRecord => (36, 16),
            Conversion::UuidText => (16, 36),
        }
    }

    /// The way back.
    pub fn back(self) -> Conversion {
        match self {
            Conversion::WiegandRecord => Conversion::WiegandText,
            Conversion::WiegandText => Conversion::WiegandRecord,
            Conversion::UuidRecord => Conversion::UuidText,
            Conversion::UuidText => Conversion::UuidRecord,
        }
    }
}

/// 23: wrong length of input, or output too short.
fn sizes_fit(of: Conversion, given: usize, out: usize) -> Result<(), Decline> {
    let (input, output) = of.sizes();
    decline_if(given < input, 23, "input too short")?;
    decline_if(given > input, 23, "input too long")?;
    decline_if(out < output, 23, "output too short")
}

fn ones(bits: &[bool]) -> usize {
    bits.iter().filter(|bit| **bit).count()
}

/// 24: the even parity bit, 24 data bits, the odd parity bit. Bits above the 26 come in a record alone.
fn parity(bits: &[bool], above: bool, fault: Fault) -> Result<(), Decline> {
    let (mut even, mut odd) = (bits[0], bits[25]);
    if fault == Fault::ParityBitsSwapped {
        (even, odd) = (odd, even);
    }
    let first = if fault == Fault::ParityOver13 { &bits[1..14] } else { &bits[1..13] };
    let wanted = usize::from(fault == Fault::OddForEven);
    let even_wrong = (usize::from(even) + ones(first)) % 2 != wanted;
    let odd_wrong = (usize::from(odd) + ones(&bits[13..25])) % 2 != 1;
    let above = above && fault != Fault::BitAboveTaken;
    match (above, even_wrong, odd_wrong) {
        (false, false, false) => Ok(()),
        (true, false, false) => decline_if(true, 24, "a bit above alone"),
        (true, ..) => decline_if(true, 24, "a bit above and parity"),
        (false, true, false) => decline_if(true, 24, "even parity alone"),
        (false, false, true) => decline_if(true, 24, "odd parity alone"),
        (false, true, true) => decline_if(true, 24, "both parities"),
    }
}

/// The first place of a text with a bad character.
pub fn bad_place(of: Conversion, text: &[u8], fault: Fault) -> Option<usize> {
    let good = |(place, byte): (usize, &u8)| match of {
        Conversion::UuidRecord if HYPHENS.contains(&place) => *byte == b'-' || fault == Fault::HyphenNotLookedAt && place == 18,
        Conversion::UuidRecord => digit(*byte, fault).is_some(),
        _ => *byte == b'0' || *byte == b'1',
    };
    text.iter().enumerate().position(|character| !good(character))
}

fn digit(byte: u8, fault: Fault) -> Option<u8> {
    match byte {
        b'0'..=b'9' => Some(byte - b'0'),
        b'a'..=b'f' => Some(byte - b'a' + 10),
        b'A'..=b'F' if fault != Fault::CapitalsRefused => Some(byte - b'A' + 10),
        b'g' if fault == Fault::GIsADigit => Some(0),
        _ => None,
    }
}

fn wiegand_record(text: &[u8], fault: Fault) -> Result<(Vec<u8>, &'static str), Decline> {
    let bits: Vec<bool> = text.iter().map(|character| *character == b'1').collect();
    if fault == Fault::ParityBeforeCharacters {
        parity(&bits, false, fault)?;
    }
    decline_if(bad_place(Conversion::WiegandRecord, text, fault).is_some(), 25, "neither 0 nor 1")?;
    parity(&bits, false, fault)?;
    let number = bits.iter().fold(0u32, |number, bit| 2 * number + u32::from(*bit));
    let record = if fault == Fault::RecordLittleEndian { number.to_le_bytes() } else { number.to_be_bytes() };
    Ok((record.to_vec(), "converted"))
}

fn wiegand_text(record: &[u8], fault: Fault) -> Result<(Vec<u8>, &'static str), Decline> {
    let mut record = record.to_vec();
    if fault == Fault::RecordLittleEndian {
        record.reverse();
    }
    let bits: Vec<bool> = record.iter().flat_map(|byte| (0..8).rev().map(move |at| byte >> at & 1 == 1)).collect();
    let (above, bits) = bits.split_at(6);
    parity(bits, ones(above) > 0, fault)?;
    Ok((bits.iter().map(|bit| if *bit { b'1' } else { b'0' }).collect(), "converted"))
}

fn uuid_record(text: &[u8], fault: Fault) -> Result<(Vec<u8>, &'static str), Decline> {
    if let Some(place) = bad_place(Conversion::UuidRecord, text, fault) {
        let why = if HYPHENS.contains(&place) { "no hyphen first" } else { "no digit first" };
        return Err(Decline { number: 25, why });
    }
    let places = (0..36).filter(|place| !HYPHENS.contains(place));
    let digits: Vec<u8> = places.filter_map(|place| digit(text[place], fault)).collect();
    let record = digits.chunks(2).map(|pair| 16 * pair[0] + pair[1]).collect();
    let small = text.iter().any(u8::is_ascii_lowercase);
    let capitals = text.iter().any(u8::is_ascii_uppercase);
    let why = match (small, capitals) {
        (false, false) => "converted, no letter",
        (true, false) => "converted, small letters",
        (false, true) => "converted, capitals",
        (true, true) => "converted, letters of both cases",
    };
    Ok((record, why))
}

fn uuid_text(record: &[u8], fault: Fault) -> (Vec<u8>, &'static str) {
    let mut text = String::new();
    for (place, byte) in record.iter().enumerate() {
        if [4, 6, 8, 10].contains(&place) {
            text.push('-');
        }
        text += &format!("{byte:02x}");
    }
    if fault == Fault::CapitalsWritten {
        text.make_ascii_uppercase();
    }
    (text.into_bytes(), "converted")
}

fn converted(of: Conversion, given: &[u8], out: usize, fault: Fault) -> Result<(Vec<u8>, &'static str), Decline> {
    sizes_fit(of, given.len(), out)?;
    match of {
        Conversion::WiegandRecord => wiegand_record(given, fault),
        Conversion::WiegandText => wiegand_text(given, fault),
        Conversion::UuidRecord => uuid_record(given, fault),
        Conversion::UuidText => Ok(uuid_text(given, fault)),
    }
}

/// Success writes its result alone, and gives its length and what kind of success it was. A decline writes nothing.
pub fn convert(of: Conversion, given: &[u8], out: &mut [u8], fault: Fault) -> Result<(usize, &'static str), Decline> {
    let result = converted(of, given, out.len(), fault);
    if let (Fault::DeclineWrites, Err(Decline { number: 24 | 25, .. })) = (fault, &result) {
        out[0] = b'0';
    }
    let (bytes, why) = result?;
    out[..bytes.len()].copy_from_slice(&bytes);
    if fault == Fault::NulBehindText && !of.takes_text() {
        out.iter_mut().skip(bytes.len()).take(1).for_each(|byte| *byte = 0);
    }
    Ok((bytes.len(), why))
}
