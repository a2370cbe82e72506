//! The reader of document 01, with T-01: Accept gets the record's length; and T-04: Open, Seal and Accept get the key length L.

use crate::aes::{self, Block};
use crate::card::{Decline, broken, decline_if, has_repeated};
use crate::fault::Fault;
use crate::keys;
use crate::padding;
use crate::sha256;

/// A command: CLA 00, INS, P1 P2 0000, Lc, the data, Le 00.
pub fn framed(ins: u8, data: &[u8]) -> Vec<u8> {
    [&[0, ins, 0, 0, data.len() as u8], data, &[0]].concat()
}

/// SEQUENCE OF OCTET STRING of size 2, short forms only.
pub fn id_list(ids: &[u16]) -> Vec<u8> {
    let entries = ids.iter().flat_map(|id| [0x04, 2, id.to_be_bytes()[0], id.to_be_bytes()[1]]);
    [0x30, 4 * ids.len() as u8].into_iter().chain(entries).collect()
}

fn count_fault(ids: &[u16], number: u8) -> Result<(), Decline> {
    decline_if(ids.is_empty(), number, "no KeySetID")?;
    decline_if(ids.len() > 16, number, "over 16 KeySetIDs")
}

pub fn list(ids: &[u16], out: &mut [u8]) -> Result<usize, Decline> {
    count_fault(ids, 11)?;
    decline_if(has_repeated(ids.iter()), 12, "repeated KeySetID")?;
    let command = framed(0x87, &id_list(ids));
    decline_if(out.len() < command.len(), 13, "output too short")?;
    out[..command.len()].copy_from_slice(&command);
    Ok(command.len())
}

#[derive(Default)]
pub struct Opened {
    pub place: usize,
    pub id: u16,
    pub div_data: Block,
    pub rnd1: Vec<u8>,
}

/// 00 02, the nonzero pad bytes, 00, and as many bytes as STR1 has, whose KeySetID is that entry's and whose RND1 copies agree.
fn opens(length: usize, place: usize, id: u16, block: &[u8; 256]) -> Option<Opened> {
    let (pad, rest) = block[2..].split_at(keys::pads(length));
    let (zero, last) = rest.split_at(1);
    let (rnd1, copy) = last[18..].split_at(length);
    let framed = block[..2] == [0, 2] && !pad.contains(&0) && zero == [0];
    if !framed || last[..2] != id.to_be_bytes() || rnd1 != copy {
        return None;
    }
    Some(Opened { place, id, div_data: last[2..18].try_into().unwrap(), rnd1: rnd1.to_vec() })
}

/// Every block is examined; the first to open wins.
pub fn open(length: usize, ids: &[u16], blocks: &[u8]) -> Result<Opened, Decline> {
    keys::known(length)?;
    count_fault(ids, 14)?;
    decline_if(blocks.len() != 256 * ids.len(), 14, "a total that is not 256k")?;
    let pairs = ids.iter().zip(blocks.as_chunks().0).enumerate();
    let examined: Vec<_> = pairs.map(|(place, (id, block))| opens(length, place, *id, block)).collect();
    examined.into_iter().flatten().next().ok_or(Decline { number: 15, why: "no block opens" })
}

/// What Seal takes beside the payload.
#[derive(Clone, PartialEq)]
pub struct Sealing {
    pub key_length: usize,
    pub fa_key: Vec<u8>,
    pub div_data: Block,
    pub rnd1: Vec<u8>,
    pub rnd2: Vec<u8>,
    pub mode: u16,
}

pub fn keys_hash(of: &Sealing, fault: Fault) -> Vec<u8> {
    keys::cut(&sha256::hash(&[&of.rnd1[..], &of.rnd2].concat()), of.key_length, fault)
}

/// OpModeID, RND2, payload, KeysHash.
pub fn str2(of: &Sealing, payload: &[u8], fault: Fault) -> Vec<u8> {
    [&of.mode.to_be_bytes()[..], &of.rnd2, payload, &keys_hash(of, fault)].concat()
}

pub fn enciphered(key: &[u8], text: &[u8]) -> Vec<u8> {
    let keys = aes::expand(key);
    aes::cbc_encipher([0; 16], text, |block| aes::encipher(&keys, block))
}

/// A final command with this text, whole blocks, under the diversified key.
pub fn final_data(of: &Sealing, text: &[u8], fault: Fault) -> Vec<u8> {
    let keys = aes::expand(&of.fa_key);
    enciphered(&keys::diversified(of.key_length, &of.div_data, fault, |block| aes::encipher(&keys, block)), text)
}

pub fn seal(of: &Sealing, payload: &[u8], out: &mut [u8], fault: Fault) -> Result<(usize, Vec<u8>), Decline> {
    keys::known(of.key_length)?;
    keys::fits(&of.fa_key, of.key_length, "FAKey not of L bytes", "FAKey over 32 bytes")?;
    keys::fits(&of.rnd1, of.key_length, "RND1 not of L bytes", "RND1 over 32 bytes")?;
    keys::fits(&of.rnd2, of.key_length, "RND2 not of L bytes", "RND2 over 32 bytes")?;
    decline_if(payload.len() > keys::most_payload(of.key_length), 16, "payload too long")?;
    let text = padding::padded(&str2(of, payload, fault), fault);
    decline_if(out.len() < text.len() + 6, 17, "output below Lc + 6")?;
    let command = framed(0x86, &final_data(of, &text, fault));
    out[..command.len()].copy_from_slice(&command);
    Ok((command.len(), keys_hash(of, fault)))
}

/// What Accept takes beside the response.
#[derive(Clone, PartialEq)]
pub struct Accepting {
    pub key_length: usize,
    pub keys_hash: Vec<u8>,
    pub div_data: Block,
    pub record_length: usize,
}

/// Deciphers into the work buffer. Gives the length of the record, the buffer's first bytes; and for the statistics what stands behind it.
pub fn accept(of: &Accepting, response: &[u8], work: &mut [u8], fault: Fault) -> Result<(usize, &'static str), Decline> {
    keys::known(of.key_length)?;
    keys::fits(&of.keys_hash, of.key_length, "KeysHash not of L bytes", "KeysHash over 32 bytes")?;
    decline_if(![32, 48, 64, 80, 96].contains(&response.len()), 18, "length not 32, 48, 64, 80 or 96")?;
    decline_if(work.len() < response.len(), 19, "work buffer shorter than the response")?;
    let keys = aes::expand(&of.keys_hash);
    let text = aes::cbc_decipher([0; 16], response, |block| aes::decipher(&keys, block));
    let body = authenticated(&text, of, fault).map_err(|why| Decline { number: 20, why });
    let result = body.map(|body| (if fault == Fault::WholeBodyReturned { body } else { of.record_length }, behind(&text[..body], of)));
    let shown = if result.is_ok() { text } else { vec![0; response.len()] };
    work[..response.len()].copy_from_slice(&shown);
    result
}

/// The length of the body, or why there is none. The last 16 unpadded bytes must be DivData, and 1 to 64 bytes must stand before them, no
/// fewer than the record has. Where one rule alone is broken, it is named; no record length fits an empty body.
fn authenticated(text: &[u8], of: &Accepting, fault: Fault) -> Result<usize, &'static str> {
    let length = padding::unpadded_length(text).ok_or("padding")?;
    let body = length.checked_sub(16).ok_or("no room for DivData")?;
    let zero_taken = fault == Fault::LengthZeroAccepted;
    let least = of.record_length.saturating_sub(usize::from(fault == Fault::ShorterBodyAccepted));
    let rules = [
        (body > 0, "body empty alone"),
        (body <= 64, "body over 64 alone"),
        (text[body..length] == of.div_data[..], "DivData alone"),
        (of.record_length > 0 || body == 0 || zero_taken, "record length 0 alone"),
        (body >= least || body == 0, "body shorter than the record alone"),
    ];
    broken(&rules, "several").map_or(Ok(body), Err)
}

/// What stands in the body behind the record; nobody looks at it.
fn behind(body: &[u8], of: &Accepting) -> &'static str {
    match body.get(of.record_length..) {
        None | Some([]) => "accepted, record alone",
        Some(filler) if filler.iter().all(|b| *b == 0) => "accepted, zero bytes behind the record",
        Some(_) => "accepted, other bytes behind the record",
    }
}
