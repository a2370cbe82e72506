//! T-04: what depends on the key length L.

use crate::aes::Block;
use crate::card::{Decline, decline_if};
use crate::fault::Fault;

pub const LENGTHS: [usize; 3] = [16, 24, 32];

/// STR1: KeySetID, DivData, RND1 and RND1 again. F has as many bytes.
pub fn str1(length: usize) -> usize {
    18 + 2 * length
}

/// The pad bytes: the other fresh ones.
pub fn pads(length: usize) -> usize {
    253 - str1(length)
}

/// The shortest text: OpModeID, RND2 and KeysHash.
pub fn least_text(length: usize) -> usize {
    2 + 2 * length
}

/// The longest payload: the text and one byte of padding fill 240.
pub fn most_payload(length: usize) -> usize {
    239 - least_text(length)
}

pub fn known(length: usize) -> Result<(), Decline> {
    decline_if(!LENGTHS.contains(&length), 21, "L none of the three")
}

/// Declines a value that is not of L bytes. It is also named where it has more than any key.
pub fn fits(value: &[u8], length: usize, name: &'static str, over_32: &'static str) -> Result<(), Decline> {
    decline_if(value.len() != length, 22, if value.len() > 32 { over_32 } else { name })
}

/// The first L bytes of one enciphered block, or of two.
pub fn diversified(length: usize, div_data: &Block, fault: Fault, mut encipher: impl FnMut(&Block) -> Block) -> Vec<u8> {
    let mut key = encipher(div_data).to_vec();
    if length > 16 {
        let mut flipped = *div_data;
        flipped[0] ^= match fault {
            Fault::NoBitFlipped => 0,
            Fault::LowestBitFlipped => 1,
            _ => 0x80,
        };
        key.extend(encipher(&flipped));
    }
    key.truncate(length);
    key
}

/// KeysHash: the first L bytes of the hash.
pub fn cut(hash: &[u8; 32], length: usize, fault: Fault) -> Vec<u8> {
    let shorter = fault == Fault::KeysHashOf16 && length == 32;
    hash[..if shorter { 16 } else { length }].to_vec()
}
