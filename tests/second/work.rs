//! The steps of one command call: document 01's counts and work sum.

use crate::aes::{self, Block, RoundKeys};
use crate::sha256;

#[derive(Clone, Copy, Default, PartialEq)]
pub struct Work {
    pub comparisons: usize,
    pub decipherments: usize,
    pub encipherments: usize,
    pub expansions: usize,
    pub hash_blocks: usize,
    pub sum: u32,
}

impl Work {
    /// Takes the step's kind, key, input and output, in this order, into the sum.
    fn add(&mut self, kind: u8, parts: &[&[u8]]) {
        let bytes = [kind].into_iter().chain(parts.iter().flat_map(|part| part.iter().copied()));
        self.sum = bytes.fold(self.sum, |s, b| s.wrapping_mul(257).wrapping_add(u32::from(b)).wrapping_add(1));
    }

    /// A missing place or an empty slot has no bytes and never matches.
    pub fn compare(&mut self, value: Option<u16>, slot: Option<u16>) -> bool {
        let matched = value.is_some() && value == slot;
        self.comparisons += 1;
        let [value, slot] = [value, slot].map(|id| id.map(u16::to_be_bytes));
        self.add(1, &[value.as_slice().as_flattened(), slot.as_slice().as_flattened(), &[u8::from(matched)]]);
        matched
    }

    pub fn decipher(&mut self, key: &[u8], keys: &[Block], input: &Block) -> Block {
        let output = aes::decipher(keys, input);
        self.decipherments += 1;
        self.add(2, &[key, input, &output]);
        output
    }

    pub fn encipher(&mut self, key: &[u8], keys: &[Block], input: &Block) -> Block {
        let output = aes::encipher(keys, input);
        self.encipherments += 1;
        self.add(3, &[key, input, &output]);
        output
    }

    pub fn expand(&mut self, key: &[u8]) -> RoundKeys {
        let keys = aes::expand(key);
        self.expansions += 1;
        self.add(4, &[key, keys.as_flattened()]);
        keys
    }

    /// The hash of a message; each of its blocks is a step.
    pub fn hash(&mut self, message: &[u8]) -> [u8; 32] {
        let text = sha256::padded(message);
        for end in (64..=text.len()).step_by(64) {
            self.hash_blocks += 1;
            self.add(5, &[&text[end - 64..end], &sha256::hash_blocks(&text[..end])]);
        }
        sha256::hash_blocks(&text)
    }
}
