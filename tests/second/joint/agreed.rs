//! The second implementation's card and reader, which have to make the very messages that the formulas gave. Any difference ends the program.

use crate::aes::Block;
use crate::card::{self, Card, Given};
use crate::fault::Fault;
use crate::inputs::{INTERFACE, KEY_LENGTH};
use crate::reader::{self, Accepting, Sealing};

pub struct Agreed(Card);

impl Agreed {
    pub fn new(load: &Given) -> Agreed {
        match card::load(load, Fault::None) {
            Ok(card) => Agreed(card),
            Err(decline) => panic!("the load is declined: {}", decline.why),
        }
    }

    /// The card's answer to a command, before RSA, and the handle of the RSA key. The fresh bytes begin with `random` and end with PS.
    pub fn answers(&mut self, command: &[u8], random: &[u8], ps: &[u8], want: &[u8], handle: u8) {
        let mut fresh = vec![0xee; 253];
        fresh[..random.len()].copy_from_slice(random);
        fresh[253 - ps.len()..].copy_from_slice(ps);
        let mut out = [0; 256];
        let answer = card::command(&mut self.0, INTERFACE, command, &fresh, &mut out, Fault::None);
        let given = (answer.number, answer.status, answer.handle);
        assert!(given == (0, 0x9000, handle) && out[..answer.length] == *want, "the card's answer: {}", answer.why);
    }

    pub fn lists(ids: &[u16], want: &[u8]) {
        let mut out = [0; 72];
        let length = reader::list(ids, &mut out).map_or(0, |length| length);
        assert!(out[..length] == *want, "List");
    }

    /// One decrypted block for each entry, in order.
    pub fn opens(ids: &[u16], blocks: &[u8], id: u16, div_data: &Block, rnd1: &Block) {
        let opened = reader::open(KEY_LENGTH, ids, blocks).unwrap_or_default();
        assert!((opened.id, opened.div_data, &opened.rnd1[..]) == (id, *div_data, &rnd1[..]), "Open");
        assert!(ids[opened.place] == id, "Open's place");
    }

    pub fn seals(of: &Sealing, payload: &[u8], hash: &Block, want: &[u8]) {
        let mut out = [0; 246];
        let sealed = reader::seal(of, payload, &mut out, Fault::None).unwrap_or_default();
        assert!(sealed == (want.len(), hash.to_vec()) && out[..want.len()] == *want, "Seal");
    }

    pub fn accepts(of: &Accepting, response: &[u8], record: &[u8]) {
        let mut work = [0; 96];
        let length = reader::accept(of, response, &mut work, Fault::None).map_or(0, |(length, _)| length);
        assert!(length > 0 && work[..length] == *record, "Accept");
    }
}
