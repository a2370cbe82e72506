//! Writes the joint test, docs/JOINT-TEST.txt, to standard output: four sessions and what a stranger gets, all inputs fixed, every value
//! under the standard's name for it. The values are made by the standard's formulas, step by step; each message then has to be the one
//! that the second implementation's card or reader makes. Needs rustc alone: `rustc --edition 2024 -O tests/second/joint.rs`.

mod aes;
#[path = "joint/agreed.rs"]
mod agreed;
// Counts, work sum and traps are no part of the joint test.
#[allow(dead_code)]
mod card;
#[allow(dead_code)]
mod fault;
#[path = "joint/inputs.rs"]
mod inputs;
// The joint test has keys of 16 bytes.
#[allow(dead_code)]
mod keys;
mod padding;
#[path = "joint/page.rs"]
mod page;
mod reader;
mod rsa;
#[path = "joint/session.rs"]
mod session;
mod sha256;
#[path = "joint/stranger.rs"]
mod stranger;
mod work;

use agreed::Agreed;
use inputs::Inputs;
use page::Page;

const HEAD: &str = "\
# PLAID (ISO/IEC 25185-1:2016): a joint test for two makers
#
# Four sessions between a reader and a card, and what a stranger gets from the
# card. Give your card or reader the inputs; every other value has to come out.
# Written by a program that follows documents 01 and 02 (tests/second/joint.rs);
# no value comes from ISO, whose vectors (annex A) are in a file not at hand.
#
# A line 'NAME: n bytes' is followed by the bytes, hexadecimal, 32 to a row; an
# empty value is '-'. Names are those of the standard's clauses 4 to 6; n, e, d,
# p, q, dP, dQ, qInv, PS and EM are RFC 3447's. || joins. eSTR1 is the name that
# the standard writes with the e raised.
#
# Where the standard is open, this is what the test takes:
#   - a command is CLA INS P1 P2 Lc data Le, with Le 00
#   - the reader writes its list with lengths of the short form alone. The card
#     takes every definite length that fits, 81 to FE with leading zero bytes
#     too, but not the first byte FF; and 80, the indefinite form, for the
#     SEQUENCE, not for an entry
#   - padding method 2 is always added, also to a text of whole blocks
#   - STR3 padded has B blocks for every ACSRecord of a card, as many as the
#     longest needs. The Payload of STR3 is zero bytes that bring ACSRecord to
#     16(B - 2) bytes, none where it has as many
#   - the reader knows by OpModeID how long ACSRecord is, and takes no more
#   - IV is 16 zero bytes, for each message anew
#   - the random string of a refused answer is as long as what it stands for:
#     STR1, or STR3 padded; the second is enciphered without padding";

fn load(page: &mut Page, inputs: &Inputs) {
    page.section("load", "The card holds two key sets, both with one IAKey (6.4 d), and three modes.");
    for (place, set) in inputs.load.sets.iter().enumerate() {
        page.input(&format!("KeySetID of set {}", place + 1), &set.id.to_be_bytes());
        page.input(&format!("FAKey of set {}", place + 1), &set.fa_key);
    }
    for (place, mode) in inputs.load.modes.iter().enumerate() {
        page.input(&format!("OpModeID of mode {}", place + 1), &mode.id.to_be_bytes());
        page.input(&format!("ACSRecord of mode {}", place + 1), &inputs.load.area[mode.start..][..mode.len]);
    }
    page.input("DivData", &inputs.load.div_data);
    page.note("Card: n and e. Reader: n and d, or p to qInv. By ShillKey nobody decrypts.");
    for (name, value) in &inputs.keys {
        page.input(name, value);
    }
    page.input("ShillKey (AES)", &inputs.load.shill_key);
}

fn main() {
    let inputs = Inputs::new();
    let mut agreed = Agreed::new(&inputs.load);
    let mut page = Page::new(HEAD);
    load(&mut page, &inputs);
    for of in &inputs.sessions {
        session::write(&mut page, &inputs, of, &mut agreed);
    }
    stranger::write(&mut page, &inputs, &mut agreed);
    print!("{}", page.text());
}
