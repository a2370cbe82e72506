//! The joint test's inputs, all fixed. Apart from the RSA keys each is a run of bytes that go up or down by one, or plain text.

use crate::aes::Block;
use crate::card::{Given, KeySet, Mode};

const KEYS: &str = include_str!("../joint-keys.txt");

/// L: that of every key, RND and KeysHash here.
pub const KEY_LENGTH: usize = 16;

/// The interface by which every command comes, contactless: it is on no wire, and no answer hangs on it.
pub const INTERFACE: usize = 1;

/// The card's platform names RSA keys by one byte. These two are on no wire.
const IA_HANDLE: u8 = 0x11;
const SHILL_HANDLE: u8 = 0x99;

/// The UUID that RFC 4122 has as its example, f81d4fae-7dec-11d0-a765-00a0c91e6bf6.
const UUID: Block = [0xf8, 0x1d, 0x4f, 0xae, 0x7d, 0xec, 0x11, 0xd0, 0xa7, 0x65, 0x00, 0xa0, 0xc9, 0x1e, 0x6b, 0xf6];

/// A Wiegand number of 26 bits in the low end of 4 bytes: even parity, facility 21, number 110, odd parity.
const WIEGAND: [u8; 4] = [0x02, 0x2a, 0x00, 0xdc];

pub struct Session {
    pub title: &'static str,
    pub list: Vec<u16>,
    /// The list as another maker's reader writes it, where the card gets it so.
    pub other: Option<Vec<u8>>,
    pub rnd1: Block,
    pub ps: Vec<u8>,
    pub mode: u16,
    pub payload: Vec<u8>,
    pub rnd2: Block,
}

/// What a stranger's commands meet: the random strings and PS of the card.
pub struct Stranger {
    pub list: Vec<u8>,
    pub malformed: Vec<u8>,
    pub random1: Vec<u8>,
    pub ps: Vec<u8>,
    pub data: Vec<u8>,
    pub random3: Vec<u8>,
}

pub struct Inputs {
    pub load: Given,
    pub keys: Vec<(String, Vec<u8>)>,
    pub sessions: [Session; 4],
    pub stranger: Stranger,
}

fn up(first: u8, count: u8) -> Vec<u8> {
    (0..count).map(|i| first + i).collect()
}

fn block(first: u8) -> Block {
    std::array::from_fn(|i| first + i as u8)
}

fn digits(text: &str) -> Vec<u8> {
    let value = |i| u8::from_str_radix(&text[i..i + 2], 16).unwrap();
    (0..text.len()).step_by(2).map(value).collect()
}

/// Name and value of each number of the two RSA keys.
fn keys() -> Vec<(String, Vec<u8>)> {
    let named = |line: &str| {
        let (name, value) = line.rsplit_once(' ').unwrap();
        (name.replace("ShillKey", "ShillKey (RSA)"), digits(value))
    };
    KEYS.lines().filter(|line| !line.starts_with('#')).map(named).collect()
}

fn load() -> Given {
    let role = b"ROLE=protection engineer";
    Given {
        key_length: KEY_LENGTH,
        sets: vec![
            KeySet { id: 1, handle: IA_HANDLE, fa_key: block(0xa0).to_vec() },
            KeySet { id: 4, handle: IA_HANDLE, fa_key: block(0xb0).to_vec() },
        ],
        modes: vec![
            Mode { id: 2, start: 0, len: WIEGAND.len() },
            Mode { id: 1, start: 4, len: UUID.len() },
            Mode { id: 3, start: 20, len: role.len() },
        ],
        area: [&WIEGAND[..], &UUID, role].concat(),
        div_data: block(0x10),
        shill_key: block(0xc0).to_vec(),
        shill_handle: SHILL_HANDLE,
    }
}

impl Inputs {
    pub fn new() -> Inputs {
        let uuid = Session {
            title: "A UUID of 16 bytes, no Payload.",
            list: vec![1],
            other: None,
            rnd1: block(0x30),
            ps: up(0x01, 203),
            mode: 1,
            payload: Vec::new(),
            rnd2: block(0x40),
        };
        let payload = Session {
            title: "A Payload that makes STR2 whole blocks; of three sets the second wins.",
            list: vec![2, 4, 1],
            other: None,
            rnd1: block(0x50),
            ps: up(0x35, 203).into_iter().rev().collect(),
            mode: 3,
            payload: b"FEEDER 21A/110".to_vec(),
            rnd2: block(0x60),
        };
        let wiegand = Session {
            title: "A Wiegand number of 4 bytes: 12 zero bytes follow it.",
            list: vec![4],
            other: None,
            rnd1: block(0x20),
            ps: up(0x1b, 203),
            mode: 2,
            payload: Vec::new(),
            rnd2: block(0xe0),
        };
        let other = Session {
            title: "A list as another maker's reader writes it.",
            list: vec![3, 1],
            other: Some(vec![0x30, 0x80, 0x04, 0x82, 0, 2, 0, 3, 0x04, 0x81, 2, 0, 1, 0, 0]),
            rnd1: block(0x90),
            ps: up(0x28, 203),
            mode: 1,
            payload: Vec::new(),
            rnd2: block(0xf0),
        };
        let stranger = Stranger {
            list: vec![0x30, 4, 0x04, 2, 0, 5],
            malformed: vec![0x31, 4, 0x04, 2, 0, 1],
            random1: up(0x70, 50),
            ps: up(0x35, 203),
            data: up(0x80, 48),
            random3: up(0xd0, 48),
        };
        Inputs { load: load(), keys: keys(), sessions: [uuid, payload, wiegand, other], stranger }
    }

    /// A number of an RSA key.
    pub fn key(&self, name: &str) -> &[u8] {
        &self.keys.iter().find(|(found, _)| found == name).unwrap().1
    }
}
