//! The library's structs and functions, declared again for Rust. Nothing checks these declarations against the Rattle source but the runs.

use std::ops::Range;

/// A key, RND or KeysHash with the length that it says it has; it holds no more than 32 bytes.
#[repr(C)]
#[derive(Clone, Copy, Default, PartialEq)]
pub struct Value {
    pub length: u8,
    pub bytes: [u8; 32],
}

impl Value {
    /// At most 255 bytes, of which the first 32 are held; zeros stand behind them.
    pub fn of(bytes: &[u8]) -> Value {
        let mut value = Value { length: bytes.len().min(255) as u8, ..Value::default() };
        value.bytes.iter_mut().zip(bytes).for_each(|(to, from)| *to = *from);
        value
    }

    pub fn held(&self) -> &[u8] {
        &self.bytes[..usize::from(self.length).min(32)]
    }
}

#[repr(C)]
#[derive(Clone, Copy, PartialEq)]
pub struct KeySet {
    pub id: u16,
    pub handle: u8,
    pub fa_key: Value,
}

#[repr(C)]
#[derive(Clone, Copy, PartialEq)]
pub struct Mode {
    pub id: u16,
    pub start: usize,
    pub len: usize,
}

#[repr(C)]
#[derive(Clone, Copy)]
pub struct KeySetSlot {
    pub held: bool,
    pub id: u16,
    pub handle: u8,
    pub fa_key: [u8; 32],
}

#[repr(C)]
#[derive(Clone, Copy)]
pub struct ModeSlot {
    pub held: bool,
    pub id: u16,
    pub start: usize,
    pub len: usize,
}

#[repr(C)]
#[derive(Clone, Copy)]
pub struct Session {
    pub opened: bool,
    pub id: u16,
    pub rnd1: [u8; 32],
    pub fa_key: [u8; 32],
}

/// The refused final commands on each interface.
#[repr(C)]
#[derive(Clone, Copy, PartialEq)]
pub struct Tries {
    pub contact: u16,
    pub contactless: u16,
}

#[repr(C)]
#[derive(Clone, Copy)]
pub struct Card {
    pub sets: [KeySetSlot; 8],
    pub modes: [ModeSlot; 16],
    pub area: [u8; 1024],
    pub div_data: [u8; 16],
    pub shill_key: [u8; 32],
    pub shill_handle: u8,
    pub key_length: usize,
    pub reply_size: usize,
    pub session: Session,
    pub tries: Tries,
}

impl Card {
    /// The session's KeySetID, RND1 and FAKey, if one is open.
    pub fn open_session(&self) -> Option<(u16, &[u8], &[u8])> {
        let (length, Session { opened, id, rnd1, fa_key }) = (self.key_length.min(32), &self.session);
        if *opened { Some((*id, &rnd1[..length], &fa_key[..length])) } else { None }
    }
}

#[repr(C)]
#[derive(Clone, Copy)]
pub struct Answer {
    pub number: u8,
    pub status: u16,
    pub comparisons: usize,
    pub decipherments: usize,
    pub encipherments: usize,
    pub expansions: usize,
    pub hash_blocks: usize,
    pub length: usize,
    pub handle: u8,
}

#[repr(C)]
#[derive(Clone, Copy)]
pub struct Outcome {
    pub answer: Answer,
    pub sum: u32,
    pub card: Card,
}

#[repr(C)]
#[derive(Clone, Copy)]
pub struct Given {
    pub key_length: usize,
    pub modes: [Mode; 16],
    pub mode_count: usize,
    pub div_data: [u8; 16],
    pub shill_key: Value,
    pub shill_handle: u8,
}

#[repr(C)]
#[derive(Clone, Copy)]
pub struct Loaded {
    pub number: u8,
    pub card: Card,
}

#[repr(C)]
#[derive(Clone, Copy)]
pub struct Ids {
    pub ids: [u16; 16],
    pub count: usize,
}

#[repr(C)]
#[derive(Clone, Copy)]
pub struct Written {
    pub number: u8,
    pub length: usize,
}

#[repr(C)]
#[derive(Clone, Copy)]
pub struct Opened {
    pub number: u8,
    pub place: usize,
    pub id: u16,
    pub div_data: [u8; 16],
    pub rnd1: Value,
}

#[repr(C)]
#[derive(Clone, Copy)]
pub struct Sealing {
    pub key_length: usize,
    pub fa_key: Value,
    pub div_data: [u8; 16],
    pub rnd1: Value,
    pub rnd2: Value,
    pub mode: u16,
}

#[repr(C)]
#[derive(Clone, Copy)]
pub struct Sealed {
    pub number: u8,
    pub length: usize,
    pub keys_hash: Value,
}

#[repr(C)]
#[derive(Clone, Copy)]
pub struct Accepting {
    pub key_length: usize,
    pub keys_hash: Value,
    pub div_data: [u8; 16],
    pub record_length: usize,
}

#[repr(C)]
#[derive(Clone, Copy)]
pub struct Accepted {
    pub number: u8,
    pub length: usize,
}

#[repr(C)]
#[derive(Clone, Copy)]
pub struct Part {
    pub start: usize,
    pub length: usize,
}

#[repr(C)]
#[derive(Clone, Copy)]
pub struct Converted {
    pub number: u8,
    pub length: usize,
}

#[link(name = "plaid", kind = "static")]
unsafe extern "C" {
    fn plaid_load(sets: *const KeySet, set_count: usize, given: Given, area: *const u8, area_len: usize) -> Loaded;
    fn plaid_load_sets(sets: *const KeySet, set_count: usize, card: Card) -> Loaded;
    fn plaid_command(
        card: Card,
        interface: usize,
        command: *const u8,
        command_len: usize,
        fresh: *const u8,
        fresh_len: usize,
        out: *mut u8,
        out_len: usize,
    ) -> Outcome;
    fn plaid_read_tries(card: Card) -> Tries;
    fn plaid_list(of: Ids, out: *mut u8, out_len: usize) -> Written;
    fn plaid_open(key_length: usize, of: Ids, blocks: *const u8, blocks_len: usize) -> Opened;
    fn plaid_seal(of: Sealing, payload: *const u8, payload_len: usize, out: *mut u8, out_len: usize) -> Sealed;
    fn plaid_accept(of: Accepting, response: *const u8, response_len: usize, work: *mut u8, work_len: usize) -> Accepted;
    fn plaid_record(work: *const u8, work_len: usize, of: Accepted) -> Part;
    fn plaid_wiegand_record(text: *const u8, text_len: usize, out: *mut u8, out_len: usize) -> Converted;
    fn plaid_wiegand_text(record: *const u8, record_len: usize, out: *mut u8, out_len: usize) -> Converted;
    fn plaid_uuid_record(text: *const u8, text_len: usize, out: *mut u8, out_len: usize) -> Converted;
    fn plaid_uuid_text(record: *const u8, record_len: usize, out: *mut u8, out_len: usize) -> Converted;
}

/// What a load gives beside its lists, with no mode yet.
pub fn given(key_length: usize, div_data: [u8; 16], shill_key: Value, shill_handle: u8) -> Given {
    Given { key_length, modes: [Mode { id: 0, start: 0, len: 0 }; 16], mode_count: 0, div_data, shill_key, shill_handle }
}

/// A load of any number of key sets and modes: of the modes the library looks at the count and at no more than the first sixteen.
pub fn run_load(sets: &[KeySet], modes: &[Mode], area: &[u8], mut given: Given) -> Loaded {
    given.mode_count = modes.len();
    for (to, from) in given.modes.iter_mut().zip(modes) {
        *to = *from;
    }
    unsafe { plaid_load(sets.as_ptr(), sets.len(), given, area.as_ptr(), area.len()) }
}

/// A load of any number of key sets onto a card.
pub fn run_load_sets(sets: &[KeySet], card: Card) -> Loaded {
    unsafe { plaid_load_sets(sets.as_ptr(), sets.len(), card) }
}

/// A command by this interface, whatever number it is.
pub fn run_command(card: Card, interface: usize, command: &[u8], fresh: &[u8], out: &mut [u8]) -> Outcome {
    let (to, room) = (out.as_mut_ptr(), out.len());
    unsafe { plaid_command(card, interface, command.as_ptr(), command.len(), fresh.as_ptr(), fresh.len(), to, room) }
}

pub fn run_read_tries(card: Card) -> Tries {
    unsafe { plaid_read_tries(card) }
}

/// Any number of KeySetIDs: the library looks at the count, and at no more than the first sixteen.
fn ids_of(list: &[u16]) -> Ids {
    let mut ids = [0; 16];
    for (to, from) in ids.iter_mut().zip(list) {
        *to = *from;
    }
    Ids { ids, count: list.len() }
}

pub fn run_list(list: &[u16], out: &mut [u8]) -> Written {
    unsafe { plaid_list(ids_of(list), out.as_mut_ptr(), out.len()) }
}

pub fn run_open(key_length: usize, list: &[u16], blocks: &[u8]) -> Opened {
    unsafe { plaid_open(key_length, ids_of(list), blocks.as_ptr(), blocks.len()) }
}

pub fn run_seal(of: Sealing, payload: &[u8], out: &mut [u8]) -> Sealed {
    unsafe { plaid_seal(of, payload.as_ptr(), payload.len(), out.as_mut_ptr(), out.len()) }
}

pub fn run_accept(of: Accepting, response: &[u8], work: &mut [u8]) -> Accepted {
    unsafe { plaid_accept(of, response.as_ptr(), response.len(), work.as_mut_ptr(), work.len()) }
}

/// Where in the work buffer the record stands.
pub fn run_record(work: &[u8], of: Accepted) -> Range<usize> {
    let Part { start, length } = unsafe { plaid_record(work.as_ptr(), work.len(), of) };
    start..start.saturating_add(length)
}

pub fn run_wiegand_record(text: &[u8], out: &mut [u8]) -> Converted {
    unsafe { plaid_wiegand_record(text.as_ptr(), text.len(), out.as_mut_ptr(), out.len()) }
}

pub fn run_wiegand_text(record: &[u8], out: &mut [u8]) -> Converted {
    unsafe { plaid_wiegand_text(record.as_ptr(), record.len(), out.as_mut_ptr(), out.len()) }
}

pub fn run_uuid_record(text: &[u8], out: &mut [u8]) -> Converted {
    unsafe { plaid_uuid_record(text.as_ptr(), text.len(), out.as_mut_ptr(), out.len()) }
}

pub fn run_uuid_text(record: &[u8], out: &mut [u8]) -> Converted {
    unsafe { plaid_uuid_text(record.as_ptr(), record.len(), out.as_mut_ptr(), out.len()) }
}
