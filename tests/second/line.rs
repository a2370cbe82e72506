//! A call with all its arguments: one line of a transcript.

use crate::aes::Block;
use crate::card::{Given, KeySet, Mode};
use crate::door::Conversion;
use crate::reader::{Accepting, Sealing};

#[derive(Clone, PartialEq)]
pub enum Line {
    /// Starts a new card.
    Load(Given),
    /// Key sets onto the card as the line before left it.
    Sets(Vec<KeySet>),
    /// A command, by an interface, to the card as the line before left it.
    Call { interface: usize, command: Vec<u8>, fresh: Vec<u8>, out: usize },
    List { ids: Vec<u16>, out: usize },
    Open { key_length: usize, ids: Vec<u16>, blocks: Vec<u8> },
    Seal { of: Sealing, payload: Vec<u8>, out: usize },
    Accept { of: Accepting, response: Vec<u8>, work: Vec<u8> },
    /// A text or a record to be converted.
    Door { of: Conversion, given: Vec<u8>, out: usize },
}

/// One argument of a line, by the way in which it can be made simpler.
pub enum Field<'a> {
    Bytes(&'a mut Vec<u8>),
    Command(&'a mut Vec<u8>),
    Fresh(&'a mut Vec<u8>),
    Text(&'a mut Vec<u8>),
    Block(&'a mut Block),
    Ids(&'a mut Vec<u16>),
    Sets(&'a mut Vec<KeySet>),
    Modes(&'a mut Vec<Mode>),
    Size(&'a mut usize),
    Id(&'a mut u16),
    Handle(&'a mut u8),
}

impl Line {
    pub fn fields(&mut self) -> Vec<Field<'_>> {
        use Field::*;
        match self {
            Line::Load(Given { key_length, sets, modes, area, div_data, shill_key, shill_handle }) => {
                let lists = [Sets(sets), Modes(modes), Bytes(area)];
                let rest = [Size(key_length), Block(div_data), Bytes(shill_key), Handle(shill_handle)];
                lists.into_iter().chain(rest).collect()
            }
            Line::Sets(sets) => vec![Sets(sets)],
            Line::Call { interface, command, fresh, out } => vec![Size(interface), Command(command), Fresh(fresh), Size(out)],
            Line::List { ids, out } => vec![Ids(ids), Size(out)],
            Line::Open { key_length, ids, blocks } => vec![Ids(ids), Bytes(blocks), Size(key_length)],
            Line::Seal { of: Sealing { key_length, fa_key, div_data, rnd1, rnd2, mode }, payload, out } => {
                vec![Bytes(payload), Size(key_length), Bytes(fa_key), Block(div_data), Bytes(rnd1), Bytes(rnd2), Id(mode), Size(out)]
            }
            Line::Accept { of: Accepting { key_length, keys_hash, div_data, record_length }, response, work } => {
                vec![Bytes(response), Size(key_length), Bytes(keys_hash), Block(div_data), Size(record_length), Bytes(work)]
            }
            Line::Door { of, given, out } => vec![if of.takes_text() { Text(given) } else { Bytes(given) }, Size(out)],
        }
    }

    /// What a load of a card is given.
    pub fn given(&mut self) -> Option<&mut Given> {
        if let Line::Load(given) = self { Some(given) } else { None }
    }

    /// L, where a line has it.
    pub fn key_length(&self) -> Option<usize> {
        match self {
            Line::Load(Given { key_length, .. }) | Line::Open { key_length, .. } => Some(*key_length),
            Line::Seal { of: Sealing { key_length, .. }, .. } | Line::Accept { of: Accepting { key_length, .. }, .. } => Some(*key_length),
            Line::Sets(_) | Line::Call { .. } | Line::List { .. } | Line::Door { .. } => None,
        }
    }

    /// The size of the buffer lent for writing.
    pub fn lent(&self) -> usize {
        match self {
            Line::Load(_) | Line::Sets(_) | Line::Open { .. } => 0,
            Line::Call { out, .. } | Line::List { out, .. } | Line::Seal { out, .. } | Line::Door { out, .. } => *out,
            Line::Accept { work, .. } => work.len(),
        }
    }
}
