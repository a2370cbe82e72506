//! Whole sessions: load, List, initial command, Open, Seal, final command, Accept; and loads of key sets among them. The platform's RSA is
//! played by handing the card's block to the entry whose set made it, and other bytes to the others.

use super::{Case, UNKNOWN_INTERFACES, command, distinct_ids, follow, id, key_length, load, reader};
use crate::card::{self, Card, Mode, filled};
use crate::fault::Fault;
use crate::keys::most_payload;
use crate::line::Line;
use crate::random::Random;
use crate::reader::{Accepting, Sealing, framed, id_list, open, seal};

struct Play<'a> {
    random: &'a mut Random,
    card: Card,
    lines: Vec<Line>,
    /// Whether the conditions of the session promise still hold.
    promised: bool,
}

pub fn any(random: &mut Random) -> Case {
    let given = load::good(random);
    let lines = vec![Line::Load(given.clone())];
    let Ok(card) = card::load(&given, Fault::None) else { return Case { lines, promised: None, session: true } };
    let mut play = Play { random, card, lines, promised: true };
    let record = play.run();
    Case { promised: record.filter(|_| play.promised), lines: play.lines, session: true }
}

impl Play<'_> {
    /// The record that the chosen mode names, if the session gets to its end.
    fn run(&mut self) -> Option<Vec<u8>> {
        let ids = self.listed();
        self.lines.push(Line::List { out: 4 * ids.len() + 8 + self.random.below(3), ids: ids.clone() });
        self.load_sets();
        let block = self.command(framed(0x87, &id_list(&ids)));
        let held = self.card.given.sets.clone();
        self.load_sets();
        let winner = ids.iter().position(|id| self.card.session.as_ref().is_some_and(|s| s.id == *id));
        let blocks = self.decrypted(&ids, winner, &block);
        let key_length = self.key_length(self.card.given.key_length);
        self.lines.push(Line::Open { key_length, ids: ids.clone(), blocks: blocks.clone() });
        let opened = open(key_length, &ids, &blocks).ok()?;
        let set = held.iter().find(|s| s.id == opened.id);
        let fa_key = set.map_or(vec![0; key_length], |s| s.fa_key.clone());
        self.disturb();
        let (rnd2, mode) = (self.random.bytes(key_length), id(self.random));
        self.finish(Sealing { key_length, fa_key, div_data: opened.div_data, rnd1: opened.rnd1, rnd2, mode })
    }

    /// The reader's key length: mostly this one, as the promise needs it.
    fn key_length(&mut self, right: usize) -> usize {
        let given = if self.random.percent(96) { right } else { key_length(self.random) };
        self.promised &= given == right;
        given
    }

    /// Makes values that the reader has fit its key length, or leaves them as they are.
    fn fit(&mut self, values: &mut [&mut Vec<u8>], key_length: usize) {
        if self.random.percent(60) {
            values.iter_mut().for_each(|value| value.resize(key_length.min(40), 0));
        }
    }

    /// KeySetIDs of which the card mostly holds one.
    fn listed(&mut self) -> Vec<u16> {
        let count = self.random.edge(&[1, 2, 16], 1, 16);
        let mut ids = distinct_ids(self.random, count);
        let held = self.random.pick(&self.card.given.sets).id;
        if self.random.percent(80) && !ids.contains(&held) {
            ids[self.random.below(count)] = held;
        }
        ids
    }

    /// Hands the card a command by either interface and gives its answer. An unknown interface ends the promise.
    fn command(&mut self, command: Vec<u8>) -> Vec<u8> {
        let fresh = command::good_fresh(self.random, self.card.given.key_length);
        let unknown = self.random.percent(3);
        self.promised &= !unknown;
        let interface = if unknown { self.random.pick(&UNKNOWN_INTERFACES) } else { self.random.below(2) };
        let call = Line::Call { interface, command, fresh, out: 256 + self.random.below(3) };
        let answer = follow(&mut self.card, &call);
        self.lines.push(call);
        answer
    }

    /// A decrypted block for each entry: the card's own for the winner; for the others random bytes or a stranger's block, which
    /// now and then opens before the winner's and ends the promise.
    fn decrypted(&mut self, ids: &[u16], winner: Option<usize>, block: &[u8]) -> Vec<u8> {
        let mut blocks = Vec::new();
        for (place, entry) in ids.iter().enumerate() {
            let length = self.card.given.key_length;
            match self.random.below(40) {
                _ if winner == Some(place) => blocks.extend(block),
                0 => {
                    self.promised &= winner.is_some_and(|w| w < place);
                    blocks.extend(reader::card_block(self.random, length, *entry));
                }
                1..8 => blocks.extend(reader::card_block(self.random, length, entry.wrapping_add(1))),
                _ => blocks.extend(self.random.bytes(256)),
            }
        }
        blocks
    }

    /// Sometimes key sets are loaded. That is no command, and the promise means the table at the initial command.
    fn load_sets(&mut self) {
        while self.random.percent(12) {
            let line = load::onto(self.random, &self.card);
            follow(&mut self.card, &line);
            self.lines.push(line);
        }
    }

    /// Sometimes the card gets another command in between.
    fn disturb(&mut self) {
        if self.random.percent(8) {
            self.promised = false;
            let call = command::call(self.random, &self.card, &self.lines);
            follow(&mut self.card, &call);
            self.lines.push(call);
        }
    }

    fn finish(&mut self, mut of: Sealing) -> Option<Vec<u8>> {
        let mode = self.random.pick(&self.card.given.modes);
        of.mode = if self.random.percent(92) { mode.id } else { id(self.random) };
        let mode = self.card.given.modes.iter().find(|m| m.id == of.mode).copied();
        if self.random.percent(5) {
            self.promised = false;
            self.random.flip(&mut of.fa_key);
        }
        of.key_length = self.key_length(of.key_length);
        self.fit(&mut [&mut of.fa_key, &mut of.rnd1, &mut of.rnd2], of.key_length);
        let mut payload = reader::payload(self.random, self.card.given.key_length);
        payload.truncate(most_payload(self.card.given.key_length));
        let mut out = vec![0; 246];
        let sealed = seal(&of, &payload, &mut out, Fault::None).ok();
        let room = sealed.as_ref().map_or(246, |(length, _)| length + self.random.below(3));
        self.lines.push(Line::Seal { of: of.clone(), payload, out: room });
        let (length, mut keys_hash) = sealed?;
        self.load_sets();
        let mut response = self.command(out[..length].to_vec());
        if self.random.percent(4) {
            self.promised = false;
            self.random.flip(&mut response);
        }
        let work = self.random.bytes(response.len());
        let record_length = self.record_length(mode);
        let key_length = self.key_length(of.key_length);
        self.fit(&mut [&mut keys_hash], key_length);
        let of = Accepting { key_length, keys_hash, div_data: of.div_data, record_length };
        self.lines.push(Line::Accept { of, response, work });
        mode.map(|m| self.card.given.area[m.start..m.start + m.len].to_vec())
    }

    /// Mostly the mode's, as the promise needs it.
    fn record_length(&mut self, mode: Option<Mode>) -> usize {
        let right = mode.map_or(1, |m| m.len);
        if self.random.percent(85) {
            return right;
        }
        let given = reader::record_length(self.random, right.max(filled(self.card.reply_size)));
        self.promised &= given == right;
        given
    }
}
