//! What loads of key sets (T-07) meet in a list, and what meets them there, for the statistics: found from the lines and the cards that these
//! hand back.

use std::cmp::Ordering;

use crate::card::{KeySet, listed_ids, set_faults};
use crate::fault::Fault;
use crate::line::Line;
use crate::plaid::{Card, Session};
use crate::side::Reply;

/// A kind of outcome, and what it was.
type Outcome = (String, &'static str);

#[derive(Default)]
pub struct Loads {
    /// The card as the line before left it.
    card: Option<Card>,
    /// KeySetID and FAKey of every set of the tables before this one.
    earlier: Vec<(u16, [u8; 32])>,
    /// Whether a load was taken, or refused, since the last initial command.
    taken: bool,
    refused: bool,
}

impl Loads {
    /// The outcomes of a line, which a rule of this name decided.
    pub fn outcomes(&mut self, line: &Line, reply: &Reply, why: &str) -> Vec<Outcome> {
        let Some(after) = reply.card().map(|card| card.0) else { return Vec::new() };
        match (line, reply, self.card.replace(after)) {
            (Line::Load(_), ..) => {
                *self = Loads { card: Some(after), ..Loads::default() };
                Vec::new()
            }
            (Line::Sets(sets), Reply::Sets { number, .. }, Some(before)) => vec![self.loaded(sets, *number, &before)],
            (Line::Call { command, .. }, _, Some(_)) if why.starts_with("initial") => self.initial(command, &after),
            (Line::Call { .. }, _, Some(before)) if why.starts_with("final") => self.ended(&before, why).into_iter().collect(),
            _ => Vec::new(),
        }
    }

    fn loaded(&mut self, sets: &[KeySet], number: u8, before: &Card) -> Outcome {
        (self.taken, self.refused) = (self.taken || number == 0, self.refused || number != 0);
        if number != 0 {
            return (format!("sets {number}"), beside(sets, before));
        }
        let old = before.sets.iter().filter(|slot| slot.held);
        self.earlier.extend(old.clone().map(|slot| (slot.id, slot.fa_key)));
        let table = match sets.len().cmp(&old.count()) {
            Ordering::Less => "a shorter table",
            Ordering::Equal => "a table as long",
            Ordering::Greater => "a longer table",
        };
        ("sets 0".to_string(), table)
    }

    /// Whether an earlier table had the set that opened a session, and whether a set was listed that is gone.
    fn initial(&mut self, command: &[u8], after: &Card) -> Vec<Outcome> {
        (self.taken, self.refused) = (false, false);
        let listed = listed_ids(&command[5..command.len() - 1], Fault::None).unwrap_or_default();
        let had = |id| self.earlier.iter().any(|(earlier, _)| *earlier == id);
        let Session { opened, id, fa_key, .. } = after.session;
        let which = match (self.earlier.is_empty(), had(id), self.earlier.contains(&(id, fa_key))) {
            (true, ..) => None,
            (_, false, _) => Some("a new set"),
            (_, _, false) => Some("an old set with another key"),
            _ => Some("an old set"),
        };
        let gone = listed.into_iter().any(|id| had(id) && held(after, id).is_none());
        let kind = if opened { "initial accepted after loads" } else { "initial refused after loads" };
        let which = which.filter(|_| opened).into_iter().chain(gone.then_some("a set that is gone"));
        which.map(|which| (kind.to_string(), which)).collect()
    }

    /// A final command in a session in which there were loads: what they did to its set.
    fn ended(&self, before: &Card, why: &str) -> Option<Outcome> {
        let Session { opened, id, fa_key, .. } = before.session;
        let verdict = if why.starts_with("final accepted") { "accepted" } else { "refused" };
        let set = match held(before, id) {
            _ if !self.taken => "loads refused",
            None => "its set gone",
            Some(key) if key != fa_key => "its set with another key",
            Some(_) => "its set held",
        };
        (opened && (self.taken || self.refused)).then(|| (format!("final {verdict} after loads"), set))
    }
}

/// The FAKey of this set, where the card holds it.
fn held(card: &Card, id: u16) -> Option<[u8; 32]> {
    card.sets.iter().find(|slot| slot.held && slot.id == id).map(|slot| slot.fa_key)
}

/// The fault that comes next in the order written, behind the one that was given.
fn beside(sets: &[KeySet], card: &Card) -> &'static str {
    match set_faults(sets, card.key_length, card.shill_handle, Ok(())).get(1).map(|next| next.number) {
        None => "alone",
        Some(22) => "and 22",
        Some(2) => "and 2",
        Some(_) => "and 3",
    }
}
