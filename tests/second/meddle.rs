//! The second implementation with one thing changed in what it hands back or writes: the comparison has to see every one.

use crate::fault::Fault;
use crate::line::Line;
use crate::plaid::Tries;
use crate::side::Reply::{self, *};
use crate::side::{Second, Side};

type Change = fn(&mut Reply, &mut [u8]);

pub struct Meddled {
    second: Second,
    change: Change,
}

impl Meddled {
    pub fn new(change: Change) -> Meddled {
        Meddled { second: Second::new(Fault::None), change }
    }
}

impl Side for Meddled {
    fn run(&mut self, line: &Line, lent: &mut [u8]) -> Reply {
        let mut reply = self.second.run(line, lent);
        (self.change)(&mut reply, lent);
        reply
    }

    fn set_tries(&mut self, tries: Tries) {
        self.second.set_tries(tries);
    }
}

trait Meddle {
    fn meddle(&mut self);
}

impl Meddle for bool {
    fn meddle(&mut self) {
        *self = !*self;
    }
}

macro_rules! meddle_with_numbers {
    ($($number:ty)*) => { $(impl Meddle for $number { fn meddle(&mut self) { *self ^= 1; } })* };
}

meddle_with_numbers!(u8 u16 u32 usize);

/// A change of this field in replies of this kind, with its name.
macro_rules! change {
    ($kind:pat => $field:expr) => {
        (concat!(stringify!($kind), " ", stringify!($field)), |reply, _| {
            if let $kind = reply {
                $field.meddle();
            }
        })
    };
}

pub const CHANGES: [(&str, Change); 88] = [
    ("the first byte written", |_, lent| lent.iter_mut().take(1).for_each(Meddle::meddle)),
    ("the last byte lent", |_, lent| lent.iter_mut().rev().take(1).for_each(Meddle::meddle)),
    change!(Load { number, .. } => number),
    change!(Load { lists_kept, .. } => lists_kept),
    change!(Load { card, .. } | Call { card, .. } => card.0.sets[7].held),
    change!(Load { card, .. } | Call { card, .. } => card.0.sets[7].id),
    change!(Load { card, .. } | Call { card, .. } => card.0.sets[7].handle),
    change!(Load { card, .. } | Call { card, .. } => card.0.sets[7].fa_key[15]),
    change!(Load { card, .. } | Call { card, .. } => card.0.sets[7].fa_key[31]),
    change!(Load { card, .. } | Call { card, .. } => card.0.modes[15].held),
    change!(Load { card, .. } | Call { card, .. } => card.0.modes[15].id),
    change!(Load { card, .. } | Call { card, .. } => card.0.modes[15].start),
    change!(Load { card, .. } | Call { card, .. } => card.0.modes[15].len),
    change!(Load { card, .. } | Call { card, .. } => card.0.area[1023]),
    change!(Load { card, .. } | Call { card, .. } => card.0.div_data[15]),
    change!(Load { card, .. } | Call { card, .. } => card.0.shill_key[15]),
    change!(Load { card, .. } | Call { card, .. } => card.0.shill_key[31]),
    change!(Load { card, .. } | Call { card, .. } => card.0.shill_handle),
    change!(Load { card, .. } | Call { card, .. } => card.0.key_length),
    change!(Load { card, .. } | Call { card, .. } => card.0.reply_size),
    change!(Load { card, .. } | Call { card, .. } => card.0.session.opened),
    change!(Load { card, .. } | Call { card, .. } => card.0.session.id),
    change!(Load { card, .. } | Call { card, .. } => card.0.session.rnd1[15]),
    change!(Load { card, .. } | Call { card, .. } => card.0.session.rnd1[31]),
    change!(Load { card, .. } | Call { card, .. } => card.0.session.fa_key[15]),
    change!(Load { card, .. } | Call { card, .. } => card.0.session.fa_key[31]),
    change!(Load { card, .. } | Call { card, .. } => card.0.tries.contact),
    change!(Load { card, .. } | Call { card, .. } => card.0.tries.contactless),
    change!(Load { tries, .. } | Call { tries, .. } => tries.contact),
    change!(Load { tries, .. } | Call { tries, .. } => tries.contactless),
    change!(Call { card, .. } => card.0.session.rnd1[0]),
    change!(Call { card, .. } => card.0.session.fa_key[0]),
    change!(Call { card, .. } => card.0.area[0]),
    change!(Sets { number, .. } => number),
    change!(Sets { list_kept, .. } => list_kept),
    change!(Sets { card, .. } => card.0.sets[0].held),
    change!(Sets { card, .. } => card.0.sets[7].held),
    change!(Sets { card, .. } => card.0.sets[7].id),
    change!(Sets { card, .. } => card.0.sets[7].handle),
    change!(Sets { card, .. } => card.0.sets[7].fa_key[31]),
    change!(Sets { card, .. } => card.0.modes[15].held),
    change!(Sets { card, .. } => card.0.modes[0].id),
    change!(Sets { card, .. } => card.0.modes[0].start),
    change!(Sets { card, .. } => card.0.modes[0].len),
    change!(Sets { card, .. } => card.0.area[1023]),
    change!(Sets { card, .. } => card.0.div_data[15]),
    change!(Sets { card, .. } => card.0.shill_key[31]),
    change!(Sets { card, .. } => card.0.shill_handle),
    change!(Sets { card, .. } => card.0.key_length),
    change!(Sets { card, .. } => card.0.reply_size),
    change!(Sets { card, .. } => card.0.session.opened),
    change!(Sets { card, .. } => card.0.session.id),
    change!(Sets { card, .. } => card.0.session.rnd1[0]),
    change!(Sets { card, .. } => card.0.session.fa_key[31]),
    change!(Sets { card, .. } => card.0.tries.contact),
    change!(Sets { card, .. } => card.0.tries.contactless),
    change!(Sets { tries, .. } => tries.contact),
    change!(Sets { tries, .. } => tries.contactless),
    change!(Call { number, .. } => number),
    change!(Call { status, .. } => status),
    change!(Call { work, .. } => work.comparisons),
    change!(Call { work, .. } => work.decipherments),
    change!(Call { work, .. } => work.encipherments),
    change!(Call { work, .. } => work.expansions),
    change!(Call { work, .. } => work.hash_blocks),
    change!(Call { work, .. } => work.sum),
    change!(Call { length, .. } => length),
    change!(Call { handle, .. } => handle),
    change!(List { number, .. } => number),
    change!(List { length, .. } => length),
    change!(Open { number, .. } => number),
    change!(Open { place, .. } => place),
    change!(Open { id, .. } => id),
    change!(Open { div_data, .. } => div_data[15]),
    change!(Open { rnd1, .. } => rnd1.length),
    change!(Open { rnd1, .. } => rnd1.bytes[15]),
    change!(Open { rnd1, .. } => rnd1.bytes[31]),
    change!(Seal { number, .. } => number),
    change!(Seal { length, .. } => length),
    change!(Seal { keys_hash, .. } => keys_hash.length),
    change!(Seal { keys_hash, .. } => keys_hash.bytes[15]),
    change!(Seal { keys_hash, .. } => keys_hash.bytes[31]),
    change!(Accept { number, .. } => number),
    change!(Accept { length, .. } => length),
    change!(Accept { part, .. } => part.start),
    change!(Accept { part, .. } => part.end),
    change!(Door { number, .. } => number),
    change!(Door { length, .. } => length),
];
