//! Loads, right and wrong: of a card, and of key sets onto one.

use super::{MOST_SETS, distinct_ids, id, key_length, off_value};
use crate::card::{Card, Given, KeySet, Mode};
use crate::keys::LENGTHS;
use crate::line::Line;
use crate::random::Random;

/// A load that is accepted.
pub fn good(random: &mut Random) -> Given {
    let (key_length, shill_handle) = (random.pick(&LENGTHS), random.byte());
    let set_count = random.edge(&[1, 2, 8], 1, 8);
    let mode_count = random.edge(&[1, 2, 16], 1, 16);
    let sets = sets(random, set_count, key_length, shill_handle);
    let lengths = lengths(random, mode_count);
    let longest = lengths.iter().copied().max().unwrap_or(0);
    let area = random.edge(&[longest, 1023, 1024], longest, 300);
    let modes = distinct_ids(random, mode_count).into_iter().zip(lengths);
    let modes = modes.map(|(id, len)| Mode { id, start: random.edge(&[0, area - len], 0, area - len), len }).collect();
    let (div_data, shill_key) = (random.block(), random.bytes(key_length));
    Given { key_length, sets, modes, area: random.bytes(area), div_data, shill_key, shill_handle }
}

/// So many records' lengths. One of them, at any place, needs the chosen B, which is 2 to 6 alike: from 1 to 15 bytes, from 16 to 31, and so
/// on; 64 alone. The others need the same B, or any up to it.
fn lengths(random: &mut Random, count: usize) -> Vec<usize> {
    let (least, longest) = random.pick(&[(1, 15), (16, 31), (32, 47), (48, 63), (64, 64)]);
    let from = random.pick(&[least, 1, 1]);
    let edges = [1, 4, 15, 16, 17, 31, 32, 47, 48, 63, longest].into_iter().filter(|edge| (from..=longest).contains(edge));
    let edges: Vec<usize> = edges.collect();
    let mut lengths: Vec<usize> = (0..count).map(|_| random.edge(&edges, from, longest)).collect();
    lengths[random.edge(&[0, count - 1], 0, count - 1)] = random.edge(&[least, longest], least, longest);
    lengths
}

/// So many key sets, none with the shill handle.
fn sets(random: &mut Random, count: usize, key_length: usize, shill_handle: u8) -> Vec<KeySet> {
    let ids = distinct_ids(random, count).into_iter();
    let handle = |random: &mut Random| shill_handle.wrapping_add(random.between(1, 255) as u8);
    ids.map(|id| KeySet { id, handle: handle(random), fa_key: random.bytes(key_length.min(255)) }).collect()
}

/// A load that may be wrong in one way or in several.
pub fn any(random: &mut Random) -> Given {
    let mut given = good(random);
    for _ in 0..random.pick(&[0, 1, 1, 1, 1, 2, 3]) {
        match random.below(12) {
            0 => {
                let count = random.edge(&[0, 8, 9], 0, 20);
                given.sets = sets(random, count, given.key_length, given.shill_handle);
            }
            1 => repeat(random, &mut given.sets, |to, from| to.id = from.id),
            2 => repeat(random, &mut given.sets, |to, from| to.handle = from.handle),
            3 => change(random, &mut given.sets, |_, set| set.handle = given.shill_handle),
            4 => mode_count(random, &mut given.modes),
            5 => repeat(random, &mut given.modes, |to, from| to.id = from.id),
            6 => change(random, &mut given.modes, |random, mode| mode.len = random.edge(&[0, 1, 15, 16, 63, 64, 65, usize::MAX], 0, 70)),
            7 => {
                let area = random.edge(&[0, 1, 1024, 1025], 0, 1030);
                given.area = random.bytes(area);
            }
            8 => given.key_length = key_length(random),
            9 => change(random, &mut given.sets, |random, set| set.fa_key = off_value(random, given.key_length)),
            10 => given.shill_key = off_value(random, given.key_length),
            _ => change(random, &mut given.modes, |random, mode| mode.start = outer_start(random, given.area.len(), mode.len)),
        }
    }
    given
}

/// Key sets for a card as it is: its own with some changes, or others. Some lists are wrong in one way or in several.
pub fn onto(random: &mut Random, card: &Card) -> Line {
    let (length, shill_handle) = (card.given.key_length, card.given.shill_handle);
    let count = random.edge(&[1, 2, 8], 1, 8);
    let mut list = if random.percent(80) { changed(random, card) } else { sets(random, count, length, shill_handle) };
    let faults = random.pick(&[0, 0, 0, 0, 1, 1, 2, 3]);
    if faults > 0 && random.percent(30) {
        let count = random.edge(&[0, 9, 9], 0, MOST_SETS);
        list = sets(random, count, length, shill_handle);
    }
    for _ in 0..faults {
        match random.below(4) {
            0 => change(random, &mut list, |random, set| set.fa_key = off_value(random, length)),
            1 => repeat(random, &mut list, |to, from| to.id = from.id),
            2 => change(random, &mut list, |_, set| set.handle = shill_handle),
            _ => {}
        }
    }
    Line::Sets(list)
}

/// The card's own key sets after a few changes, the most of them to the set of an open session.
fn changed(random: &mut Random, card: &Card) -> Vec<KeySet> {
    let mut list = card.given.sets.clone();
    for _ in 0..random.pick(&[0, 1, 1, 2, 3]) {
        let own = list.iter().position(|set| card.session.as_ref().is_some_and(|s| s.id == set.id));
        let any = random.below(list.len());
        let at = own.filter(|_| random.percent(70)).unwrap_or(any);
        match random.below(8) {
            0 if list.len() > 1 => drop(list.remove(at)),
            1..4 => list[at].fa_key = random.bytes(card.given.key_length),
            4 => list[at].id = new_id(random, &list),
            5 => list[at].handle = list[any].handle,
            6 => list.swap(at, any),
            _ if list.len() < 8 => {
                let id = new_id(random, &list);
                list.insert(any, KeySet { id, ..list[at].clone() });
            }
            _ => list.reverse(),
        }
    }
    list
}

/// A KeySetID that none of these sets has.
fn new_id(random: &mut Random, list: &[KeySet]) -> u16 {
    let next = id(random);
    if list.iter().any(|set| set.id == next) { new_id(random, list) } else { next }
}

/// Any number of modes, each with the record of the first.
fn mode_count(random: &mut Random, modes: &mut Vec<Mode>) {
    let count = random.edge(&[0, 16, 17], 0, 20);
    let (start, len) = modes.first().map_or((0, 1), |m| (m.start, m.len));
    *modes = distinct_ids(random, count).into_iter().map(|id| Mode { id, start, len }).collect();
}

/// A start about the last possible one, or one whose end is beyond all numbers.
fn outer_start(random: &mut Random, area: usize, len: usize) -> usize {
    let last = area.wrapping_sub(len);
    let end = usize::MAX - len;
    random.pick(&[last, last.wrapping_add(1), area, area + 1, end, end.wrapping_add(1), usize::MAX, usize::MAX - 1])
}

fn change<T>(random: &mut Random, items: &mut [T], how: impl Fn(&mut Random, &mut T)) {
    if !items.is_empty() {
        let at = random.below(items.len());
        how(random, &mut items[at]);
    }
}

/// Makes one item like another in one respect; it may meet itself.
fn repeat<T: Clone>(random: &mut Random, items: &mut [T], alike: impl Fn(&mut T, &T)) {
    if !items.is_empty() {
        let from = random.pick(items);
        change(random, items, |_, to| alike(to, &from));
    }
}
