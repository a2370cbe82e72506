//! The card of document 01, with T-01: records of several lengths on one card; T-02: lists with every length of BER but FF; T-04: keys of
//! 16, 24 or 32 bytes; T-06: refused final commands counted for each interface; and T-07: key sets loaded onto a card.

use crate::aes::{self, Block};
use crate::fault::Fault;
use crate::keys;
use crate::padding;
use crate::work::Work;

#[derive(Clone, PartialEq)]
pub struct KeySet {
    pub id: u16,
    pub handle: u8,
    pub fa_key: Vec<u8>,
}

#[derive(Clone, Copy, PartialEq)]
pub struct Mode {
    pub id: u16,
    pub start: usize,
    pub len: usize,
}

/// What a load gives. The key length is L.
#[derive(Clone, PartialEq)]
pub struct Given {
    pub key_length: usize,
    pub sets: Vec<KeySet>,
    pub modes: Vec<Mode>,
    pub area: Vec<u8>,
    pub div_data: Block,
    pub shill_key: Vec<u8>,
    pub shill_handle: u8,
}

#[derive(Clone, PartialEq)]
pub struct Session {
    pub id: u16,
    pub rnd1: Vec<u8>,
    pub fa_key: Vec<u8>,
}

/// Beside what its loads gave, and B, a card keeps only its session and its tries. Slots behind the given sets and modes are empty.
#[derive(Clone, PartialEq)]
pub struct Card {
    pub given: Given,
    pub reply_size: usize,
    pub session: Option<Session>,
    /// The refused final commands on each interface: contact (0), contactless (1).
    pub tries: [u16; 2],
}

/// A decline's number, and the part of document 01's sentence that applied.
#[derive(Clone, Copy)]
pub struct Decline {
    pub number: u8,
    pub why: &'static str,
}

/// `Err` with this number and reason if the sentence applies.
pub fn decline_if(applies: bool, number: u8, why: &'static str) -> Result<(), Decline> {
    if applies { Err(Decline { number, why }) } else { Ok(()) }
}

pub fn has_repeated<T: PartialEq>(mut items: impl Iterator<Item = T> + Clone) -> bool {
    std::iter::from_fn(|| items.next().map(|item| items.clone().any(|other| other == item))).any(|repeated| repeated)
}

/// The blocks that a record needs: floor((record length + 16)/16) + 1.
pub fn reply_size(record: usize) -> usize {
    (record + 16) / 16 + 1
}

/// B: the largest that any record needs.
fn largest_reply(modes: &[Mode], fault: Fault) -> usize {
    let mut needed = modes.iter().map(|m| reply_size(m.len));
    let b = match fault {
        Fault::FirstModeGivesB => needed.next(),
        Fault::LastModeGivesB => needed.last(),
        _ => needed.max(),
    };
    b.unwrap_or(0)
}

/// Where the last filler byte ends: 16(B - 2).
pub fn filled(reply_size: usize) -> usize {
    16 * (reply_size - 2)
}

fn shill_key_fits(given: &Given, fault: Fault) -> Result<(), Decline> {
    if fault == Fault::ShillKeyNotLookedAt {
        return Ok(());
    }
    keys::fits(&given.shill_key, given.key_length, "shill key not of L bytes", "shill key over 32 bytes")
}

fn few_enough(sets: &[KeySet]) -> Result<(), Decline> {
    decline_if(sets.is_empty(), 1, "no key set")?;
    decline_if(sets.len() > 8, 1, "over 8 key sets")
}

/// Every FAKey of the list, then the other key that may be given with it.
fn keys_fit(sets: &[KeySet], key_length: usize, other: Result<(), Decline>) -> Result<(), Decline> {
    for set in sets {
        keys::fits(&set.fa_key, key_length, "a FAKey not of L bytes", "a FAKey over 32 bytes")?;
    }
    other
}

/// Every fault of key sets for a card with this L and shill handle, one for each number.
pub fn set_faults(sets: &[KeySet], key_length: usize, shill_handle: u8, other: Result<(), Decline>) -> Vec<Decline> {
    let checks = [
        few_enough(sets),
        keys_fit(sets, key_length, other),
        decline_if(has_repeated(sets.iter().map(|s| s.id)), 2, "repeated KeySetID"),
        decline_if(sets.iter().any(|s| s.handle == shill_handle), 3, "a set with the shill handle"),
    ];
    checks.into_iter().filter_map(Result::err).collect()
}

/// `Err` with the fault whose number comes first in this order.
fn first_fault(faults: &[Decline], order: &[u8]) -> Result<(), Decline> {
    let first = order.iter().find_map(|number| faults.iter().find(|fault| fault.number == *number));
    first.map_or(Ok(()), |fault| Err(*fault))
}

/// The order of the key set checks.
const SET_CHECKS: &[u8] = &[1, 22, 2, 3];

pub fn load(given: &Given, fault: Fault) -> Result<Card, Decline> {
    keys::known(given.key_length)?;
    let faults = set_faults(&given.sets, given.key_length, given.shill_handle, shill_key_fits(given, fault));
    first_fault(&faults, if fault == Fault::KeysBeforeCount { &[22, 1, 2, 3] } else { SET_CHECKS })?;
    decline_if(given.modes.is_empty(), 4, "no mode")?;
    decline_if(given.modes.len() > 16, 4, "over 16 modes")?;
    decline_if(has_repeated(given.modes.iter().map(|m| m.id)), 5, "repeated OpModeID")?;
    decline_if(given.area.len() > 1024, 6, "area over 1,024")?;
    decline_if(given.modes.iter().any(|m| m.len == 0), 6, "a record empty")?;
    decline_if(given.modes.iter().any(|m| m.len > 64), 6, "a record over 64")?;
    let inside = |m: &Mode| m.start.checked_add(m.len).is_some_and(|end| end <= given.area.len());
    decline_if(!given.modes.iter().all(inside), 6, "a record outside the area")?;
    Ok(Card { given: given.clone(), reply_size: largest_reply(&given.modes, fault), session: None, tries: [0, 0] })
}

/// A load of key sets onto a card: its table changes, and nothing else. A refused one keeps the old table.
pub fn load_sets(card: &mut Card, sets: &[KeySet], fault: Fault) -> Result<(), Decline> {
    let key_length = if fault == Fault::NewKeysOf16 { 16 } else { card.given.key_length };
    let shill_handle = if fault == Fault::NewHandlesNot0 { 0 } else { card.given.shill_handle };
    let checked = first_fault(&set_faults(sets, key_length, shill_handle, Ok(())), later_checks(fault));
    let old = card.given.sets.clone();
    if checked.is_ok() {
        card.given.sets = sets.to_vec();
    }
    load_mistake(card, &old, sets, checked.is_ok(), fault);
    checked
}

/// The checks of such a load: a first one's.
fn later_checks(fault: Fault) -> &'static [u8] {
    match fault {
        Fault::NewKeysBeforeCount => &[22, 1, 2, 3],
        Fault::RepeatedBeforeNewKeys => &[1, 2, 22, 3],
        Fault::HandleBeforeNewKeys => &[1, 3, 22, 2],
        Fault::HandleBeforeRepeated => &[1, 22, 3, 2],
        Fault::NewCountNotLookedAt => &[22, 2, 3],
        Fault::NewKeysNotLookedAt => &[1, 2, 3],
        Fault::RepeatedNotLookedAt => &[1, 22, 3],
        Fault::NewHandlesNotLookedAt => &[1, 22, 2],
        _ => SET_CHECKS,
    }
}

/// What a load of key sets may wrongly do besides.
fn load_mistake(card: &mut Card, old: &[KeySet], new: &[KeySet], taken: bool, fault: Fault) {
    let held = |id| new.iter().find(|set| set.id == id);
    match (fault, taken, &mut card.session) {
        (Fault::LoadEndsSession, true, session) | (Fault::RefusedLoadEndsSession, false, session) => *session = None,
        (Fault::DroppedSetEndsSession, true, session) => *session = session.take().filter(|s| held(s.id).is_some()),
        (Fault::SessionGetsNewKey, true, Some(s)) => s.fa_key = held(s.id).map_or(s.fa_key.clone(), |set| set.fa_key.clone()),
        (Fault::OldSetsStay, true, _) => card.given.sets.extend(old.iter().skip(new.len()).cloned()),
        (Fault::OtherSetsStay, true, _) => card.given.sets.extend(old.iter().filter(|set| held(set.id).is_none()).cloned()),
        (Fault::NewSetsBehindOld, true, _) => card.given.sets = [old, new].concat(),
        (Fault::RefusedLoadLeavesFirst, false, _) => card.given.sets.iter_mut().zip(new).take(1).for_each(|(to, from)| *to = from.clone()),
        (Fault::RefusedLoadEmpties, false, _) => card.given.sets.clear(),
        (Fault::LoadClearsTries, true, _) => card.tries = [0, 0],
        (Fault::RefusedLoadCounted, false, _) => count_try(card, 0, fault),
        _ => {}
    }
}

/// A command call's answer. `why` says for the statistics which rule decided; it is no part of the answer.
pub struct Answer {
    pub number: u8,
    pub status: u16,
    pub work: Work,
    pub length: usize,
    pub handle: u8,
    pub why: &'static str,
}

impl Answer {
    fn declined(number: u8, status: u16, why: &'static str) -> Answer {
        Answer { number, status, work: Work::default(), length: 0, handle: 0, why }
    }

    fn given(bytes: &[u8], out: &mut [u8], handle: u8, work: Work, why: &'static str) -> Answer {
        out[..bytes.len()].copy_from_slice(bytes);
        Answer { number: 0, status: 0x9000, work, length: bytes.len(), handle, why }
    }
}

/// A command that comes by this interface.
pub fn command(card: &mut Card, interface: usize, command: &[u8], fresh: &[u8], out: &mut [u8], fault: Fault) -> Answer {
    let interface = taken_interface(interface, fault);
    if let Some(answer) = declined(card, interface, command, fresh, out.len(), fault) {
        if fault == Fault::DeclinedCounted && command.get(1) == Some(&0x86) {
            count_try(card, interface, fault);
        }
        if fault == Fault::UnknownInterfaceEndsSession && answer.number == 26 {
            card.session = None;
        }
        return answer;
    }
    let data = &command[5..command.len() - 1];
    if command[1] == 0x87 {
        initial(card, interface, data, fresh, out, fault)
    } else {
        final_command(card, interface, data, fresh, out, fault)
    }
}

/// The counts of both interfaces. The card stays as it is.
pub fn read_tries(card: &Card) -> [u16; 2] {
    card.tries
}

/// The interface as it was named.
fn taken_interface(named: usize, fault: Fault) -> usize {
    match fault {
        Fault::InterfaceModulo256 => named % (1 << 8),
        Fault::InterfaceModulo2To32 => named % (1 << 32),
        Fault::OtherIsContactless => named.min(1),
        _ => named,
    }
}

/// The first decline in the order written: 26, then 8, 9 and 10, then a fault of the frame.
fn declined(card: &Card, interface: usize, command: &[u8], fresh: &[u8], out: usize, fault: Fault) -> Option<Answer> {
    let lent = lent_fault(card.given.key_length, fresh, out, fault).err();
    let frame = frame_fault(command);
    let sooner = match fault {
        Fault::FreshBeforeInterface => lent.is_some_and(|decline| decline.number == 8),
        Fault::FrameBeforeInterface => frame.is_some(),
        _ => false,
    };
    if interface > 1 && !sooner {
        return Some(Answer::declined(26, 0, beside_26(lent, frame.is_some())));
    }
    let lent = lent.map(|decline| Answer::declined(decline.number, 0, decline.why));
    lent.or_else(|| frame.map(|(status, why)| Answer::declined(0, status, why)))
}

/// What would be declined besides, for the statistics.
fn beside_26(lent: Option<Decline>, frame: bool) -> &'static str {
    match (lent.map_or(0, |decline| decline.number), frame) {
        (8, _) => "unknown interface, and 8",
        (9, _) => "unknown interface, and 9",
        (10, _) => "unknown interface, and 10",
        (_, true) => "unknown interface, and a fault of the frame",
        _ => "unknown interface alone",
    }
}

/// One more refused final command on this interface.
fn count_try(card: &mut Card, interface: usize, fault: Fault) {
    let full = card.tries.contains(&u16::MAX);
    for (of, count) in card.tries.iter_mut().enumerate() {
        let counted = match fault {
            Fault::BothCounted => true,
            Fault::OtherInterfaceCounted => of != interface,
            Fault::HeldTogether => of == interface && !full,
            _ => of == interface,
        };
        if counted {
            *count = one_more(*count, fault);
        }
    }
}

/// A count stays at 65,535.
fn one_more(count: u16, fault: Fault) -> u16 {
    match fault {
        Fault::CountWraps => count.wrapping_add(1),
        Fault::HeldAt65534 => count.saturating_add(1).min(65_534),
        Fault::HeldAt255 if count == 255 => count,
        _ => count.saturating_add(1),
    }
}

/// Where the pad bytes start among the fresh ones: behind F.
fn pads_from(length: usize, fault: Fault) -> usize {
    if fault == Fault::PadsFrom50 && length == 24 { 50 } else { keys::str1(length) }
}

fn lent_fault(length: usize, fresh: &[u8], out: usize, fault: Fault) -> Result<(), Decline> {
    decline_if(fresh.len() != 253, 8, "fresh bytes not 253")?;
    decline_if(fresh[pads_from(length, fault)..].contains(&0), 9, "a zero pad byte")?;
    decline_if(out < 256, 10, "output below 256")
}

/// CLA 00, INS 87 or 86, P1 P2 0000, Lc from 1 to 255, Lc data bytes, Le 00; the status of the first fault.
fn frame_fault(command: &[u8]) -> Option<(u16, &'static str)> {
    match *command {
        [] | [_] | [_, _] | [_, _, _] => Some((0x6700, "under four bytes")),
        [1..=0xff, ..] => Some((0x6e00, "CLA")),
        [_, 0..=0x85 | 0x88..=0xff, ..] => Some((0x6d00, "INS")),
        [_, _, p1, p2, ..] if (p1, p2) != (0, 0) => Some((0x6a86, "P1 P2")),
        [_, _, _, _] => Some((0x6700, "no Lc")),
        [_, _, _, _, 0, ..] => Some((0x6700, "Lc 0")),
        [_, _, _, _, lc, ..] if command.len() != usize::from(lc) + 6 => Some((0x6700, "total not Lc + 6")),
        [.., 0] => None,
        _ => Some((0x6700, "Le not 00")),
    }
}

/// A definite length: the short form, or 81 to FE and so many bytes, high byte first. Gives its bytes, and what stands behind it.
fn definite(data: &[u8], fault: Fault) -> Option<(&[u8], &[u8])> {
    match data {
        [0..=0x7f, ..] => data.split_at_checked(1),
        [0x80, ..] | [] => None,
        [0xff, ..] if fault != Fault::FfTaken => None,
        [first, rest @ ..] => rest.split_at_checked(usize::from(first - 0x80)),
    }
}

/// Whether length bytes say this value. They are compared as bytes without leading zeros, so that no number is too large.
fn says(length: &[u8], value: usize, fault: Fault) -> bool {
    let looked_at = match fault {
        Fault::LastLengthByteAlone => 1,
        Fault::LengthModulo2To64 => 8,
        _ => length.len(),
    };
    let length = &length[length.len().saturating_sub(looked_at)..];
    let length = if fault == Fault::LeadingZerosRefused { length } else { without_zeros(length) };
    length == without_zeros(&value.to_be_bytes())
}

fn without_zeros(number: &[u8]) -> &[u8] {
    let zeros = number.iter().take_while(|b| **b == 0).count();
    &number[zeros..]
}

/// An entry at the start of the data, tag 04, length 2, KeySetID; and what stands behind it.
fn entry(data: &[u8], fault: Fault) -> Option<(u16, &[u8])> {
    if let ([0x04, 0x80, high, low, 0, 0, rest @ ..], Fault::IndefiniteEntryTaken) = (data, fault) {
        return Some((u16::from_be_bytes([*high, *low]), rest));
    }
    let (length, rest) = definite(data.strip_prefix(&[0x04])?, fault)?;
    let (id, rest) = rest.split_first_chunk()?;
    if says(length, 2, fault) { Some((u16::from_be_bytes(*id), rest)) } else { None }
}

/// Whether the entries may end before these bytes: 00 00 and no more in the indefinite form, else none.
fn ended(indefinite: bool, left: &[u8], fault: Fault) -> bool {
    match (indefinite, fault) {
        (false, _) => left.is_empty(),
        (true, Fault::BytesBehindZerosTaken) => left.starts_with(&[0, 0]),
        (true, Fault::ZerosNotWanted) => left == [0, 0] || left.is_empty(),
        (true, _) => left == [0, 0],
    }
}

/// The KeySetIDs of a SEQUENCE OF OCTET STRING of size 2, `None` for a malformed list.
pub fn listed_ids(data: &[u8], fault: Fault) -> Option<Vec<u16>> {
    let data = data.strip_prefix(&[0x30])?;
    let indefinite = data.first() == Some(&0x80);
    let (length, mut left) = if indefinite { data.split_at(1) } else { definite(data, fault)? };
    let fits = indefinite || says(length, left.len(), fault);
    let mut ids = Vec::new();
    while let Some((id, rest)) = entry(left, fault) {
        ids.push(id);
        left = rest;
    }
    if fits && ended(indefinite, left, fault) { Some(ids) } else { None }
}

/// The forms of a good list, for the statistics. In short forms each entry takes four bytes.
fn accepted_list(data: &[u8], entries: usize) -> &'static str {
    match (data[1] == 0x80, data.len() - 4 * entries) {
        (true, 4) => "initial accepted, indefinite form",
        (true, _) => "initial accepted, indefinite form with a long length",
        (false, 2) => "initial accepted, short lengths",
        (false, _) => "initial accepted, a long length",
    }
}

/// Compares exactly floor(Lc/4) places with all eight slots. Gives the slot of the first entry that the card holds.
fn walk(card: &Card, ids: &[u16], places: usize, work: &mut Work, fault: Fault) -> Option<usize> {
    let mut winner = None;
    for place in 0..places {
        for slot in 0..8 {
            let matched = work.compare(ids.get(place).copied(), card.given.sets.get(slot).map(|s| s.id));
            let earlier_slot = fault == Fault::SlotOrderWins && winner.is_some_and(|w| slot < w);
            if matched && (winner.is_none() || earlier_slot) {
                winner = Some(slot);
            }
        }
        if fault == Fault::WalkEndsAtMatch && winner.is_some() {
            break;
        }
    }
    winner
}

fn initial(card: &mut Card, interface: usize, data: &[u8], fresh: &[u8], out: &mut [u8], fault: Fault) -> Answer {
    let mut work = Work::default();
    let list = listed_ids(data, fault);
    let why = if list.is_none() { "initial refused: malformed" } else { "initial refused: no match" };
    let ids = list.unwrap_or_default();
    let winner = walk(card, &ids, data.len() / 4, &mut work, fault);
    let length = card.given.key_length;
    let mut last = fresh[..keys::str1(length)].to_vec();
    let (mut handle, mut why) = (card.given.shill_handle, why);
    card.session = winner.map(|slot| {
        let set = &card.given.sets[slot];
        let rnd1 = fresh[..length].to_vec();
        last = [&set.id.to_be_bytes()[..], &card.given.div_data, &rnd1, &rnd1].concat();
        (handle, why) = (set.handle, accepted_list(data, ids.len()));
        let of = if fault == Fault::FirstSlotsKey { &card.given.sets[0] } else { set };
        Session { id: set.id, rnd1, fa_key: of.fa_key.clone() }
    });
    if fault == Fault::InitialCounted && winner.is_none() {
        count_try(card, interface, fault);
    }
    let pads = &fresh[pads_from(length, fault)..][..keys::pads(length)];
    let block = [&[0, 2], pads, &[0], &last].concat();
    Answer::given(&block, out, handle, work, why)
}

/// The FAKey and RND1 of a final command: the session's, or what stands for them.
pub fn final_keys(card: &Card, fault: Fault) -> (Vec<u8>, Vec<u8>) {
    let Some(Session { id, rnd1, fa_key }) = &card.session else {
        return (card.given.shill_key.clone(), vec![0; card.given.key_length]);
    };
    let found = card.given.sets.iter().find(|set| set.id == *id).map(|set| &set.fa_key);
    let fa_key = match (fault, found) {
        (Fault::KeyLookedUp, Some(key)) => key,
        (Fault::DroppedSetGetsShillKey, None) => &card.given.shill_key,
        _ => fa_key,
    };
    (fa_key.clone(), rnd1.clone())
}

fn final_command(card: &mut Card, interface: usize, data: &[u8], fresh: &[u8], out: &mut [u8], fault: Fault) -> Answer {
    let mut work = Work::default();
    let (fa_key, rnd1) = final_keys(card, fault);
    let (length, keys) = (card.given.key_length, work.expand(&fa_key));
    let diversified = keys::diversified(length, &card.given.div_data, fault, |block| work.encipher(&fa_key, &keys, block));
    let keys = work.expand(&diversified);
    let mut text = aes::cbc_decipher([0; 16], data, |block| work.decipher(&diversified, &keys, block));
    let unpadded = padding::unpadded_length(&text);
    text.resize(240, 0);
    let keys_hash = if fault == Fault::HashSkippedAfterBadPadding && unpadded.is_none() {
        vec![0; length]
    } else {
        keys::cut(&work.hash(&[&rnd1, &text[2..2 + length]].concat()), length, fault)
    };
    let mode = held_mode(card, u16::from_be_bytes([text[0], text[1]]), &mut work);
    let refused = refusal(card, data.len(), unpadded.map(|length| &text[..length]), &keys_hash, mode);
    let (key, plain, why) = match (refused, mode) {
        (None, Some(mode)) => (keys_hash, reply(card, mode, fault), accepted(card, mode)),
        (why, _) => (card.given.shill_key.clone(), fresh[..16 * card.reply_size].to_vec(), why.unwrap_or_default()),
    };
    let keys = work.expand(&key);
    let mut answer = aes::cbc_encipher([0; 16], &plain, |block| work.encipher(&key, &keys, block));
    if fault == Fault::CountInAnswer && refused.is_some() {
        answer[16 * card.reply_size - 1] ^= card.tries[interface] as u8;
    }
    if counts(card, refused.is_some(), fault) {
        count_try(card, interface, fault);
    }
    if fault == Fault::AcceptedClears && refused.is_none() {
        card.tries = [0, 0];
    }
    if fault != Fault::OldSessionStays {
        card.session = None;
    }
    Answer::given(&answer, out, 0, work, why)
}

/// Whether a final command counts, before its session closes: exactly if it is refused.
fn counts(card: &Card, refused: bool, fault: Fault) -> bool {
    match fault {
        Fault::AcceptedCounted => true,
        Fault::CountedInSessionAlone => refused && card.session.is_some(),
        _ => refused,
    }
}

/// Compares with all sixteen mode slots.
fn held_mode(card: &Card, id: u16, work: &mut Work) -> Option<Mode> {
    let mut found = None;
    for slot in 0..16 {
        let mode = card.given.modes.get(slot);
        if work.compare(Some(id), mode.map(|m| m.id)) {
            found = mode.copied();
        }
    }
    found
}

/// The record, and zero bytes up to 16(B - 2) bytes in all.
fn body(card: &Card, mode: Mode, fault: Fault) -> Vec<u8> {
    let record = &card.given.area[mode.start..][..mode.len];
    let end = filled(card.reply_size).saturating_sub(usize::from(fault == Fault::FillerByteShort));
    let repeats = fault == Fault::FillerRepeatsRecord;
    let filler = (mode.len..end).map(|at| if repeats { record[at % mode.len] } else { 0 });
    record.iter().copied().chain(filler).collect()
}

/// Body and DivData, padded.
fn reply(card: &Card, mode: Mode, fault: Fault) -> Vec<u8> {
    padding::padded(&[&body(card, mode, fault)[..], &card.given.div_data].concat(), fault)
}

fn accepted(card: &Card, mode: Mode) -> &'static str {
    if mode.len < filled(card.reply_size) { "final accepted, with filler" } else { "final accepted, no filler" }
}

/// `None` if all rules hold. A rule that alone is broken is named.
pub fn broken(rules: &[(bool, &'static str)], several: &'static str) -> Option<&'static str> {
    let mut broken = rules.iter().filter(|(holds, _)| !holds).map(|(_, why)| *why);
    let first = broken.next()?;
    Some(if broken.next().is_none() { first } else { several })
}

/// Accepted exactly when all of these hold.
fn refusal(card: &Card, lc: usize, text: Option<&[u8]>, keys_hash: &[u8], mode: Option<Mode>) -> Option<&'static str> {
    let rules = [
        (card.session.is_some(), "final refused: no session alone"),
        (lc % 16 == 0, "final refused: Lc alone"),
        (text.is_some(), "final refused: padding alone"),
        (text.is_none_or(|t| t.len() >= keys::least_text(card.given.key_length)), "final refused: text too short alone"),
        (text.is_none_or(|t| t.ends_with(keys_hash)), "final refused: KeysHash alone"),
        (mode.is_some(), "final refused: mode alone"),
    ];
    broken(&rules, "final refused: several")
}
