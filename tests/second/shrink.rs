//! Makes a list of lines that shows a difference as small as it gets: fewer lines, then simpler arguments.

use crate::card::listed_ids;
use crate::fault::Fault;
use crate::line::{Field, Line};
use crate::reader::{framed, id_list};

struct Shrinker<'a> {
    lines: Vec<Line>,
    differs: &'a dyn Fn(&[Line]) -> bool,
}

/// The smallest list found from `lines`, for which `differs` holds too.
pub fn shrink(lines: Vec<Line>, differs: &dyn Fn(&[Line]) -> bool) -> Vec<Line> {
    let mut shrinker = Shrinker { lines, differs };
    loop {
        let before = shrinker.lines.clone();
        shrinker.drop_lines();
        shrinker.join_loads();
        for at in 0..shrinker.lines.len() {
            shrinker.simplify(at);
        }
        if shrinker.lines == before {
            return before;
        }
    }
}

/// The fresh bytes that stand for any: 01 02 03 and so on, none of them zero.
fn plain_fresh(at: usize) -> u8 {
    (at % 255) as u8 + 1
}

impl Shrinker<'_> {
    /// Takes the changed lines if the difference stays.
    fn take(&mut self, lines: Vec<Line>) -> bool {
        let good = lines != self.lines && (self.differs)(&lines);
        if good {
            self.lines = lines;
        }
        good
    }

    /// Drops lines from the end on, so that calls go before the load that they need.
    fn drop_lines(&mut self) {
        for at in (0..self.lines.len()).rev() {
            let mut lines = self.lines.clone();
            lines.remove(at);
            self.take(lines);
        }
    }

    /// Lets a card be loaded with key sets that come later.
    fn join_loads(&mut self) {
        for at in (0..self.lines.len()).rev() {
            let mut lines = self.lines.clone();
            let later = lines.remove(at);
            let first = lines[..at].iter_mut().rev().find_map(Line::given);
            if let (Line::Sets(sets), Some(given)) = (later, first) {
                given.sets = sets;
                self.take(lines);
            }
        }
    }

    fn edit(&mut self, at: usize, field: usize, change: impl FnOnce(&mut Field)) -> bool {
        let mut lines = self.lines.clone();
        change(&mut lines[at].fields()[field]);
        self.take(lines)
    }

    fn simplify(&mut self, at: usize) {
        for field in 0..self.lines[at].fields().len() {
            match &self.lines[at].fields()[field] {
                Field::Bytes(_) => self.bytes(at, field, |_| 0),
                Field::Fresh(_) => self.bytes(at, field, plain_fresh),
                Field::Text(_) => self.bytes(at, field, |_| b'0'),
                Field::Command(_) => self.command(at, field),
                Field::Block(_) => self.block(at, field),
                Field::Ids(_) | Field::Sets(_) | Field::Modes(_) => self.items(at, field),
                Field::Size(_) | Field::Id(_) | Field::Handle(_) => self.number(at, field),
            }
        }
    }

    /// Cuts parts out, or makes them plain, from the largest parts to single bytes.
    fn bytes(&mut self, at: usize, field: usize, plain: fn(usize) -> u8) {
        let mut size = self.lines[at].fields()[field].length();
        while size > 0 {
            let mut from = 0;
            while from < self.lines[at].fields()[field].length() {
                let cut = self.edit(at, field, |f| f.edit_bytes(|bytes| drop(bytes.drain(from..bytes.len().min(from + size)))));
                if !cut {
                    self.edit(at, field, |f| f.edit_bytes(|bytes| make_plain(bytes, from, size, plain)));
                    from += size;
                }
            }
            size /= 2;
        }
    }

    /// Fewer listed KeySetIDs; less data in a frame that is right for it; at last any bytes.
    fn command(&mut self, at: usize, field: usize) {
        for listed in (0..63).rev() {
            self.edit(at, field, |f| f.edit_bytes(|command| with_data(command, |data| without_id(data, listed))));
        }
        for size in [128, 64, 32, 16, 8, 4, 2, 1] {
            for from in (0..256).step_by(size).rev() {
                let cut = |data: &mut Vec<u8>| drop(data.drain(data.len().min(from)..data.len().min(from + size)));
                self.edit(at, field, |f| f.edit_bytes(|command| with_data(command, cut)));
            }
        }
        self.bytes(at, field, |_| 0);
    }

    fn block(&mut self, at: usize, field: usize) {
        for size in [16, 8, 4, 2, 1] {
            for from in (0..16).step_by(size) {
                self.edit(at, field, |f| {
                    if let Field::Block(block) = f {
                        block[from..from + size].fill(0);
                    }
                });
            }
        }
    }

    fn number(&mut self, at: usize, field: usize) {
        let now = self.lines[at].fields()[field].number();
        for simpler in [0, 1, 256, now / 2, now.saturating_sub(1)].into_iter().filter(|n| *n < now) {
            if self.edit(at, field, |f| f.set_number(simpler)) {
                return;
            }
        }
    }

    /// Fewer key sets, modes or KeySetIDs, then simpler ones.
    fn items(&mut self, at: usize, field: usize) {
        for item in (0..self.lines[at].fields()[field].length()).rev() {
            if !self.edit(at, field, |f| f.remove_item(item)) {
                for part in 0..3 {
                    self.edit(at, field, |f| f.simplify_item(item, part));
                }
            }
        }
    }
}

fn make_plain(bytes: &mut [u8], from: usize, size: usize, plain: fn(usize) -> u8) {
    for (at, byte) in bytes.iter_mut().enumerate().skip(from).take(size) {
        *byte = plain(at);
    }
}

/// Makes the data of a command shorter, if it has some, and frames it again.
fn with_data(command: &mut Vec<u8>, shorten: impl FnOnce(&mut Vec<u8>)) {
    if command.len() > 6 {
        let mut data = command[5..command.len() - 1].to_vec();
        shorten(&mut data);
        if data.len() + 6 < command.len() {
            *command = framed(command[1], &data);
        }
    }
}

fn without_id(data: &mut Vec<u8>, listed: usize) {
    let mut ids = listed_ids(data, Fault::None).unwrap_or_default();
    if listed < ids.len() {
        ids.remove(listed);
        *data = id_list(&ids);
    }
}

impl Field<'_> {
    fn length(&self) -> usize {
        match self {
            Field::Bytes(bytes) | Field::Command(bytes) | Field::Fresh(bytes) | Field::Text(bytes) => bytes.len(),
            Field::Ids(ids) => ids.len(),
            Field::Sets(sets) => sets.len(),
            Field::Modes(modes) => modes.len(),
            Field::Block(_) | Field::Size(_) | Field::Id(_) | Field::Handle(_) => 0,
        }
    }

    fn edit_bytes(&mut self, change: impl FnOnce(&mut Vec<u8>)) {
        if let Field::Bytes(bytes) | Field::Command(bytes) | Field::Fresh(bytes) | Field::Text(bytes) = self {
            change(bytes);
        }
    }

    fn number(&self) -> usize {
        match self {
            Field::Size(size) => **size,
            Field::Id(id) => usize::from(**id),
            Field::Handle(handle) => usize::from(**handle),
            _ => 0,
        }
    }

    fn set_number(&mut self, number: usize) {
        match self {
            Field::Size(size) => **size = number,
            Field::Id(id) => **id = number as u16,
            Field::Handle(handle) => **handle = number as u8,
            _ => {}
        }
    }

    fn remove_item(&mut self, item: usize) {
        match self {
            Field::Ids(ids) => drop(ids.remove(item)),
            Field::Sets(sets) => drop(sets.remove(item)),
            Field::Modes(modes) => drop(modes.remove(item)),
            _ => {}
        }
    }

    /// Makes an item's name its place, or another part of it plain.
    fn simplify_item(&mut self, item: usize, part: usize) {
        match (self, part) {
            (Field::Ids(ids), _) => ids[item] = item as u16,
            (Field::Sets(sets), 0) => sets[item].id = item as u16,
            (Field::Sets(sets), 1) => sets[item].handle = item as u8 + 1,
            (Field::Sets(sets), _) => sets[item].fa_key.fill(0),
            (Field::Modes(modes), 0) => modes[item].id = item as u16,
            (Field::Modes(modes), 1) => modes[item].start = 0,
            (Field::Modes(modes), _) => modes[item].len = 1,
            _ => {}
        }
    }
}
