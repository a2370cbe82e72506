//! Runs the same lines on two sides and compares all that each hands back or writes.

use crate::line::Line;
use crate::random::Random;
use crate::side::{Reply, Side};

/// Bytes before and behind the lent buffer that no call may touch.
const GUARD: usize = 32;

/// All that is seen of one call.
#[derive(Clone, PartialEq)]
pub struct Seen {
    pub reply: Reply,
    /// The lent buffer between its guards, afterwards.
    buffer: Vec<u8>,
    /// Whether the arguments lent for reading are as they were.
    inputs_kept: bool,
}

impl Seen {
    pub fn lent(&self) -> &[u8] {
        &self.buffer[GUARD..self.buffer.len() - GUARD]
    }

    /// In which parts two calls differ, in words.
    pub fn differing(&self, other: &Seen) -> String {
        let first = self.buffer.iter().zip(&other.buffer).position(|(a, b)| a != b);
        let buffer = first.map(|i| format!("buffer from byte {}", i as isize - GUARD as isize));
        let card = self.reply.card() != other.reply.card();
        let answer = !card && self.reply != other.reply;
        let input = !self.inputs_kept || !other.inputs_kept;
        let parts = [(card, "the card"), (answer, "what is handed back"), (input, "a changed input")];
        let parts = parts.iter().filter(|(differs, _)| *differs).map(|(_, part)| part.to_string());
        parts.chain(buffer).collect::<Vec<_>>().join("; ")
    }
}

/// Runs a line with a buffer filled by this pattern; Accept's buffer starts as the line says.
pub fn see(side: &mut impl Side, line: &Line, pattern: u64) -> Seen {
    let mut buffer = Random(pattern).bytes(line.lent() + 2 * GUARD);
    let end = buffer.len() - GUARD;
    if let Line::Accept { work, .. } = line {
        buffer[GUARD..end].copy_from_slice(work);
    }
    let before = line.clone();
    let reply = side.run(line, &mut buffer[GUARD..end]);
    Seen { reply, buffer, inputs_kept: *std::hint::black_box(line) == before }
}

/// The place of the first line whose calls differ, with both.
pub fn first_difference(lines: &[Line], pattern: u64, one: &mut impl Side, other: &mut impl Side) -> Option<(usize, Seen, Seen)> {
    for (place, line) in lines.iter().enumerate() {
        let (a, b) = (see(one, line, pattern), see(other, line, pattern));
        if a != b || !a.inputs_kept {
            return Some((place, a, b));
        }
    }
    None
}
