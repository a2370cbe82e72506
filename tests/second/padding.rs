//! Block padding: method 2 of ISO/IEC 9797-1.

use crate::fault::Fault;

/// The text, 0x80, and the fewest zero bytes that fill a block.
pub fn padded(text: &[u8], fault: Fault) -> Vec<u8> {
    let mut out = text.to_vec();
    if fault == Fault::FullTextGetsNo80 && text.len() % 16 == 0 {
        return out;
    }
    out.push(0x80);
    out.resize(out.len().next_multiple_of(16), 0);
    out
}

/// The length without padding, if the last nonzero byte is 0x80 and stands in the last block.
pub fn unpadded_length(text: &[u8]) -> Option<usize> {
    let last = text.iter().rposition(|b| *b != 0)?;
    if text[last] == 0x80 && last + 16 >= text.len() { Some(last) } else { None }
}
