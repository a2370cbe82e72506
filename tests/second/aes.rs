//! AES with keys of 16, 24 and 32 bytes, both ways, from FIPS 197, and CBC over any block cipher.

pub type Block = [u8; 16];

/// The round keys, a row of sixteen bytes each: 11, 13 or 15 of them.
pub type RoundKeys = Vec<Block>;

/// The product in the field of 256 elements, modulo x^8 + x^4 + x^3 + x + 1 (FIPS 197, 4.2).
const fn product(a: u8, b: u8) -> u8 {
    let (mut a, mut b, mut sum) = (a, b, 0);
    while b != 0 {
        if b & 1 == 1 {
            sum ^= a;
        }
        a = (a << 1) ^ if a & 0x80 == 0 { 0 } else { 0x1b };
        b >>= 1;
    }
    sum
}

/// The inverse in the field, 0 for 0: the 254th power, which is the product of the powers 2, 4, 8 and so on to 128.
const fn inverse(a: u8) -> u8 {
    let (mut power, mut square, mut times) = (1, a, 0);
    while times < 7 {
        square = product(square, square);
        power = product(power, square);
        times += 1;
    }
    power
}

const fn s_box() -> [u8; 256] {
    let (mut table, mut i) = ([0; 256], 0);
    while i < 256 {
        let b = inverse(i as u8);
        table[i] = b ^ b.rotate_left(1) ^ b.rotate_left(2) ^ b.rotate_left(3) ^ b.rotate_left(4) ^ 0x63;
        i += 1;
    }
    table
}

const fn reversed(table: [u8; 256]) -> [u8; 256] {
    let (mut back, mut i) = ([0; 256], 0);
    while i < 256 {
        back[table[i] as usize] = i as u8;
        i += 1;
    }
    back
}

const fn multiples(factor: u8) -> [u8; 256] {
    let (mut table, mut i) = ([0; 256], 0);
    while i < 256 {
        table[i] = product(factor, i as u8);
        i += 1;
    }
    table
}

const S_BOX: [u8; 256] = s_box();
const INVERSE_S_BOX: [u8; 256] = reversed(S_BOX);

/// The rows of MixColumns' and InvMixColumns' first line, as tables; each further line is turned by one.
const MIX: [[u8; 256]; 4] = [multiples(2), multiples(3), multiples(1), multiples(1)];
const INVERSE_MIX: [[u8; 256]; 4] = [multiples(14), multiples(11), multiples(13), multiples(9)];

pub fn expand(key: &[u8]) -> RoundKeys {
    let mut words: Vec<[u8; 4]> = key.as_chunks().0.to_vec();
    let (nk, mut round_constant) = (words.len(), 1);
    for i in nk..4 * (nk + 7) {
        let mut word = words[i - 1];
        if i % nk == 0 {
            word.rotate_left(1);
        }
        if i % nk == 0 || (nk > 6 && i % nk == 4) {
            word = word.map(|b| S_BOX[usize::from(b)]);
        }
        if i % nk == 0 {
            word[0] ^= round_constant;
            round_constant = product(round_constant, 2);
        }
        words.push(std::array::from_fn(|row| words[i - nk][row] ^ word[row]));
    }
    words.as_flattened().as_chunks().0.to_vec()
}

fn add(state: &mut Block, key: &Block) {
    for (s, k) in state.iter_mut().zip(key) {
        *s ^= k;
    }
}

/// SubBytes and ShiftRows together: row r is turned left by `turn` times r.
fn substitute_and_shift(state: &Block, table: &[u8; 256], turn: usize) -> Block {
    std::array::from_fn(|i| {
        let (column, row) = (i / 4, i % 4);
        table[usize::from(state[4 * ((column + turn * row) % 4) + row])]
    })
}

fn mix(state: &Block, tables: &[[u8; 256]; 4]) -> Block {
    std::array::from_fn(|i| {
        let (column, row) = (i / 4, i % 4);
        (0..4).fold(0, |sum, j| sum ^ tables[j][usize::from(state[4 * column + (row + j) % 4])])
    })
}

pub fn encipher(keys: &[Block], input: &Block) -> Block {
    let (mut state, last) = (*input, keys.len() - 1);
    add(&mut state, &keys[0]);
    for key in &keys[1..last] {
        state = mix(&substitute_and_shift(&state, &S_BOX, 1), &MIX);
        add(&mut state, key);
    }
    state = substitute_and_shift(&state, &S_BOX, 1);
    add(&mut state, &keys[last]);
    state
}

pub fn decipher(keys: &[Block], input: &Block) -> Block {
    let (mut state, last) = (*input, keys.len() - 1);
    add(&mut state, &keys[last]);
    for key in keys[1..last].iter().rev() {
        // Turning left by three is turning right by one.
        state = substitute_and_shift(&state, &INVERSE_S_BOX, 3);
        add(&mut state, key);
        state = mix(&state, &INVERSE_MIX);
    }
    state = substitute_and_shift(&state, &INVERSE_S_BOX, 3);
    add(&mut state, &keys[0]);
    state
}

/// The whole blocks of a text; what is left over at its end is no part of them.
fn blocks(text: &[u8]) -> impl Iterator<Item = Block> {
    text.as_chunks::<16>().0.iter().copied()
}

pub fn cbc_encipher(start: Block, text: &[u8], mut cipher: impl FnMut(&Block) -> Block) -> Vec<u8> {
    let mut last = start;
    let mut out = Vec::with_capacity(text.len());
    for block in blocks(text) {
        add(&mut last, &block);
        last = cipher(&last);
        out.extend(last);
    }
    out
}

pub fn cbc_decipher(start: Block, text: &[u8], mut cipher: impl FnMut(&Block) -> Block) -> Vec<u8> {
    let mut last = start;
    let mut out = Vec::with_capacity(text.len());
    for block in blocks(text) {
        let mut plain = cipher(&block);
        add(&mut plain, &last);
        last = block;
        out.extend(plain);
    }
    out
}
