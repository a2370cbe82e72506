//! RSA for the joint test: a number of 2048 bits to a power, modulo another. Plain and slow.

/// The lowest word first.
type Number = [u64; 32];

const ZERO: Number = [0; 32];

/// Big-endian bytes, at most 256 of them.
fn number(bytes: &[u8]) -> Number {
    let mut out = ZERO;
    for (place, byte) in bytes.iter().rev().enumerate() {
        out[place / 8] |= u64::from(*byte) << (8 * (place % 8));
    }
    out
}

fn bytes(number: &Number) -> Vec<u8> {
    number.iter().rev().flat_map(|word| word.to_be_bytes()).collect()
}

/// a - b modulo 2^2048, and whether b is the greater one.
fn difference(a: &Number, b: &Number) -> (Number, bool) {
    let (mut out, mut borrow) = (ZERO, 0);
    for place in 0..32 {
        let word = i128::from(a[place]) - i128::from(b[place]) - borrow;
        out[place] = word as u64;
        borrow = i128::from(word < 0);
    }
    (out, borrow == 1)
}

/// a + b modulo n, where both are below n.
fn sum(a: &Number, b: &Number, n: &Number) -> Number {
    let (mut out, mut carry) = (ZERO, 0);
    for place in 0..32 {
        let word = u128::from(a[place]) + u128::from(b[place]) + carry;
        out[place] = word as u64;
        carry = word >> 64;
    }
    let (less, below) = difference(&out, n);
    if below && carry == 0 { out } else { less }
}

/// The bits of a number, the highest first.
fn bits(of: &Number) -> impl Iterator<Item = bool> {
    (0..2048).rev().map(|place| of[place / 64] >> (place % 64) & 1 == 1)
}

/// a times b modulo n, where a is below n.
fn product(a: &Number, b: &Number, n: &Number) -> Number {
    bits(b).fold(ZERO, |total, bit| {
        let doubled = sum(&total, &total, n);
        if bit { sum(&doubled, a, n) } else { doubled }
    })
}

/// The block, a number below n, to this power modulo n: 256 bytes. `None` for a block that is not below n.
pub fn power(block: &[u8], exponent: &[u8], n: &[u8]) -> Option<Vec<u8>> {
    let (base, exponent, n) = (number(block), number(exponent), number(n));
    if !difference(&base, &n).1 {
        return None;
    }
    let raised = bits(&exponent).skip_while(|bit| !bit).fold(number(&[1]), |total, bit| {
        let square = product(&total, &total, &n);
        if bit { product(&square, &base, &n) } else { square }
    });
    Some(bytes(&raised))
}
