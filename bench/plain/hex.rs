//! Bytes as hex.

const DIGITS: &[u8; 16] = b"0123456789abcdef";
const NO_DIGIT: u8 = 0xff;

/// The value of each byte as a digit.
const VALUES: [u8; 256] = {
    let mut values = [NO_DIGIT; 256];
    let mut n = 0;
    while n < 16 {
        values[DIGITS[n] as usize] = n as u8;
        values[DIGITS[n].to_ascii_uppercase() as usize] = n as u8;
        n += 1;
    }
    values
};

/// The two digits of each byte.
const PAIRS: [[u8; 2]; 256] = {
    let mut pairs = [[0; 2]; 256];
    let mut n = 0;
    while n < 256 {
        pairs[n] = [DIGITS[n / 16], DIGITS[n % 16]];
        n += 1;
    }
    pairs
};

/// The two digits of a byte.
pub fn pair(byte: u8) -> [u8; 2] {
    PAIRS[usize::from(byte)]
}

pub fn write(out: &mut Vec<u8>, bytes: &[u8]) {
    let start = out.len();
    out.resize(start + 2 * bytes.len(), 0);
    for (two, &byte) in out[start..].chunks_exact_mut(2).zip(bytes) {
        two.copy_from_slice(&pair(byte));
    }
}

/// Whether there are as many digits as spell 1 to `most` bytes.
pub fn fits(text: &[u8], most: usize) -> bool {
    !text.is_empty() && text.len() % 2 == 0 && text.len() <= 2 * most
}

/// Whether all of these are digits.
pub fn is_hex(text: &[u8]) -> bool {
    text.iter().fold(0, |all, &digit| all | VALUES[usize::from(digit)]) != NO_DIGIT
}

/// The byte that two digits spell.
pub fn byte(two: &[u8; 2]) -> u8 {
    VALUES[usize::from(two[0])] << 4 | VALUES[usize::from(two[1])]
}

/// Reads digits, of which all are known to be some, into `bytes`.
pub fn read(text: &[u8], bytes: &mut Vec<u8>) {
    bytes.clear();
    bytes.extend(text.as_chunks().0.iter().map(byte));
}
