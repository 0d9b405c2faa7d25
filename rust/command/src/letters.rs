//! Letters that are put after others, in as little time as it takes: a copy of a fixed length, of which the end is taken back.

/// A text with room behind it, for copies of a fixed length.
pub struct Padded {
    bytes: Vec<u8>,
    length: usize,
}

/// How many bytes are copied at a time.
const STEP: usize = 32;

impl Padded {
    pub fn new(text: &[u8]) -> Padded {
        let mut bytes = text.to_vec();
        bytes.resize(text.len().next_multiple_of(STEP), 0);
        Padded { bytes, length: text.len() }
    }

    #[inline]
    pub fn put(&self, out: &mut Vec<u8>) {
        let end = out.len() + self.length;
        self.bytes.as_chunks::<STEP>().0.iter().for_each(|step| out.extend_from_slice(step));
        out.truncate(end);
    }
}

/// A part of a text, of which something follows as a rule.
#[inline]
pub fn put_from(text: &[u8], length: usize, out: &mut Vec<u8>) {
    let end = out.len() + length;
    match text.first_chunk::<STEP>() {
        Some(step) if length <= STEP => {
            out.extend_from_slice(step);
            out.truncate(end);
        }
        _ => out.extend_from_slice(&text[..length]),
    }
}

pub fn put_number(mut number: u64, out: &mut Vec<u8>) {
    let mut digits = [0; 20];
    let mut at = digits.len();
    loop {
        at -= 1;
        digits[at] = b'0' + (number % 10) as u8;
        number /= 10;
        if number == 0 {
            break;
        }
    }
    out.extend_from_slice(&digits[at..]);
}

/// The two digits of each byte.
const PAIRS: [[u8; 2]; 256] = {
    let digits = b"0123456789ABCDEF";
    let mut pairs = [[0; 2]; 256];
    let mut byte = 0;
    while byte < pairs.len() {
        pairs[byte] = [digits[byte >> 4], digits[byte & 0xF]];
        byte += 1;
    }
    pairs
};

/// In hexadecimal, without zeros before it.
#[inline]
pub fn put_address(address: u64, out: &mut Vec<u8>) {
    let count = (64 - address.leading_zeros()).div_ceil(4).max(1) as usize;
    let mut digits = [[0; 2]; 16];
    for (pair, byte) in digits.iter_mut().zip((address << (64 - 4 * count)).to_be_bytes()) {
        *pair = PAIRS[usize::from(byte)];
    }
    let end = out.len() + count;
    out.extend_from_slice(&digits.as_flattened()[..16]);
    out.truncate(end);
}

/// All digits of some bytes.
pub fn put_bytes(bytes: &[u8], out: &mut Vec<u8>) {
    bytes.iter().for_each(|&byte| out.extend_from_slice(&PAIRS[usize::from(byte)]));
}

#[cfg(test)]
mod tests {
    use super::*;

    #[test]
    fn as_the_language_writes_them() {
        let mut random = 1_u64;
        for bits in 0..=64_u32 {
            random = random.wrapping_mul(6_364_136_223_846_793_005).wrapping_add(1_442_695_040_888_963_407);
            let number = random.checked_shr(bits).unwrap_or(0);
            let mut out = Vec::new();
            put_number(number, &mut out);
            out.push(b' ');
            put_address(number, &mut out);
            out.push(b' ');
            put_bytes(&number.to_be_bytes(), &mut out);
            assert_eq!(String::from_utf8(out).unwrap(), format!("{number} {number:X} {number:016X}"));
        }
    }

    #[test]
    fn of_any_length() {
        let text: Vec<u8> = (0..100).collect();
        for length in 0..=text.len() {
            let mut out = b"x".to_vec();
            Padded::new(&text[..length]).put(&mut out);
            put_from(&text, length, &mut out);
            assert_eq!(out, [b"x", &text[..length], &text[..length]].concat());
        }
    }
}
