//! Random headers.

use crate::damage;
use crate::numbers;
use crate::random::Random;

/// A header of any kind: lawful, wrong in a field or in a bit, short, long, or bytes at random.
pub fn any(random: &mut Random) -> Vec<u8> {
    let mut packet = numbers::lawful(random);
    if random.chance(1, 3) {
        numbers::spoil(&mut packet, random);
    }
    let mut bytes = numbers::header(&packet);
    match random.below(16) {
        0..=7 => {}
        8..=10 => damage::bits(&mut bytes, random),
        11 => bytes[0] = random.word() as u8,
        12 => bytes.truncate(random.below(bytes.len() as u64) as usize),
        13 => bytes.extend(random_bytes(random, 20)),
        14 => damage::bytes(&mut bytes, random),
        _ => bytes = random_bytes(random, 20),
    }
    bytes
}

fn random_bytes(random: &mut Random, most: u64) -> Vec<u8> {
    (0..random.below(most + 1)).map(|_| random.word() as u8).collect()
}
