//! CRC-32 against `crc32_ieee`.

use super::{Tally, differs};
use crate::random::Random;
use crate::{bytes, original, port};

fn ask(data: &[u8]) {
    if port::crc32(data) != original::crc32(data) {
        let both = |b: &Vec<u8>| (port::crc32(b), original::crc32(b));
        differs("CRC-32", "original", data.to_vec(), |b| bytes::simpler(b), both);
    }
}

/// Every length to 300 at every place to 15.
pub fn all(tally: &mut Tally, random: &mut Random) {
    let data = random.bytes(316);
    for length in 0..=300 {
        for at in 0..16 {
            ask(&data[at..at + length]);
        }
    }
    tally.add("CRC-32: lengths 0 to 300 at places 0 to 15", 301 * 16);
}

pub fn some(tally: &mut Tally, random: &mut Random) {
    let data = random.bytes(20_000);
    for _ in 0..20 {
        let from = random.below(data.len());
        let to = from + random.below(data.len() - from + 1);
        ask(&data[from..to]);
    }
    ask(&data);
    tally.add("CRC-32: random parts of up to 20,000 bytes", 21);
}
