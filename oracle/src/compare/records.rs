//! Opened records: as opening makes them, and changed by hand.

use crate::file::damage::TELLING;
use crate::file::{put, word};
use crate::port::opening::{SIZE, open_into};
use crate::random::Random;
use crate::rules::{self, Said};

/// The number that something is refused by, 0 where it is answered.
pub fn refusal<T>(said: &Said<T>) -> u32 {
    said.as_ref().err().copied().unwrap_or(0)
}

/// The record that the port makes of a file, none where it refuses it; wrong where document 01's rules say another number.
pub fn of_file(file: &[u8]) -> Result<Option<Vec<u8>>, String> {
    let record = open_into(file, SIZE);
    let (says, expected) = (refusal(&record), refusal(&rules::open(file, &[])));
    if says != expected {
        return Err(format!("opening: the port says {says}, the rules {expected}"));
    }
    Ok(record.ok())
}

/// One or two fields set, or now and then another length. `size` is that of the bytes which the record is asked with.
pub fn changed(random: &mut Random, record: &[u8], size: usize) -> Vec<u8> {
    let mut out = record.to_vec();
    for _ in 0..1 + random.below(2) {
        let at = 4 * random.below(21);
        let (now, size) = (word(&out, at), size as u32);
        let value = match random.below(8) {
            0 => random.pick(&TELLING),
            1 => now.wrapping_add(random.pick(&[1, 2, 24, 44])),
            2 => now.wrapping_sub(random.pick(&[1, 2, 24, 44])),
            3 => word(&out, 4 * random.below(21)),
            4 => random.pick(&[size, size - 1, size - 24, size - 44]),
            5 => random.below(20) as u32,
            6 => now ^ 1 << random.below(32),
            _ => random.bits() as u32,
        };
        put(&mut out, at, value);
    }
    if random.below(16) == 0 {
        out.resize(random.pick(&[0, 1, 83, 85, 168]), 0);
    }
    out
}
