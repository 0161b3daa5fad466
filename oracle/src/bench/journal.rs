//! A journal's entries, beside a plain Rust loop over the original's containment of every zone: what the original would take for the same
//! list.

use super::row;
use crate::original::{self, opening::Opened};
use crate::port::exports::tzb_journal_ask;
use crate::port::opening::{SIZE, open_into};

/// Every zone is asked at each position, so few of them are enough.
const POSITIONS: usize = 500;

type Entry = [u8; 16];

pub fn run(file: &[u8], anywhere: &[(i32, i32)], borders: &[(i32, i32)]) {
    let record = open_into(file, SIZE).expect("a file that opens");
    let opened = original::opening::open(file).ok().expect("a file that opens");
    for (name, at) in [("random positions", anywhere), ("near borders", borders)] {
        let at = &at[..POSITIONS.min(at.len())];
        let mut entry = [0; 16];
        let mut port = || {
            let (r, f, to, room) = (record.as_ptr(), file.as_ptr(), entry.as_mut_ptr(), 16);
            at.iter().fold(0, |sum, &(x, y)| {
                unsafe { tzb_journal_ask(r, record.len(), f, file.len(), 3, x, y, to, room) };
                sum_with(sum, &entry)
            })
        };
        let (mut entry, mut zones) = ([0; 16], Vec::with_capacity(16));
        let mut original = || {
            at.iter().fold(0, |sum, &(x, y)| {
                original_entry(&opened, x, y, &mut zones, &mut entry);
                sum_with(sum, &entry)
            })
        };
        row(&format!("journal, {name}, each"), at.len(), &mut port, &mut original);
    }
}

fn sum_with(sum: u64, entry: &Entry) -> u64 {
    let word = |at: usize| u64::from_le_bytes(entry[at..at + 8].try_into().unwrap());
    sum.wrapping_mul(31).wrapping_add(word(0)).wrapping_mul(31).wrapping_add(word(8))
}

// The original behind a call as costly as that of the port.
#[inline(never)]
extern "C" fn original_entry(
    file: &Opened,
    x: i32,
    y: i32,
    zones: &mut Vec<u32>,
    entry: &mut Entry,
) {
    zones.clear();
    if x.unsigned_abs() <= 18_000_000 && y.unsigned_abs() <= 9_000_000 {
        zones.extend((0..file.zone_count()).filter(|&zone| file.is_in(zone, x, y) == 1));
    }
    zones.sort_by_key(|&zone| file.name_bytes(zone));
    let reason = if zones.len() > 3 { 46 } else { 0 };
    if reason != 0 {
        zones.clear();
    }
    entry[..4].copy_from_slice(&x.to_le_bytes());
    entry[4..8].copy_from_slice(&y.to_le_bytes());
    for (place, bytes) in entry[8..14].chunks_mut(2).enumerate() {
        let zone = zones.get(place).map_or(u16::MAX, |&zone| zone as u16);
        bytes.copy_from_slice(&zone.to_le_bytes());
    }
    (entry[14], entry[15]) = (zones.len() as u8, reason);
}
