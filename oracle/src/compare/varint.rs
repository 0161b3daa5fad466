//! The number read at a place against the original's `StreamCursor::varint` and against the rule: number, length, refusal.

use super::{Tally, differs};
use crate::bytes::{self, OF_NUMBERS, Reading};
use crate::random::Random;
use crate::{original, port, rules};

type Reader = fn(&[u8], usize) -> Reading;

const OTHERS: [(&str, Reader); 2] = [("original", original::reading), ("rule", rules::reading)];

fn ask(data: &[u8], at: usize) {
    let port = port::reading(data, at);
    for (other, reading) in OTHERS {
        if port != reading(data, at) {
            let both = |b: &Vec<u8>| (port::reading(b, at), reading(b, at));
            let what = format!("number at {at}");
            differs(&what, other, data.to_vec(), |b| bytes::simpler(b), both);
        }
    }
}

/// Every string of so many bytes; how many there are.
fn every(length: usize) -> u64 {
    let alphabet: Vec<u8> = (0..=255).collect();
    let mut count = 0;
    bytes::all(&alphabet, length, &mut |b| {
        ask(b, 0);
        count += 1;
    });
    count
}

pub fn all(tally: &mut Tally) {
    tally.add("numbers: all strings of 0 to 3 bytes", (0..=3).map(every).sum());

    let mut count = 0;
    let mut each = |b: &[u8]| {
        (0..=b.len()).for_each(|at| ask(b, at));
        count += b.len() as u64 + 1;
    };
    (0..=5).for_each(|length| bytes::all(&OF_NUMBERS, length, &mut each));
    tally.add("numbers: 0 to 5 boundary bytes, at each place", count);

    let mut count = 0;
    for data in [&[][..], &[1], &[0x80, 1]] {
        for past in [1, 2, 7, 1 << 32, usize::MAX - data.len()] {
            ask(data, data.len() + past);
            count += 1;
        }
    }
    tally.add("numbers: at places past the end (38 by the rule)", count);
}

/// The same, and every string of four bytes.
pub fn run() {
    let mut tally = Tally::default();
    all(&mut tally);
    tally.add("numbers: all strings of 4 bytes", every(4));
    tally.end();
}

pub fn some(tally: &mut Tally, random: &mut Random) {
    let mut count = 0;
    for _ in 0..100 {
        let data = match random.below(3) {
            0 => bytes::numbers(random, 20, false),
            1 => bytes::numbers(random, 20, true),
            _ => random.bytes(40),
        };
        (0..=data.len()).for_each(|at| ask(&data, at));
        count += data.len() as u64 + 1;
    }
    tally.add("numbers: at each place of random strings", count);
}
