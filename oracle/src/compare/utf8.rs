//! UTF-8 against the standard library's `from_utf8`, which the original calls.

use super::{Tally, differs};
use crate::bytes::{self, OF_UTF8};
use crate::random::Random;
use crate::{original, port};

fn ask(data: &[u8]) {
    if port::utf8(data) != original::utf8(data) {
        let both = |b: &Vec<u8>| (port::utf8(b), original::utf8(b));
        differs("UTF-8", "original", data.to_vec(), |b| bytes::simpler(b), both);
    }
}

pub fn all(tally: &mut Tally) {
    let every: Vec<u8> = (0..=255).collect();
    let mut count = 0;
    let mut each = |b: &[u8]| {
        ask(b);
        count += 1;
    };
    (0..=3).for_each(|length| bytes::all(&every, length, &mut each));
    tally.add("UTF-8: all strings of 0 to 3 bytes", count);
    tally.add("UTF-8: a lead from E0 on, three boundary bytes", fours());
    tally.add("UTF-8: boundary bytes between ASCII runs", among_ascii());
}

fn fours() -> u64 {
    let mut count = 0;
    for lead in 0xe0..=0xff {
        bytes::all(&OF_UTF8, 3, &mut |b| {
            ask(&[lead, b[0], b[1], b[2]]);
            count += 1;
        });
    }
    count
}

/// A whole character or a broken one at each distance from the ends of a long run.
fn among_ascii() -> u64 {
    let mut count = 0;
    for before in 0..=17 {
        for after in [0, 1, 7, 8, 9] {
            let mut each = |b: &[u8]| {
                ask(&[&[b'a'; 17][..before], b, &[b'z'; 9][..after]].concat());
                count += 1;
            };
            (1..=2).for_each(|length| bytes::all(&OF_UTF8, length, &mut each));
            ["é", "€", "😀"].iter().for_each(|c| each(c.as_bytes()));
        }
    }
    count
}

pub fn some(tally: &mut Tally, random: &mut Random) {
    for _ in 0..2000 {
        let pieces = random.below(12);
        ask(&bytes::text(random, pieces, true));
        let mut text = bytes::text(random, pieces, false);
        ask(&text);
        text.push(b'.');
        let i = random.below(text.len());
        text[i] = random.byte();
        ask(&text);
    }
    tally.add("UTF-8: random texts, broken, whole, with one byte changed", 6000);
}
