//! Byte strings that tell: what reading a number gives, and the bytes at which an answer turns.

use crate::random::Random;

/// What reading a number gives: the number (0 where refused), and its bytes (or -1000 - n for refusal n).
#[derive(Debug, Clone, Copy, PartialEq)]
pub struct Reading {
    pub number: i32,
    pub length: i32,
}

pub fn refused(n: i32) -> Reading {
    Reading { number: 0, length: -1000 - n }
}

/// Where a number's bytes turn.
pub const OF_NUMBERS: [u8; 12] =
    [0x00, 0x01, 0x0f, 0x10, 0x7f, 0x80, 0x81, 0x8f, 0x90, 0xf0, 0xfe, 0xff];

/// Where UTF-8 turns: the ends of each range that RFC 3629 names, and their neighbours.
pub const OF_UTF8: [u8; 28] = [
    0x00, 0x01, 0x7f, 0x80, 0x81, 0x8f, 0x90, 0x9f, 0xa0, 0xbf, 0xc0, 0xc1, 0xc2, 0xdf, 0xe0, 0xe1,
    0xec, 0xed, 0xee, 0xef, 0xf0, 0xf1, 0xf3, 0xf4, 0xf5, 0xf7, 0xf8, 0xff,
];

/// Calls `each` on every string of `length` bytes of the alphabet.
pub fn all(alphabet: &[u8], length: usize, each: &mut impl FnMut(&[u8])) {
    let mut digits = vec![0; length];
    let mut text: Vec<u8> = vec![alphabet[0]; length];
    loop {
        each(&text);
        let Some(i) = (0..length).rev().find(|&i| digits[i] + 1 < alphabet.len()) else {
            return;
        };
        digits[i] += 1;
        digits[i + 1..].fill(0);
        text[i] = alphabet[digits[i]];
        text[i + 1..].fill(alphabet[0]);
    }
}

/// Numbers one after another, mostly of one or two bytes, now and then a byte that breaks one.
pub fn numbers(random: &mut Random, count: usize, breaks: bool) -> Vec<u8> {
    let mut out = Vec::new();
    for _ in 0..count {
        let bits = random.pick(&[6, 6, 6, 7, 12, 13, 14, 20, 27, 28, 31, 32]);
        let mut n = random.bits() & ((1 << bits) - 1);
        while n >= 128 {
            out.push(n as u8 | 128);
            n >>= 7;
        }
        out.push(n as u8);
        if breaks && random.below(4) == 0 {
            out.push(random.pick(&OF_NUMBERS));
        }
    }
    out
}

/// Runs of ASCII and other characters; with `breaks`, bytes that may break them, and a cut at the end.
pub fn text(random: &mut Random, pieces: usize, breaks: bool) -> Vec<u8> {
    let mut out = Vec::new();
    for _ in 0..pieces {
        match random.below(if breaks { 4 } else { 3 }) {
            0 => (0..random.below(20)).for_each(|_| out.push(random.byte() & 0x7f)),
            3 => out.push(random.pick(&OF_UTF8)),
            _ => {
                let limit = random.pick(&[0x800, 0x10000, 0x110000]);
                let any = random.below(limit) as u32;
                let c = random.pick(&[
                    any, any, any, 0x80, 0x7ff, 0x800, 0xd7ff, 0xe000, 0xffff, 0x10000, 0x10ffff,
                ]);
                let c = char::from_u32(c).unwrap_or('é');
                out.extend_from_slice(c.encode_utf8(&mut [0; 4]).as_bytes());
            }
        }
    }
    if breaks && random.below(4) == 0 {
        out.truncate(random.below(out.len() + 1));
    }
    out
}

/// What may be tried in the place of a byte string, when a small one is looked for.
pub fn simpler(bytes: &[u8]) -> Vec<Vec<u8>> {
    let n = bytes.len();
    let mut out = Vec::new();
    let mut part = n / 2;
    while part > 64 {
        out.push(bytes[part..].to_vec());
        out.push(bytes[..n - part].to_vec());
        part /= 2;
    }
    if n > 1000 {
        return out;
    }
    for i in 0..n {
        out.push([&bytes[..i], &bytes[i + 1..]].concat());
    }
    for i in 0..n {
        for b in [0, bytes[i] / 2, bytes[i].saturating_sub(1)] {
            if b < bytes[i] {
                let mut with = bytes.to_vec();
                with[i] = b;
                out.push(with);
            }
        }
    }
    out
}

pub fn hex(bytes: &[u8]) -> String {
    bytes.iter().map(|b| format!("{b:02x}")).collect()
}
