//! Blocks of 1,024 bytes: a file or lent bytes with a number, for lists that put questions to opened files. And what a record says.

use crate::rules::{Placed, Refusal};

/// How long a block is: the length of its bytes, a number, and room for the bytes.
const BLOCK: usize = 1024;

pub fn block(out: &mut Vec<u8>, bytes: &[u8], number: usize) {
    let end = out.len() + BLOCK;
    word(out, bytes.len() as u64);
    word(out, number as u64);
    out.extend_from_slice(bytes);
    assert!(out.len() <= end, "too long for a block");
    out.resize(end, 0);
}

/// A refusal's place and one more: 0 where it has none, 0xffff_ffff where that does not fit.
pub fn place(refusal: Refusal) -> u64 {
    refusal.place.map_or(0, |place| (place + 1).min(0xffff_ffff))
}

/// What a question's record ends with: 0 and three numbers, or the refusal, its place and one more, and zeros.
pub fn said(out: &mut Vec<u8>, said: Placed<[u64; 3]>) {
    let words = match said {
        Ok([a, b, c]) => [0, a, b, c],
        Err(refusal) => [refusal.number.into(), place(refusal), 0, 0],
    };
    words.iter().for_each(|&n| word(out, n));
}

pub fn word(out: &mut Vec<u8>, n: u64) {
    out.extend_from_slice(&u32::try_from(n).expect("a number of four bytes").to_le_bytes());
}

#[cfg(test)]
mod tests {
    use super::*;

    #[test]
    fn a_place_is_told_as_one_more() {
        let told = |place| super::place(Refusal { number: 38, place });
        let places =
            [None, Some(0), Some(372), Some(0xffff_fffe), Some(0xffff_ffff), Some(1 << 40)];
        let last = 0xffff_ffff;
        assert_eq!(places.map(told), [0, 1, 373, last, last, last]);
    }
}
