//! Numbers at places, CRC-32 of IEEE 802.3 and UTF-8 of RFC 3629.

fn bytes<const N: usize>(file: &[u8], at: u64) -> [u8; N] {
    file[at as usize..at as usize + N].try_into().unwrap()
}

pub fn u16_at(file: &[u8], at: u64) -> u64 {
    u16::from_le_bytes(bytes(file, at)).into()
}

pub fn u32_at(file: &[u8], at: u64) -> u64 {
    u32::from_le_bytes(bytes(file, at)).into()
}

pub fn i16_at(file: &[u8], at: u64) -> i64 {
    i16::from_le_bytes(bytes(file, at)).into()
}

pub fn i32_at(file: &[u8], at: u64) -> i64 {
    i32::from_le_bytes(bytes(file, at)).into()
}

/// One step of the division for each bit of a byte.
const REMAINDERS: [u32; 256] = {
    let mut all = [0; 256];
    let mut byte = 0;
    while byte < 256 {
        let mut rest = byte as u32;
        let mut bit = 0;
        while bit < 8 {
            rest = rest >> 1 ^ (rest & 1) * 0xedb8_8320;
            bit += 1;
        }
        all[byte] = rest;
        byte += 1;
    }
    all
};

pub fn crc32(data: &[u8]) -> u32 {
    !data.iter().fold(!0, |sum, &b| REMAINDERS[usize::from(sum as u8 ^ b)] ^ sum >> 8)
}

/// RFC 3629, section 4: one character after another.
pub fn utf8(text: &[u8]) -> bool {
    let mut rest = text;
    loop {
        rest = match rest {
            [] => return true,
            [0x00..=0x7f, rest @ ..] => rest,
            [0xc2..=0xdf, 0x80..=0xbf, rest @ ..] => rest,
            [0xe0, 0xa0..=0xbf, 0x80..=0xbf, rest @ ..] => rest,
            [0xe1..=0xec | 0xee..=0xef, 0x80..=0xbf, 0x80..=0xbf, rest @ ..] => rest,
            [0xed, 0x80..=0x9f, 0x80..=0xbf, rest @ ..] => rest,
            [0xf0, 0x90..=0xbf, 0x80..=0xbf, 0x80..=0xbf, rest @ ..] => rest,
            [0xf1..=0xf3, 0x80..=0xbf, 0x80..=0xbf, 0x80..=0xbf, rest @ ..] => rest,
            [0xf4, 0x80..=0x8f, 0x80..=0xbf, 0x80..=0xbf, rest @ ..] => rest,
            _ => return false,
        }
    }
}

#[cfg(test)]
mod tests {
    use super::{crc32, utf8};
    use crate::bytes::{OF_UTF8, all};

    #[test]
    fn the_published_sum() {
        assert_eq!(crc32(b"123456789"), 0xcbf4_3926);
    }

    #[test]
    fn utf8_is_that_of_the_standard_library() {
        for length in 0..=4 {
            all(&OF_UTF8, length, &mut |b| assert_eq!(utf8(b), std::str::from_utf8(b).is_ok()));
        }
    }
}
