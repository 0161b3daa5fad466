//! The smallest input of each listed difference, put to document 01's rules, to the port and to the original. None may change its answer.

use crate::file::{self, CHUNKDIR, POINTS, broken, entries, put, striped, word};
use crate::original::opening::{PANIC, open as original};
use crate::port;
use crate::rules::{self, Judge};
use crate::voice::{Answer, Question, Voice};

/// With these files `crates/run_open/stdin` ends, where the gate opens them too. Their length, document 01's number and the original's; 0 where the file opens.
const OF_OPENING: [(usize, u32, u32); 7] = [
    (84, 15, 17),
    (377, 15, 0),
    (105, 17, 16),
    (377, 0, 16),
    (357, 32, 34),
    (361, 33, 34),
    (361, 0, 34),
];

#[test]
fn of_opening() {
    let list = include_bytes!("../../../crates/run_open/stdin");
    let records = list.chunks(1024).rev().take(OF_OPENING.len()).rev();
    for (record, (length, document, departed)) in records.zip(OF_OPENING) {
        let file = &record[8..8 + word(record, 0) as usize];
        assert_eq!((file.len(), word(record, 4)), (length, document));
        assert_eq!(rules::open(file, &[]).err().unwrap_or(0), document);
        assert_eq!(port::opening::open(file).err().unwrap_or(0), document);
        assert_eq!(original(file).err().unwrap_or(0), departed);
    }
}

/// A ring of one point, and nothing else that is not as it should be. It opens, and the full check refuses it: no segment of it counts.
const SHORT_RING: &str = "\
    545a46420100400000000000a08601006901000008000000000000000000000000000000000000000100000001000000\
    0000000000000000000000000000000002000000c0000000180000000000000003000000d80000001800000000000000\
    04000000f00000001c00000000000000050000000c010000040000000000000006000000100100002c00000000000000\
    070000003c01000018000000000000000900000054010000040000000000000001000000580100000d00000000000000\
    000000000100000000000000000000000000000000000000000000000100000000000000000000000000000000000000\
    000000000100000001000000000000000000000000000000000000000000000000000000020000000100000000000000\
    000000000000000000000000000000000000000000000000000000000000000002000000000000000000000000000000\
    000000000000000001000000000000000100000001e1871c66";

/// The smallest that the full check accepts: a triangle, open, in one group. The ring has three segments and the point count 2.
const OPEN_TRIANGLE: &str = "\
    545a46420100400000000000a08601006d01000008000000000000000000000000000000000000000100000001000000\
    0000000000000000000000000000000002000000c0000000180000000000000003000000d80000001800000000000000\
    04000000f00000001c00000000000000050000000c010000040000000000000006000000100100002c00000000000000\
    070000003c010000180000000000000009000000540100000600000000000000010000005c0100000d00000000000000\
    000000000100000000000000000000000100000001000000000000000100000000000000000000000100000001000000\
    000000000200000001000000000000000000000001000000010000000000000000000000030000000100000000000000\
    000000000000000001000000000000000000000001000000010000000000000003000000000000000000000001000000\
    01000000000002000102000001000000000000000100000001172eb040";

/// As small: a group of two points, named twice. Four segments, the point count 2.
const LINE_TWICE: &str = "\
    545a46420100400000000000a08601006d01000008000000000000000000000000000000000000000100000001000000\
    0000000000000000000000000000000002000000c0000000180000000000000003000000d80000001800000000000000\
    04000000f00000001c00000000000000050000000c010000080000000000000006000000140100002c00000000000000\
    0700000040010000180000000000000009000000580100000400000000000000010000005c0100000d00000000000000\
    000000000100000000000000000000000100000000000000000000000100000000000000000000000100000000000000\
    000000000200000002000000000000000000000001000000000000000000000000000000000000000200000001000000\
    000000000000000001000000000000000000000000000000010000000000000000000000020000000000000000000000\
    0100000000000000000002000100000000000000010000000127e27c23";

/// Three groups of one point: three segments, all of them joints, and the point count 0. The original does not open it, since a group has one point.
const THREE_POINTS: &str = "\
    545a46420100400000000000a0860100fd01000008000000000000000000000000000000000000000100000001000000\
    0000000000000000000000000000000002000000c0000000180000000000000003000000d80000001800000000000000\
    04000000f00000001c00000000000000050000000c0100000c0000000000000006000000180100008400000000000000\
    070000009c010000480000000000000009000000e4010000060000000000000001000000ec0100000d00000000000000\
    000000000100000000000000000000000100000001000000000000000100000000000000000000000100000001000000\
    000000000000000003000000000000000000000001000000010000000000000001000000020000000000000001000000\
    010000000000000000000000000000000000000000000000000000000000000000000000010000000100000001000000\
    010000000000000001000000000000000100000000000000010000000000000002000000010000000100000000000000\
    010000000000000001000000000000000100000000000000010000000000000001000000000000000000000000000000\
    000000000200000001000000010000000000000001000000000000000400000001000000000000000100000000000000\
    01000000000002000002000001000000000000000100000001fdbd9926";

/// Four points of which two are stored: the first segment is a hit, and behind it the bytes run out.
const HIT_BEFORE_THE_END: &str = "\
    545a46420100400000000000a08601006901000008000000000000000000000000000000000000000100000001000000\
    0000000000000000000000000000000002000000c0000000180000000000000003000000d80000001800000000000000\
    04000000f00000001c00000000000000050000000c010000040000000000000006000000100100002c00000000000000\
    070000003c01000018000000000000000900000054010000040000000000000001000000580100000d00000000000000\
    000000000100000000000000000000000000000000000000000000000100000000000000000000000000000000000000\
    000000000300000001000000000000000000000000000000000000000000000000000000040000000100000000000000\
    000000000000000000000000000000000000000000000000000000000000000004000000000000000000000000000000\
    00000000000000000100000000000000010000000111d8f5d2";

fn bytes(hex: &str) -> Vec<u8> {
    let byte = |at: usize| u8::from_str_radix(&hex[at..at + 2], 16).unwrap();
    (0..hex.len()).step_by(2).map(byte).collect()
}

/// The rules, the port and the original, of a file that is opened and then asked with these bytes.
fn all(file: &[u8], lent: &[u8], q: Question) -> [Result<Answer, u32>; 3] {
    let opened = rules::open(file, &[]).ok().unwrap().asked_with(lent);
    let port = port::opening::open(file).ok().unwrap().asked_with(lent);
    let original = original(file).ok().unwrap().asked_with(lent);
    let judge = Judge::plain(opened, &[]);
    [judge.ask(q), port.ask(q), original.ask(q)].map(Option::unwrap)
}

fn differs(
    file: &[u8],
    lent: &[u8],
    q: Question,
    document: Result<Answer, u32>,
    departed: Result<Answer, u32>,
) {
    assert_eq!(all(file, lent, q), [document.clone(), document, departed]);
}

/// What rules and port say of the full check: 0, or 47 with the lowest broken rule.
fn checked(file: &[u8]) -> (u32, u32) {
    let said = rules::full_check(file).err().map_or((0, 0), |broken| (broken.number, broken.rule));
    assert_eq!(port::asking::full_check(file), said);
    said
}

/// A ring with point count below 3, and (0, 0) on it.
fn is_short(file: &[u8]) {
    differs(file, file, Question::Contains(0, 0, 0), Ok(Answer::Is(true)), Err(34));
    differs(file, file, Question::Lookup(0.0, 0.0), Ok(Answer::Zone(Some(0))), Err(34));
    let list = Question::LookupInto(0.0, 0.0, 1);
    differs(file, file, list, Ok(Answer::Zones(vec![0])), Err(34));
}

#[test]
fn of_a_short_ring() {
    let file = bytes(SHORT_RING);
    assert_eq!((file.len(), checked(&file)), (361, (47, 2)));
    is_short(&file);
}

#[test]
fn of_a_short_ring_that_is_accepted() {
    for file in [OPEN_TRIANGLE, LINE_TWICE].map(bytes) {
        assert_eq!((file.len(), checked(&file)), (365, (0, 0)));
        is_short(&file);
    }
}

#[test]
fn of_three_groups_of_one_point() {
    let file = bytes(THREE_POINTS);
    assert_eq!((file.len(), checked(&file)), (509, (0, 0)));
    assert_eq!(original(&file).err(), Some(34));
    let opened = rules::open(&file, &[]).ok().unwrap();
    let port = port::opening::open(&file).ok().unwrap();
    for (x, y, inside) in [(0, 0, true), (1, 0, true), (0, 1, true), (1, 1, false)] {
        let (q, said) = (Question::Contains(0, x, y), Some(Ok(Answer::Is(inside))));
        assert_eq!((Judge::plain(opened, &[]).ask(q), port.ask(q)), (said.clone(), said));
    }
}

/// Of each smallest input that opens: 0 where the full check accepts it, else the lowest broken rule.
#[test]
fn of_the_full_check() {
    let list = include_bytes!("../../../crates/run_open/stdin");
    let records = list.chunks(1024).rev().take(OF_OPENING.len());
    let opening = records.filter(|record| word(record, 4) == 0);
    let mut files: Vec<Vec<u8>> =
        opening.map(|record| record[8..8 + word(record, 0) as usize].to_vec()).collect();
    files.extend([SHORT_RING, HIT_BEFORE_THE_END, OPEN_TRIANGLE, LINE_TWICE].map(bytes));
    files.extend([file::departing().pop().unwrap().1, striped::leaving(8, false)]);
    let rules: Vec<u32> = files.iter().map(|file| checked(file).1).collect();
    assert_eq!(rules, [2, 2, 2, 3, 0, 0, 5, 3]);
}

#[test]
fn of_a_hit_before_the_end() {
    let file = bytes(HIT_BEFORE_THE_END);
    assert_eq!(file.len(), 361);
    differs(&file, &file, Question::Contains(0, 0, 0), Ok(Answer::Is(true)), Err(38));
}

/// The triangle whose last chunk lies in no stripe.
#[test]
fn of_a_chunk_below_its_group() {
    let (_, file) = file::departing().pop().unwrap();
    assert_eq!(file.len(), 545);
    let (inside, outside) = (Ok(Answer::Is(true)), Ok(Answer::Is(false)));
    differs(&file, &file, Question::Contains(0, 1, 1), inside, outside);
}

/// Whether sums that do not fit are told by a panic: so it is in a debug build, and with CARGO_PROFILE_RELEASE_OVERFLOW_CHECKS=true.
fn sums_are_checked() -> bool {
    std::panic::catch_unwind(|| std::hint::black_box(u8::MAX) + std::hint::black_box(1)).is_err()
}

/// In a group of two chunks or more a chunk's box below the group's: the original's difference is below zero, and is taken for a number near
/// 2^64. With one stripe, up to seven chunks, that is held to it, and nothing is lost. From eight on the product does not fit: a panic where
/// sums are checked, else the chunk's first stripe is the last one there is, and here it stands in none. Document 02: 49.
#[test]
fn of_a_box_below_its_groups() {
    for (chunks, length) in [(2, 385), (7, 509), (8, 533), (9, 561)] {
        let file = striped::leaving(chunks, false);
        assert_eq!(file.len(), length);
        assert_eq!(rules::open(&file, &[]).ok().unwrap().stripes_need(), Err(49));
        let numbers = original(&file).map(|original| original.stripes());
        let all: Vec<u32> = (0..chunks as u32).collect();
        let kept = &all[..chunks - 1];
        match chunks {
            0..8 => {
                let head = [0, 1, 1, 5, 0, 8, 0, chunks as u32];
                assert_eq!(numbers, Ok([&head[..], &all].concat()));
            }
            _ if sums_are_checked() => assert_eq!(numbers, Err(PANIC)),
            _ => {
                let end = 11 + kept.len() as u32;
                let head = [0, 1, 2, 5, 0, 11, 0, kept.len() as u32, end, 0, 0];
                assert_eq!(numbers, Ok([&head[..], kept].concat()));
            }
        }
    }
}

/// A box above the group's is held to the last stripe by the original, and nothing wraps; document 02 refuses it all the same, by 49.
#[test]
fn of_a_box_above_its_groups() {
    for chunks in [2, 7, 8, 9] {
        let file = striped::leaving(chunks, true);
        assert_eq!(rules::open(&file, &[]).ok().unwrap().stripes_need(), Err(49));
        let numbers = original(&file).ok().unwrap().stripes();
        let all: Vec<u32> = (0..chunks as u32).collect();
        let expected = match chunks {
            0..8 => [&[0, 1, 1, 5, 0, 8, 0, chunks as u32][..], &all].concat(),
            _ => {
                let (count, end) = (chunks as u32, 11 + chunks as u32);
                let head = [0, 1, 2, 5, 0, 11, 0, count, end, 0, 1];
                [&head[..], &all, &all[chunks - 1..]].concat()
            }
        };
        assert_eq!(numbers, expected);
    }
}

/// No caller of the original gets there: its reader owns its bytes.
#[test]
fn of_other_bytes_than_it_was_opened_from() {
    let file = broken::whole();
    let place = |typ| entries(&file).into_iter().find(|entry| entry[0] == typ).unwrap();
    let (chunks, points, names) = (place(CHUNKDIR), place(POINTS), place(file::NAMES));
    let cut = &file[..(points[1] + points[2]) as usize - 1];
    let last = Question::Decode(chunks[2] / 24 - 1, 64);
    differs(&file, cut, last, Err(44), Err(37));
    let mut none = file.clone();
    none[chunks[1] as usize + 4..chunks[1] as usize + 6].fill(0);
    differs(&file, &none, Question::Decode(0, 64), Err(32), Err(34));
    let mut turned = file.clone();
    let first = names[1] as usize + 4;
    put(&mut turned, first, word(&file, first + 4) + 1);
    assert_eq!(rules::open(&file, &[]).ok().unwrap().asked_with(&turned).name(0), Err(23));
    assert_eq!(port::opening::open(&file).unwrap().asked_with(&turned).name(0), Err(23));
    assert_eq!(original(&file).ok().unwrap().asked_with(&turned).name(0), Err(44));
}
