//! Where a chunk is broken: every refusal from 38 to 43, at each of its numbers, by every question, with stripes and without.

mod common;

use std::collections::{BTreeMap, BTreeSet};

use common::broken::{BY_THE_SEA, Damage, Shore};
use common::{
    CHUNKDIR, GROUPDIR, POINTS, Point, RINGDIR, RINGOPS, Squares, TZDIR, changed, chunk_of, coast,
    in_chunks, sample, start_of, stretch_of, words,
};
use tzb::journal::Entry;
use tzb::{Index, Refusal, Walk, full_check, map};

/// With stripes and without.
fn both(file: &[u8]) -> [Index<&[u8]>; 2] {
    let striped = Index::open(file).unwrap();
    assert!(matches!(striped.walk(), Walk::Striped { .. }), "{}", striped.walk());
    [striped, Index::open_plain(file).unwrap()]
}

fn degrees((x, y): Point) -> (f64, f64) {
    (f64::from(x) / 100_000.0, f64::from(y) / 100_000.0)
}

/// What every question says at a point, that has no answer there to compare.
fn asked(index: &Index<&[u8]>, point: Point) -> [Result<(), Refusal>; 5] {
    let (lng, lat) = degrees(point);
    [
        index.zone(lng, lat).map(|_| ()),
        index.zones(lng, lat).map(|_| ()),
        index.name_at(lng, lat).map(|_| ()),
        index.names_at(lng, lat).map(|_| ()),
        index.contains(0, point.0, point.1).map(|_| ()),
    ]
}

/// All coordinates above 0, and all below.
fn shores() -> [Shore; 2] {
    [Shore::new((100_000, 200_000)), Shore::new((-500_000, -400_000))]
}

#[test]
fn the_shore_is_sound() {
    for shore in shores() {
        let file = shore.file(&[]);
        assert_eq!(full_check(&file), Ok(()));
        for index in both(&file) {
            assert_eq!(index.chunk_count() as usize, BY_THE_SEA + 1);
            for chunk in 0..=BY_THE_SEA {
                let (lng, lat) = degrees(shore.beside(chunk));
                assert_eq!(index.name_at(lng, lat), Ok(Some("A")), "chunk {chunk}");
            }
        }
    }
}

/// Does this with every damage to every chunk.
fn with_every_damage(mut look: impl FnMut(&Shore, usize, &Damage, &[u8])) {
    for shore in shores() {
        for chunk in 0..=BY_THE_SEA {
            for damage in shore.damages(chunk) {
                let file = shore.file(&[(chunk, &damage.bytes)]);
                look(&shore, chunk, &damage, &file);
            }
        }
    }
}

#[test]
fn every_refusal_at_every_number() {
    let mut met = BTreeMap::new();
    with_every_damage(|shore, chunk, damage, file| {
        let place = chunk_of(file, chunk).start + damage.place;
        for index in both(file) {
            let refusal = index.decode(chunk as u32).unwrap_err();
            let told = (refusal.number(), refusal.place());
            assert_eq!(told, (damage.refusal, Some(place as u64)), "{chunk}: {}", damage.at);
            assert_eq!(asked(&index, shore.beside(chunk)), [Err(refusal); 5], "{chunk}");
            let shown = format!("refusal {}: ", damage.refusal);
            assert!(refusal.to_string().starts_with(&shown), "{refusal}");
            assert!(refusal.to_string().ends_with(&format!(", at byte {place}.")), "{refusal}");
        }
        *met.entry(damage.refusal).or_insert(0) += 1;
    });
    assert!(met.keys().copied().eq(38..=43), "{met:?}");
    assert!(met.values().sum::<i32>() > 3000, "{met:?}");
}

/// Inland a question reads the first points of the chunks by the sea alone: what is broken behind them is not met.
#[test]
fn a_first_point_read_alone() {
    let mut met = [0; 2];
    with_every_damage(|shore, chunk, damage, file| {
        let first = damage.at < 2 && damage.refusal != 43;
        for index in both(file) {
            let refusal = index.decode(chunk as u32).unwrap_err();
            let told = if first || chunk == BY_THE_SEA { Err(refusal) } else { Ok(()) };
            assert_eq!(asked(&index, shore.inland(chunk.min(BY_THE_SEA - 1))), [told; 5]);
            // From below the chunk it is read as the next one's, after all of the chunk there.
            if let Some(below) = chunk.checked_sub(1) {
                let told = if first { Err(refusal) } else { Ok(()) };
                assert_eq!(asked(&index, shore.beside(below)), [told; 5], "{chunk}");
                met[usize::from(first)] += 1;
            }
        }
    });
    assert!(met[0] > 1000 && met[1] > 300, "{met:?}");
}

/// The last chunk ends where the file's sum starts: so far does the place of a number go that would start there.
#[test]
fn the_end_of_the_last_chunk() {
    let shore = Shore::new((100_000, 200_000));
    let sound = shore.file(&[]);
    // The last number is a step of 0, a byte.
    let (last, before) = sound[chunk_of(&sound, BY_THE_SEA)].split_last().unwrap();
    assert_eq!(*last, 0);
    let cases = [(&[][..], 38, 4), (&[0x80], 38, 5), (&[0xff, 0xff], 38, 6), (&[0, 0], 43, 5)];
    for (rest, number, from_the_end) in cases {
        let file = shore.file(&[(BY_THE_SEA, &[before, rest].concat())]);
        let place = (file.len() - from_the_end) as u64;
        for index in both(&file) {
            let refusal = index.decode(BY_THE_SEA as u32).unwrap_err();
            assert_eq!((refusal.number(), refusal.place()), (number, Some(place)));
            assert_eq!(asked(&index, shore.beside(BY_THE_SEA)), [Err(refusal); 5]);
        }
    }
}

/// Document 02's rule once more: reads a chunk of so many points, and tells the refusal and its place.
fn rule(bytes: &[u8], count: usize) -> Result<(), (u32, usize)> {
    let mut place = 0;
    let (mut x, mut y) = (0_i64, 0_i64);
    for _ in 0..count {
        let at_x = place;
        let (dx, at_y) = number_at(bytes, at_x)?;
        let (dy, behind) = number_at(bytes, at_y)?;
        (x, y, place) = (x + dx, y + dy, behind);
        if i32::try_from(x).is_err() {
            return Err((41, at_x));
        }
        if i32::try_from(y).is_err() {
            return Err((41, at_y));
        }
        if x.abs() > 18_000_000 || y.abs() > 9_000_000 {
            return Err((42, at_y));
        }
    }
    if place < bytes.len() { Err((43, place)) } else { Ok(()) }
}

/// The number that starts at a place, and the place behind it.
fn number_at(bytes: &[u8], start: usize) -> Result<(i64, usize), (u32, usize)> {
    let mut value = 0;
    for (turn, place) in (start..start + 5).enumerate() {
        let byte = i64::from(*bytes.get(place).ok_or((38, start))?);
        if turn == 4 && byte >= 0x10 {
            return Err((40, start));
        }
        value += (byte & 0x7f) << (7 * turn);
        if byte == 0 && turn > 0 {
            return Err((39, start));
        }
        if byte < 0x80 {
            let half = value / 2;
            return Ok((if value % 2 == 0 { half } else { -1 - half }, place + 1));
        }
    }
    Err((40, start))
}

#[test]
fn the_rule_says_the_same() {
    with_every_damage(|_, chunk, damage, _| {
        let count = if chunk == BY_THE_SEA { 4 } else { 9 };
        assert_eq!(rule(&damage.bytes, count), Err((damage.refusal, damage.place)));
    });
}

/// Every byte of the points, changed: the rule's refusal of every chunk, and no other by any question.
#[test]
fn every_byte_of_the_points() {
    let shore = Shore::new((-500_000, 200_000));
    let sound = shore.file(&[]);
    let mut met = BTreeSet::new();
    for at in stretch_of(&sound, POINTS) {
        for byte in [0x00, 0x01, 0x0f, 0x10, 0x7f, 0x80, 0xff, sound[at] ^ 1, sound[at] ^ 0x80] {
            let file = changed(&sound, at, &[byte]);
            let broken = broken_chunks(&file);
            assert!(broken.len() <= 1);
            hold_questions(&shore, &file, broken.first().copied());
            met.extend(broken.first().map(|refusal| refusal.number()));
        }
    }
    // No byte alone takes a sum out of 32 bits.
    assert_eq!(met, BTreeSet::from([38, 39, 40, 42, 43]));
}

/// The refusals of all chunks that cannot be read, each held to the rule.
fn broken_chunks(file: &[u8]) -> Vec<Refusal> {
    let index = Index::open_plain(file).unwrap();
    let refused = (0..=BY_THE_SEA).filter_map(|chunk| {
        let count = if chunk == BY_THE_SEA { 4 } else { 9 };
        let bytes = chunk_of(file, chunk);
        let told = index.decode(chunk as u32).map(|points| assert_eq!(points.len(), count));
        let placed = told.map_err(|refusal| (refusal.number(), refusal.place().unwrap() as usize));
        let ruled = rule(&file[bytes.clone()], count);
        assert_eq!(placed, ruled.map_err(|(number, place)| (number, bytes.start + place)));
        told.err()
    });
    refused.collect()
}

/// No question has another refusal than this.
fn hold_questions(shore: &Shore, file: &[u8], refusal: Option<Refusal>) {
    let points = (0..=BY_THE_SEA).flat_map(|chunk| [shore.beside(chunk), shore.inland(chunk)]);
    let [striped, plain] = both(file);
    for point in points {
        let told = asked(&striped, point);
        assert_eq!(told, asked(&plain, point));
        assert!(told.iter().all(|told| told.is_ok() || told.err() == refusal), "{told:?}");
    }
}

/// Where the numbers of two bytes or more start in a chunk.
fn long_numbers(bytes: &[u8]) -> Vec<usize> {
    let ends = || bytes.iter().enumerate().filter(|(_, byte)| **byte < 0x80).map(|(at, _)| at + 1);
    let starts = [0].into_iter().chain(ends());
    starts.zip(ends()).filter(|(start, end)| end - start >= 2).map(|(start, _)| start).collect()
}

/// Chunks of the sample, each broken at a number in its midst: the place is told by every question that meets it.
#[test]
fn chunks_of_the_sample() {
    let sound = sample();
    let intact = Index::open(&sound).unwrap();
    for chunk in [0, 812, 5407] {
        let bytes = chunk_of(&sound, chunk);
        let starts = long_numbers(&sound[bytes.clone()]);
        let place = bytes.start + starts[starts.len() / 2];
        let file = changed(&sound, place, &[0x80, 0x00]);
        let points = intact.decode(chunk as u32).unwrap();
        for index in both(&file) {
            let refusal = index.decode(chunk as u32).unwrap_err();
            assert_eq!((refusal.number(), refusal.place()), (39, Some(place as u64)));
            let near = points.iter().flat_map(|[x, y]| asked(&index, (x + 1, *y)));
            let refused: Vec<Refusal> = near.filter_map(Result::err).collect();
            assert!(!refused.is_empty(), "chunk {chunk}");
            assert!(refused.iter().all(|other| *other == refusal), "{refused:?}");
        }
    }
}

/// Every refusal that a file can get but 38 to 43: none has a place, or shows one.
#[test]
fn no_other_refusal_has_a_place() {
    let squares = Squares::new(&["A"]);
    let ends_low = in_chunks("A", &coast(9));
    let low = changed(&ends_low, start_of(&ends_low, GROUPDIR) + 40, &words(&[8_999]));
    let Walk::Plain(why) = Index::open(&low).unwrap().walk() else { panic!() };
    assert!(why.to_string().starts_with("refusal 49: ") && !why.to_string().contains("byte"));
    let opened = |file: &[u8]| Index::open(file.to_vec()).unwrap();
    let ring = opened(&squares.with(RINGDIR, 4, &words(&[5])));
    let group = opened(&squares.with(RINGOPS, 0, &words(&[1])));
    let sound = opened(&squares.bytes);
    let wrong_sum = [&squares.bytes[..squares.bytes.len() - 1], &[0]].concat();
    let cut = squares.with(POINTS, 0, &[0x80, 0x00]);
    let small = squares.with(TZDIR, 16, &words(&[10]));
    let cases = [
        (1, Index::open(&[0; 67]).unwrap_err()),
        (11, Index::open(&wrong_sum).unwrap_err()),
        (32, Index::open(squares.with(CHUNKDIR, 4, &[0, 0])).unwrap_err()),
        (34, sound.decode(1).unwrap_err()),
        (35, group.zone(0.5, 0.5).unwrap_err()),
        (36, ring.zones(0.5, 0.5).unwrap_err()),
        (36, ring.contains(0, 50_000, 50_000).unwrap_err()),
        (45, sound.contains(1, 50_000, 50_000).unwrap_err()),
        (45, sound.name(1).unwrap_err()),
        (45, sound.map(1).unwrap_err()),
        (47, full_check(&cut).unwrap_err()),
        (47, full_check(&small).unwrap_err()),
        (47, map(&cut, 0).unwrap_err()),
        (47, Index::open_checked(&cut).unwrap_err()),
        (50, Entry::read(&[]).unwrap_err()),
    ];
    for (number, refusal) in cases {
        assert_eq!((refusal.number(), refusal.place()), (number, None));
        assert!(!refusal.to_string().contains("byte "), "{refusal}");
    }
}

/// An entry has the number alone, and reads back as it was written, whatever place the refusal had.
#[test]
fn a_journal_keeps_the_number_alone() {
    with_every_damage(|shore, chunk, damage, file| {
        let index = Index::open_plain(file).unwrap();
        let (x, y) = shore.beside(chunk);
        let asked = index.contains(0, x, y).unwrap_err();
        let entry = index.journal(x, y);
        let reason = entry.reason().unwrap();
        assert_eq!((reason.number(), reason.place()), (damage.refusal, None));
        assert_ne!(reason, asked);
        assert_eq!(Entry::refused(x, y, asked), entry);
        assert_eq!(Entry::read(&entry.to_bytes().unwrap()), Ok(entry));
    });
}
