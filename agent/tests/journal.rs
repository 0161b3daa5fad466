//! A journal of answers: what an entry says of a question, what reads back, and what is no entry.

mod common;

use std::collections::BTreeSet;

use common::{NAMES, POINTS, RINGDIR, RINGOPS, Squares, changed, drawn, sample, words};
use tzb::journal::{ENTRY, Entry, PLACES, entries};
use tzb::{Index, Refusal};

/// Document 02's own: position (1, -1) in zone 5 alone.
const EXAMPLE: [u8; 16] = [1, 0, 0, 0, 0xff, 0xff, 0xff, 0xff, 5, 0, 0xff, 0xff, 0xff, 0xff, 1, 0];

fn entry(x: i32, y: i32, zones: &[u32]) -> Entry {
    Entry { x, y, answer: Ok(zones.to_vec()) }
}

/// A refusal by its number: one that an entry can have is read from one.
fn refusal(number: u8) -> Refusal {
    let mut bytes = entry(0, 0, &[]).to_bytes().unwrap();
    bytes[ENTRY - 1] = number;
    Entry::read(&bytes).unwrap().reason().unwrap()
}

/// What the refusal is, by its number.
fn number<T>(answer: Result<T, Refusal>) -> u32 {
    answer.map_or_else(|refusal| refusal.number(), |_| 0)
}

#[test]
fn the_example() {
    let five = entry(1, -1, &[5]);
    assert_eq!(five.to_bytes(), Ok(EXAMPLE));
    assert_eq!(Entry::read(&EXAMPLE), Ok(five.clone()));
    assert_eq!((five.zones(), five.reason(), five.degrees()), (&[5][..], None, (1e-5, -1e-5)));
    assert_eq!((PLACES, ENTRY), (3, 16));
    // The same position in three zones, as a question has it.
    let names = ["A", "B", "C"];
    let around: &[(i32, i32)] = &[(-9, -9), (9, -9), (9, 9), (-9, 9)];
    let index = Index::open(drawn(&names, &[&[around]])).unwrap();
    let bytes = index.journal_bytes(&[[1, -1]]).unwrap();
    assert_eq!(bytes[..8], EXAMPLE[..8]);
    assert_eq!(bytes[8..], [0, 0, 1, 0, 2, 0, 3, 0]);
}

#[test]
fn what_is_written_is_read_back() {
    let zones: [&[u32]; 6] = [&[], &[0], &[65_534], &[5, 4], &[480, 0, 65_534], &[2, 1, 0]];
    let edges = [0, 1, -1, 9_000_000, -9_000_000];
    let wide = [18_000_000, -18_000_000];
    for x in edges.into_iter().chain(wide) {
        for (y, zones) in edges.into_iter().flat_map(|y| zones.map(|zones| (y, zones))) {
            let one = entry(x, y, zones);
            let bytes = one.to_bytes().unwrap();
            assert_eq!(Entry::read(&bytes), Ok(one));
        }
    }
    for (x, y) in [(18_000_001, 0), (0, -9_000_001), (i32::MIN, i32::MAX), (0, 0)] {
        let none = entry(x, y, &[]);
        assert_eq!(Entry::read(&none.to_bytes().unwrap()), Ok(none));
        for reason in 1..=46 {
            let refused = Entry::refused(x, y, refusal(reason));
            assert_eq!(refused.reason().unwrap().number(), reason.into());
            assert_eq!(Entry::read(&refused.to_bytes().unwrap()), Ok(refused));
        }
    }
}

/// What is read is written to the same bytes, and all else is 50: every value of every byte, alone and with a second byte
/// that can make it right again.
#[test]
fn bytes_are_an_entry_or_50() {
    let mut read = 0;
    let mut judge = |bytes: &[u8; ENTRY]| match Entry::read(bytes) {
        Ok(entry) => {
            assert_eq!(entry.to_bytes().as_ref(), Ok(bytes));
            assert!(entry.zones().is_empty() || entry.reason().is_none());
            read += 1;
        }
        Err(refusal) => assert_eq!(refusal.number(), 50, "{bytes:?}"),
    };
    let full = entry(1, -1, &[5, 6, 7]).to_bytes().unwrap();
    let refused = Entry::refused(1, -1, refusal(46)).to_bytes().unwrap();
    for start in [EXAMPLE, full, refused] {
        for (at, value) in (0..ENTRY).flat_map(|at| (0..=255).map(move |value| (at, value))) {
            for (second, other) in [(at, value), (ENTRY - 2, 0), (ENTRY - 2, 2), (ENTRY - 1, 7)] {
                let mut bytes = start;
                bytes[second] = other;
                bytes[at] = value;
                judge(&bytes);
            }
        }
    }
    assert!(read > 1000, "{read}");
}

/// Each way in which bytes are no entry.
#[test]
fn bytes_of_no_form_are_50() {
    let with = |places: [u16; 3], count: u8, reason: u8| {
        let places = places.iter().flat_map(|place| place.to_le_bytes());
        EXAMPLE[..8].iter().copied().chain(places).chain([count, reason]).collect::<Vec<u8>>()
    };
    let none = 65_535;
    let formless = [
        with([5, none, none], 0, 0),
        with([5, none, none], 2, 0),
        with([5, 6, none], 1, 0),
        with([none, 5, none], 1, 0),
        with([5, none, 6], 2, 0),
        with([5, 5, none], 2, 0),
        with([5, 6, 5], 3, 0),
        with([5, 6, 7], 4, 0),
        with([5, none, none], 1, 46),
        with([5, none, none], 0, 46),
        with([none, none, none], 1, 46),
        with([none, none, none], 0, 47),
        with([none, none, none], 0, 50),
        with([none, none, none], 0, 255),
        with([none, none, none], 255, 0),
        with([0, 0, 0], 0, 0),
    ];
    for bytes in formless {
        assert_eq!(number(Entry::read(&bytes)), 50, "{bytes:?}");
    }
    // A zone at a position outside the domain, by a step.
    for (x, y) in [(18_000_001, 0), (-18_000_001, 0), (0, 9_000_001), (0, -9_000_001)] {
        let mut bytes = EXAMPLE;
        bytes[..8].copy_from_slice(&words(&[x as u32, y as u32]));
        assert_eq!(number(Entry::read(&bytes)), 50, "{x} {y}");
    }
    let longer = [EXAMPLE, EXAMPLE].concat();
    for length in (0..=2 * ENTRY).filter(|&length| length != ENTRY) {
        assert_eq!(number(Entry::read(&longer[..length])), 50, "{length} bytes");
    }
}

#[test]
fn what_no_entry_can_be_is_not_written() {
    let formless = [
        entry(0, 0, &[1, 2, 3, 4]),
        entry(0, 0, &[7, 7]),
        entry(0, 0, &[65_535]),
        entry(0, 0, &[65_536]),
        entry(0, 0, &[u32::MAX]),
        entry(18_000_001, 0, &[7]),
        entry(0, -9_000_001, &[7]),
        entry(i32::MIN, i32::MIN, &[0]),
    ];
    let unsound = Squares::new(&["A"]).with(RINGDIR, 4, &words(&[5]));
    let not_sound = Index::open_checked(unsound).unwrap_err();
    assert_eq!(not_sound.number(), 47);
    let of_47 = Entry::refused(0, 0, not_sound);
    let of_50 = Entry::refused(0, 0, Entry::read(&[]).unwrap_err());
    for entry in formless.into_iter().chain([of_47, of_50]) {
        assert_eq!(number(entry.to_bytes()), 50, "{entry:?}");
        // 50 goes before 46, and nothing is changed.
        for length in [0, ENTRY - 1, ENTRY, 40] {
            let mut room = vec![0xee; length];
            assert_eq!(number(entry.write(&mut room)), 50, "{entry:?}");
            assert!(room.iter().all(|&byte| byte == 0xee), "{entry:?}");
        }
    }
}

#[test]
fn lent_room() {
    let five = entry(1, -1, &[5]);
    for length in 0..40 {
        let mut room = vec![0xee; length];
        let code = number(five.write(&mut room));
        let written = if length < ENTRY { 0 } else { ENTRY };
        assert_eq!(code, if written == 0 { 46 } else { 0 }, "{length}");
        assert_eq!(room[..written], EXAMPLE[..written]);
        assert!(room[written..].iter().all(|&byte| byte == 0xee), "{length}");
    }
}

#[test]
fn a_journal_entry_by_entry() {
    let all = [entry(1, -1, &[5]), Entry::refused(2, -2, refusal(11)), entry(3, -3, &[])];
    let bytes: Vec<u8> = all.iter().flat_map(|entry| entry.to_bytes().unwrap()).collect();
    assert_eq!(entries(&bytes).collect::<Result<Vec<_>, _>>().unwrap(), all);
    assert_eq!(entries(&[]).next(), None);
    assert_eq!((entries(&bytes).len(), entries(&[]).len()), (3, 0));
    // One in the middle that is none spoils no other.
    let mut broken = bytes.clone();
    broken[ENTRY + 14] = 1;
    let read: Vec<_> = entries(&broken).collect();
    assert_eq!((&read[0], &read[2]), (&Ok(all[0].clone()), &Ok(all[2].clone())));
    assert_eq!(read[1].clone().unwrap_err().number(), 50);
    // Cut anywhere: what is left over is one refusal, the last.
    for length in 0..bytes.len() {
        let mut cut = entries(&bytes[..length]);
        assert_eq!(cut.len(), length.div_ceil(ENTRY));
        for whole in &all[..length / ENTRY] {
            assert_eq!(cut.next(), Some(Ok(whole.clone())));
        }
        if length % ENTRY > 0 {
            assert_eq!(cut.next().map(number), Some(50), "{length}");
        }
        assert_eq!((cut.len(), cut.next(), cut.next()), (0, None, None));
    }
}

/// Every zone is asked, the grid is not: so says the list, and so say the bytes.
#[test]
fn the_sample() {
    let index = Index::open(sample()).unwrap();
    let zones = |x, y| -> Vec<u32> {
        let mut zones: Vec<u32> =
            (0..index.zone_count()).filter(|&zone| index.contains(zone, x, y).unwrap()).collect();
        zones.sort_by_key(|&zone| index.name(zone).unwrap());
        zones
    };
    let mut met = BTreeSet::new();
    let mut points = vec![[868_000, 5_011_000], [-3_000_000, 0], [18_000_001, 0]];
    points.extend((0..5408).step_by(97).map(|chunk| index.decode(chunk).unwrap()[0]));
    let bytes = index.journal_bytes(&points).unwrap();
    assert_eq!(bytes.len(), ENTRY * points.len());
    for ([x, y], read) in points.into_iter().zip(entries(&bytes)) {
        let zones = zones(x, y);
        met.insert(zones.len());
        let told = match zones.len() <= PLACES as usize {
            true => entry(x, y, &zones),
            false => Entry::refused(x, y, refusal(46)),
        };
        assert_eq!(index.journal(x, y), told);
        assert_eq!(read, Ok(told));
    }
    assert!(met.is_superset(&BTreeSet::from([0, 1, 2, 3, 4])), "{met:?}");
    // The grid lists Germany alone here, and a zone of the sea reaches over it.
    assert_eq!(index.journal(868_000, 5_011_000).answer, Ok(vec![469, 126]));
    assert_eq!(index.zones(8.68, 50.11), Ok(vec![126]));
    assert_eq!(index.journal_bytes(&[]), Ok(vec![]));
}

#[test]
fn more_zones_than_places_is_46() {
    let names = ["D", "C", "B", "A", "E"];
    for count in 1..=names.len() {
        let index = Index::open(Squares::new(&names[..count]).bytes).unwrap();
        let by_name: Vec<u32> = (0..count.min(4) as u32).rev().chain(4..count as u32).collect();
        let told = match count <= PLACES as usize {
            true => entry(50_000, 50_000, &by_name),
            false => Entry::refused(50_000, 50_000, refusal(46)),
        };
        assert_eq!(index.journal(50_000, 50_000), told, "{count} zones");
        assert_eq!(index.journal(-1, 50_000), entry(-1, 50_000, &[]), "{count} zones");
    }
    // Equal names stand by number.
    let index = Index::open(Squares::new(&["B", "A", "B"]).bytes).unwrap();
    assert_eq!(index.journal(50_000, 50_000).answer, Ok(vec![1, 0, 2]));
}

/// Files that open and are broken: the first refusal of a zone in turn is the reason, and it goes before 46.
#[test]
fn the_refusal_of_a_question_is_its_reason() {
    let cases = [
        (36, RINGDIR, 4, words(&[5])),
        (35, RINGOPS, 0, words(&[1])),
        (39, POINTS, 0, vec![0x80, 0x00]),
    ];
    for (reason, section, at, new) in cases {
        for names in [&["A"][..], &["A", "B", "C", "D"]] {
            let index = Index::open(Squares::new(names).with(section, at, &new)).unwrap();
            let told = index.journal(50_000, 50_000);
            assert_eq!(told, Entry::refused(50_000, 50_000, refusal(reason)));
            let asked = index.contains(0, 50_000, 50_000).unwrap_err();
            assert_eq!(told.reason().map(|refusal| refusal.number()), Some(asked.number()));
            // The number alone is kept, also of a refusal that has a place.
            assert_eq!(told.reason().unwrap().place(), None);
            assert_eq!(Entry::refused(50_000, 50_000, asked), told);
            // Where no zone is looked into there is no refusal, and outside the domain no question.
            assert_eq!(index.journal(300_000, 50_000).answer, Ok(vec![]), "{reason}");
            assert_eq!(index.journal(i32::MAX, i32::MIN).answer, Ok(vec![]), "{reason}");
        }
    }
}

#[test]
fn a_file_that_does_not_open() {
    let squares = Squares::new(&["A", "B"]);
    let broken = [
        (1, vec![0; 67]),
        (2, vec![0; 100]),
        (11, [&squares.bytes[..squares.bytes.len() - 1], &[0]].concat()),
        (18, changed(&squares.bytes, 8, &words(&[1]))),
        (24, squares.with(NAMES, 8, &words(&[0]))),
    ];
    for (reason, file) in broken {
        let why = Index::open(file).unwrap_err();
        for (x, y) in [(0, 0), (50_000, 50_000), (i32::MAX, i32::MIN)] {
            let read = Entry::read(&Entry::refused(x, y, why).to_bytes().unwrap()).unwrap();
            assert_eq!((read.x, read.y, read.answer), (x, y, Err(refusal(reason))));
        }
    }
}

/// An index that is asked with other bytes than it was opened of has an entry all the same.
#[test]
fn bytes_that_change() {
    use std::cell::Cell;
    struct Changing(Cell<u32>, Vec<u8>, Vec<u8>);
    impl AsRef<[u8]> for Changing {
        fn as_ref(&self) -> &[u8] {
            if self.0.replace(1) == 0 { &self.1 } else { &self.2 }
        }
    }
    let before = Squares::new(&["A", "B"]).bytes;
    for after in [vec![], before[..before.len() / 2].to_vec(), vec![0xff; before.len()], sample()] {
        let index = Index::open(Changing(Cell::new(0), before.clone(), after)).unwrap();
        let told = index.journal(50_000, 50_000);
        assert_eq!((told.x, told.y), (50_000, 50_000));
        assert!(told.reason().is_none_or(|refusal| (1..=46).contains(&refusal.number())));
        assert_eq!(index.journal_bytes(&[[50_000, 50_000]]), Ok(told.to_bytes().unwrap().to_vec()));
    }
}
