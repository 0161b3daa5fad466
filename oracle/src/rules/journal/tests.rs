//! Document 02's example and forms, for three places and for seven, and the order of the answer rule.

use super::*;
use crate::file;

/// Both sizes that document 02 knows of.
const SIZES: [usize; 2] = [3, 7];

fn entry(x: i32, y: i32, zones: &[u32], reason: u32) -> Entry {
    Entry { x, y, zones: zones.to_vec(), reason }
}

/// An entry's bytes: what stands in the places, then 65535 in those behind, whatever the count says.
fn bytes(places: usize, (x, y): (i32, i32), first: &[u16], count: u8, reason: u8) -> Vec<u8> {
    let mut out = [x.to_le_bytes(), y.to_le_bytes()].concat();
    (0..places).for_each(|i| out.extend(first.get(i).unwrap_or(&65_535).to_le_bytes()));
    out.extend([count, reason]);
    out
}

/// Both ways, or neither.
fn is_of_a_form(places: usize, at: (i32, i32), zones: &[u32], reason: u32) -> bool {
    let said = entry(at.0, at.1, zones, reason);
    let written = said.write(places);
    if let Ok(bytes) = &written {
        assert_eq!(Entry::read(bytes, places), Ok(said));
    }
    assert!(written.is_ok() || written == Err(50));
    written.is_ok()
}

#[test]
fn the_example_of_document_02() {
    let said = entry(1, -1, &[5], 0);
    let example = [1, 0, 0, 0, 0xff, 0xff, 0xff, 0xff, 5, 0, 0xff, 0xff, 0xff, 0xff, 1, 0].to_vec();
    assert_eq!(said.write(3), Ok(example.clone()));
    assert_eq!(Entry::read(&example, 3), Ok(said));
    assert_eq!(Entry::read(&example, 7), Err(50));
}

#[test]
fn an_entry_has_the_length_of_its_places() {
    assert_eq!(SIZES.map(length), [16, 24]);
    for places in SIZES {
        let right = bytes(places, (0, 0), &[], 0, 0);
        assert_eq!(right.len(), length(places));
        assert_eq!(Entry::read(&right, places), Ok(entry(0, 0, &[], 0)));
        for wrong in [0, 1, right.len() - 1, right.len() + 1, 2 * right.len()] {
            let mut other = right.clone();
            other.resize(wrong, 0xff);
            assert_eq!(Entry::read(&other, places), Err(50), "{wrong} bytes");
        }
    }
}

#[test]
fn up_to_as_many_zones_as_places() {
    for places in SIZES {
        let zones: Vec<u32> = (0..=places as u32).collect();
        for count in 0..=places {
            assert!(is_of_a_form(places, (0, 0), &zones[..count], 0));
        }
        assert!(!is_of_a_form(places, (0, 0), &zones, 0));
    }
}

#[test]
fn zone_numbers_are_different_and_below_65535() {
    for places in SIZES {
        assert!(is_of_a_form(places, (0, 0), &[65_534, 0, 1], 0));
        for zones in [&[65_535][..], &[0, 65_535], &[65_536], &[u32::MAX]] {
            assert!(!is_of_a_form(places, (0, 0), zones, 0), "{zones:?}");
        }
        for zones in [[7, 7, 1], [7, 1, 7], [1, 7, 7]] {
            assert!(!is_of_a_form(places, (0, 0), &zones, 0), "{zones:?}");
            let stored = zones.map(|zone| zone as u16);
            assert_eq!(Entry::read(&bytes(places, (0, 0), &stored, 3, 0), places), Err(50));
        }
    }
}

#[test]
fn places_from_the_count_on_are_unused() {
    for places in SIZES {
        for (first, count, of_a_form) in [
            (&[5, 6][..], 2, true),
            (&[5, 6], 1, false),
            (&[5, 6], 0, false),
            (&[5, 6], 3, false),
            (&[65_535, 6], 2, false),
            (&[65_535, 6], 1, false),
            (&[5, 65_535, 6], 1, false),
            (&[], 0, true),
            (&[], 1, false),
        ] {
            let read = Entry::read(&bytes(places, (0, 0), first, count, 0), places);
            assert_eq!(read.is_ok(), of_a_form, "{first:?} {count}");
        }
        let past = places as u8 + 1;
        let all: Vec<u16> = (0..places as u16).collect();
        assert!(Entry::read(&bytes(places, (0, 0), &all, past - 1, 0), places).is_ok());
        for count in [past - 2, past, 255] {
            assert_eq!(Entry::read(&bytes(places, (0, 0), &all, count, 0), places), Err(50));
        }
    }
}

#[test]
fn a_reason_stands_without_zones() {
    for places in SIZES {
        for reason in 0..=46 {
            assert!(is_of_a_form(places, (0, 0), &[], reason));
            assert_eq!(is_of_a_form(places, (0, 0), &[5], reason), reason == 0);
        }
        for reason in [47, 48, 49, 50, 255, 256, 65_536, u32::MAX] {
            assert!(!is_of_a_form(places, (0, 0), &[], reason));
        }
        for reason in 0..=255 {
            let read = Entry::read(&bytes(places, (3, 4), &[], 0, reason), places);
            assert_eq!(read.is_ok(), reason <= 46);
            let read = Entry::read(&bytes(places, (3, 4), &[5], 1, reason), places);
            assert_eq!(read.is_ok(), reason == 0);
        }
    }
}

#[test]
fn zones_stand_in_the_domain_alone() {
    let (east, north) = (18_000_000, 9_000_000);
    for places in SIZES {
        for (x, y, inside) in [
            (0, 0, true),
            (east, north, true),
            (-east, -north, true),
            (east + 1, 0, false),
            (-east - 1, 0, false),
            (0, north + 1, false),
            (0, -north - 1, false),
            (i32::MIN, 0, false),
            (0, i32::MIN, false),
            (i32::MAX, i32::MAX, false),
        ] {
            assert_eq!(is_of_a_form(places, (x, y), &[5], 0), inside, "{x} {y}");
            assert!(is_of_a_form(places, (x, y), &[], 0));
            assert!(is_of_a_form(places, (x, y), &[], 34));
        }
    }
}

/// 50, then 46; for a caller three places alone.
#[test]
fn calls_are_refused_in_order() {
    let said = entry(1, -1, &[5], 0);
    let bytes = said.write(3).unwrap();
    for places in [0, 1, 2, 4, 7, 8, 255, 256, 259, 65_539, u32::MAX] {
        assert_eq!(written(&said, places, 0), Err(50));
        assert_eq!(read(&bytes, places, [0, 0]), Err(50));
        assert_eq!(asked(&[0; 84], &[], places, (0, 0), 0), Err(50));
        assert_eq!(asked(&[0; 83], &[], places, (0, 0), 0), Err(44));
    }
    assert_eq!(written(&entry(1, -1, &[5], 1), 3, 0), Err(50));
    assert_eq!(written(&said, 3, 15), Err(46));
    assert_eq!(written(&said, 3, 16), Ok(bytes.clone()));
    assert_eq!(read(&bytes[1..], 3, [0, 0]), Err(50));
    for (rooms, fits) in [([1, 1], false), ([2, 0], false), ([2, 1], true), ([9, 9], true)] {
        assert_eq!(read(&bytes, 3, rooms), if fits { Ok(said.clone()) } else { Err(46) });
    }
    assert_eq!(asked(&[0; 84], &[], 3, (0, 0), 15), Err(46));
    assert_eq!(asked(&[0; 84], &[], 3, (0, 0), 16), Ok(entry(0, 0, &[], 0).write(3).unwrap()));
}

/// The kept index and the answers that are read off document 02 by hand, for three places; with seven more zones fit.
#[test]
fn the_kept_answers_are_those_of_the_rule() {
    let file = file::journal::kept();
    for ((x, y), said) in file::journal::ANSWERS {
        let expected = file::journal::expected((x, y), said);
        assert_eq!(of_file(&file, 3, x, y), expected);
        let of_seven = of_file(&file, 7, x, y);
        match expected.reason {
            46 => assert!(of_seven.reason == 0 && of_seven.zones.len() > 3),
            _ => assert_eq!(of_seven, expected),
        }
    }
}

/// Opening's refusal stands in every entry, also outside the domain.
#[test]
fn a_file_that_does_not_open_is_the_reason() {
    for (number, file) in file::cases() {
        for (x, y) in [(0, 0), (i32::MIN, 5)] {
            assert_eq!(of_file(&file, 3, x, y), entry(x, y, &[], number));
        }
    }
}

/// Of records made by hand: tests, then names, then 46, then 45.
#[test]
fn the_answer_rule_refuses_in_order() {
    for case in file::journal::by_hand() {
        let opened = Opened::of_record(&case.record, &case.file).ok().unwrap();
        let Entry { x, y, .. } = case.expected;
        assert_eq!(opened.entry(3, x, y), case.expected, "{}", case.what);
    }
}
