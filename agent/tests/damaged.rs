//! Damaged files: each gets the number that its damage calls for, and none makes the library panic.

mod common;

use std::collections::BTreeSet;

use common::{
    CHUNKDIR, GROUPDIR, NAMES, POINTS, RINGDIR, RINGOPS, Squares, TZDIR, changed, coast, drawn,
    in_chunks, same_at, sample, stretch_of, words,
};
use tzb::journal::Entry;
use tzb::{Index, Refusal, Walk, WhyPlain, full_check, map};

fn opening(file: &[u8]) -> u32 {
    Index::open(file).map_or_else(|refusal| refusal.number(), |_| 0)
}

/// Opens, checks and asks all there is to ask. Every answer is one, or a refusal with a number and a sentence; and the same
/// with stripes and without.
fn ask_everything(file: &[u8], numbers: &mut BTreeSet<(u32, Option<u32>)>) {
    let mut note = |refusal: Refusal| {
        assert!((1..=50).contains(&refusal.number()), "{refusal:?}");
        assert_eq!(refusal.rule().is_some(), refusal.number() == 47, "{refusal:?}");
        assert!(refusal.rule().is_none_or(|rule| (2..=6).contains(&rule)), "{refusal:?}");
        assert!(refusal.to_string().starts_with(&format!("refusal {}: ", refusal.number())));
        let placed = (38..=43).contains(&refusal.number());
        assert_eq!(refusal.place().is_some(), placed, "{refusal:?}");
        assert_eq!(refusal.to_string().contains(", at byte "), placed, "{refusal}");
        if let Some(place) = refusal.place() {
            let points = stretch_of(file, POINTS);
            assert!((points.start..=points.end).contains(&(place as usize)), "{refusal}");
        }
        numbers.insert((refusal.number(), refusal.rule()));
    };
    full_check(file).unwrap_or_else(&mut note);
    for zone in [0, 1] {
        map(file, zone).err().into_iter().for_each(&mut note);
    }
    let index = match Index::open(file) {
        Ok(index) => index,
        Err(refusal) => return note(refusal),
    };
    index.names().filter_map(Result::err).for_each(&mut note);
    for (lng, lat) in [(0.5, 0.5), (0.0, 0.5), (-1.0, 0.5), (2.0, 2.0)] {
        index.zone(lng, lat).err().into_iter().for_each(&mut note);
        index.zones(lng, lat).err().into_iter().for_each(&mut note);
        same_at(&index, &Index::open_plain(file).unwrap(), (lng, lat));
    }
    for (x, y) in [(50_000, 50_000), (0, 50_000), (200_000, 200_000)] {
        let entry = index.journal(x, y);
        assert_eq!(Entry::read(&entry.to_bytes().unwrap()), Ok(entry.clone()));
        assert!(entry.reason().is_none_or(|refusal| refusal.place().is_none()));
    }
    for number in [0, 1] {
        index.contains(number, 50_000, 50_000).err().into_iter().for_each(&mut note);
        index.decode(number).err().into_iter().for_each(&mut note);
    }
    assert!(index.sections().count() < 100 && index.data_version().len() <= 16);
    if let Walk::Plain(why) = index.walk() {
        let WhyPlain::Refused(refusal) = why else { panic!("{why}") };
        assert!(refusal.number() == 49 && full_check(file).is_err_and(|r| r.rule() <= Some(5)));
        note(refusal);
    }
}

#[test]
fn the_small_file_is_sound() {
    let squares = Squares::new(&["A"]);
    assert_eq!(full_check(&squares.bytes), Ok(()));
    let index = Index::open(&squares.bytes).unwrap();
    assert_eq!(index.name_at(0.5, 0.5), Ok(Some("A")));
    assert_eq!(index.name_at(0.5, 1.5), Ok(None));
    assert_eq!(index.contains(0, 100_000, 50_000), Ok(true));
    assert_eq!(index.contains(0, 100_001, 50_000), Ok(false));
    assert_eq!(index.decode(0).unwrap()[2], [100_000, 100_000]);
    assert_eq!((index.data_version(), index.grid()), ("2026c", None));
}

/// More zones at one position than the library lends room for at first.
#[test]
fn room_grows_where_46_asks() {
    let names: Vec<String> = (0..300).map(|n| format!("zone {:03}", 299 - n)).collect();
    let names: Vec<&str> = names.iter().map(String::as_str).collect();
    let squares = Squares::new(&names);
    let index = Index::open(&squares.bytes).unwrap();
    let by_name: Vec<u32> = (0..300).rev().collect();
    assert_eq!(index.zones(0.5, 0.5), Ok(by_name));
    assert_eq!(index.names_at(0.5, 0.5).unwrap()[..2], ["zone 000", "zone 001"]);
    assert_eq!(index.zone(0.5, 0.5), Ok(Some(0)));
    assert_eq!(index.zones(1.5, 0.5), Ok(vec![]));
}

/// The header and the sections, broken by hand, each with the number that document 01 gives.
#[test]
fn opening_gives_the_number_of_the_damage() {
    let squares = Squares::new(&["A", "B"]);
    let file = &squares.bytes;
    let word = |n: u32| n.to_le_bytes();
    let cases = [
        (1, file[..67].to_vec()),
        (2, changed(file, 3, b"C")),
        (2, changed(file, 4, &[2])),
        (3, changed(file, 48, &[1])),
        (4, changed(file, 48, &[2])),
        (5, changed(file, 6, &[63])),
        (5, changed(file, 12, &word(10_000))),
        (5, file[..file.len() - 1].to_vec()),
        (6, changed(file, 40, &word(0))),
        (7, changed(file, 44, &word(65_536))),
        (8, changed(file, 39, b"x")),
        (9, changed(file, 24, &[0xff])),
        (10, changed(file, 20, &word(u32::MAX))),
        (12, changed(file, 64 + 4, &word(193))),
        (13, changed(file, 64 + 4, &word(188))),
        (14, changed(file, 64 + 16, &word(1))),
        (15, changed(file, 64, &word(12))),
        (17, changed(file, 64, &word(0))),
        (18, changed(file, 8, &word(1))),
        (19, changed(file, 40, &word(3))),
        (22, squares.with(NAMES, 0, &word(3))),
        (23, squares.with(NAMES, 8, &word(3))),
        (24, squares.with(NAMES, 8, &word(0))),
        (25, squares.with(NAMES, 16, &[0xff])),
        (26, squares.with(NAMES, 16, &[0])),
        (32, squares.with(CHUNKDIR, 4, &[0, 0])),
        (33, squares.with(GROUPDIR, 4, &word(6))),
        (34, squares.with(CHUNKDIR, 8, &word(200_000))),
    ];
    for (number, damaged) in cases {
        assert_eq!(opening(&damaged), number);
        assert_eq!(full_check(&damaged).unwrap_err().number(), number);
    }
}

/// Files that open and break one rule each; and what a question says where it meets the damage.
#[test]
fn the_full_check_gives_the_broken_rule() {
    let squares = Squares::new(&["A"]);
    let side = words(&[99_999]);
    let cases = [
        (2, squares.with(RINGDIR, 4, &words(&[5])), Err(36)),
        (2, squares.with(RINGOPS, 0, &words(&[1])), Err(35)),
        (3, squares.with(POINTS, 0, &[0x80, 0x00]), Err(39)),
        (4, squares.with(CHUNKDIR, 16, &side), Ok(true)),
        (5, squares.with(GROUPDIR, 20, &words(&[1])), Ok(true)),
        (6, squares.with(TZDIR, 16, &words(&[10])), Ok(false)),
    ];
    for (rule, damaged, inside) in cases {
        let refusal = full_check(&damaged).unwrap_err();
        assert_eq!((refusal.number(), refusal.rule()), (47, Some(rule)));
        let index = Index::open(&damaged).unwrap();
        let answer = index.contains(0, 50_000, 50_000).map_err(|refusal| refusal.number());
        assert_eq!(answer, inside, "rule {rule}");
    }
}

/// A zone drawn as a line opens and is answered as it stands, on the line and beside it; the full check refuses it.
#[test]
fn a_line_is_answered_and_not_accepted() {
    for (ring, rule) in
        [(&[(0, 0), (50_000, 0)][..], Some(2)), (&[(0, 0), (50_000, 0), (0, 1)], None)]
    {
        let file = drawn(&["A"], &[&[ring]]);
        assert_eq!(full_check(&file).err().map(|refusal| refusal.rule()), rule.map(Some));
        let index = Index::open(&file).unwrap();
        assert_eq!([0, 1, -1].map(|y| index.contains(0, 20_000, y)), [true, false, false].map(Ok));
        assert_eq!([index.zone(0.2, 0.0), index.zone(0.2, 0.1)], [Ok(Some(0)), Ok(None)]);
    }
}

/// Every byte of a small file, changed. With the old sum no change gets through; with the right one every answer is held.
#[test]
fn every_byte_of_a_small_file() {
    let met = change_every_byte(&Squares::new(&["A", "B"]).bytes);
    let numbers: BTreeSet<u32> = met.iter().map(|&(number, _)| number).collect();
    let rules: BTreeSet<u32> = met.iter().filter_map(|&(_, rule)| rule).collect();
    assert!(numbers.len() >= 30, "only these refusals were met: {numbers:?}");
    assert_eq!(rules, BTreeSet::from([2, 3, 4, 5, 6]));
}

/// The same of one whose group has chunks enough for stripes.
#[test]
fn every_byte_of_a_small_file_with_stripes() {
    let met = change_every_byte(&in_chunks("A", &coast(9)));
    assert!(met.contains(&(49, None)) && met.len() >= 30, "{met:?}");
}

fn change_every_byte(file: &[u8]) -> BTreeSet<(u32, Option<u32>)> {
    let mut met = BTreeSet::new();
    for at in 0..file.len() {
        for flip in [0x01, 0x80, 0xff, file[at]] {
            if flip == 0 {
                continue;
            }
            let mut damaged = file.to_vec();
            damaged[at] ^= flip;
            assert_ne!(opening(&damaged), 0, "byte {at} ^ {flip:#x}");
            if at < file.len() - 4 {
                common::repair(&mut damaged);
                ask_everything(&damaged, &mut met);
            }
        }
    }
    met
}

#[test]
fn every_cut_of_a_small_file() {
    let file = Squares::new(&["A"]).bytes;
    for length in 0..file.len() {
        let number = if length < 68 { 1 } else { 5 };
        assert_eq!(opening(&file[..length]), number, "{length} bytes");
        ask_everything(&file[..length], &mut BTreeSet::new());
    }
}

/// The sample, with one byte changed and the old sum: in the header, in the table, and all over the file.
#[test]
fn one_byte_of_the_sample() {
    let mut file = sample();
    let all_over = (208..file.len()).step_by(file.len() / 150);
    for at in (0..208).chain(all_over) {
        file[at] ^= 0x10;
        let number = opening(&file);
        assert!((1..=11).contains(&number), "byte {at}: {number}");
        assert!(at < 208 || number == 11, "byte {at}: {number}");
        file[at] ^= 0x10;
    }
    assert_eq!(opening(&file), 0);
}
