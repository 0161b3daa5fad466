//! That the comparison can fail: the rules stand in the exports' place, and are changed in one thing. The archive's exports are compared as
//! well.

use super::large::Large;
use super::stand_in::{self, NONE, STAND_IN};
use super::*;
use std::slice::from_raw_parts;

/// What is found of these exports, over the kept chunks, those that tell and some others.
fn found(port: Exports) -> Option<String> {
    let mut run = Run::new(port, 8);
    let fixed = [Run::kept, Run::every_chunk].into_iter().find_map(|part| part(&mut run).err());
    let found = fixed.or_else(|| (0..100).find_map(|_| run.some().err()));
    found.map(|found| found.why)
}

#[test]
fn the_rules_are_not_found_fault_with() {
    assert_eq!(found(STAND_IN), None);
}

#[test]
fn the_port_is_not_found_fault_with() {
    assert_eq!(found(crate::port::exports::PORT), None);
}

/// Takes what is right of decoding: the lent bytes, where the chunk starts, the codes. Gives a wrong place.
type Change = fn(&[u8], i64, Codes) -> i64;

/// Where the number ends that starts there.
fn after(file: &[u8], place: i64) -> i64 {
    let from = &file[place as usize..];
    place + from.iter().position(|&byte| byte < 128).map_or(from.len(), |last| last + 1) as i64
}

/// Where the number starts that ends there.
fn before(file: &[u8], place: i64) -> i64 {
    let mut at = place - 1;
    while file[at as usize - 1] >= 128 {
        at -= 1;
    }
    at
}

const CHANGES: [(&str, Change); 13] = [
    ("the second byte", |_, _, c| if c.place < 0 { -1 } else { c.place + 1 }),
    ("behind a number too long", |file, _, c| match c.answer {
        -1039 => after(file, c.place),
        _ => c.place,
    }),
    ("behind a number that is cut", |file, _, c| match c.answer {
        -1038 => after(file, c.place),
        _ => c.place,
    }),
    ("x for y of a point outside", |file, _, c| match c.answer {
        -1042 => before(file, c.place),
        _ => c.place,
    }),
    ("y for x of a sum", |file, _, c| match c.answer {
        -1041 => after(file, c.place),
        _ => c.place,
    }),
    ("the chunk's start not added", |_, start, c| if c.place < 0 { -1 } else { c.place - start }),
    ("43 one short", |_, _, c| if c.answer == -1043 { c.place - 1 } else { c.place }),
    ("43 at the chunk's last byte", |file, _, c| match c.answer {
        -1043 => after(file, c.place) - 1,
        _ => c.place,
    }),
    ("none for 40", |_, _, c| if c.answer == -1040 { -1 } else { c.place }),
    (
        "none for the end of the lent bytes",
        |file, _, c| {
            if c.place == file.len() as i64 { -1 } else { c.place }
        },
    ),
    ("a place for 46", |_, start, c| if c.answer == -1046 { start } else { c.place }),
    ("a place for 37", |_, start, c| if c.answer == -1037 { start } else { c.place }),
    ("a place for an answer", |_, _, c| if c.answer >= 0 { 0 } else { c.place }),
];

unsafe extern "C" fn changed<const I: usize>(
    r: *const u8,
    size: usize,
    f: *const u8,
    length: usize,
    chunk: u32,
    _: *const i32,
    room: usize,
) -> i64 {
    let (record, file) = unsafe { (from_raw_parts(r, size), from_raw_parts(f, length)) };
    let question = Question::Decode(chunk, room as u64);
    let right = unsafe { stand_in::said(Way::Plain, (r, size), NONE, (f, length), question) };
    let start = match Opened::of_record(record, file).and_then(|o| o.chunk_at(chunk.into())) {
        Ok(chunk) => i64::from(word(record, 60)) + chunk.offset as i64,
        Err(_) => 0,
    };
    CHANGES[I].1(file, start, right)
}

#[test]
fn another_place_of_a_decoded_chunk_is_found_out() {
    let all = [
        changed::<0>,
        changed::<1>,
        changed::<2>,
        changed::<3>,
        changed::<4>,
        changed::<5>,
        changed::<6>,
        changed::<7>,
        changed::<8>,
        changed::<9>,
        changed::<10>,
        changed::<11>,
        changed::<12>,
    ];
    assert_eq!(all.len(), CHANGES.len());
    for (decode_place, (what, _)) in all.into_iter().zip(CHANGES) {
        assert!(found(Exports { decode_place, ..STAND_IN }).is_some(), "not found out: {what}");
    }
}

/// An export that says one more, and one that says a place where there is none.
macro_rules! wrong {
    ($one_more:ident, $always:ident: $name:ident($($of:ident: $lent:ty),*)) => {
        #[allow(clippy::too_many_arguments)]
        unsafe extern "C" fn $one_more($($of: $lent),*) -> i64 {
            let place = unsafe { stand_in::$name($($of),*) };
            if place < 0 { place } else { place + 1 }
        }

        #[allow(clippy::too_many_arguments)]
        unsafe extern "C" fn $always($($of: $lent),*) -> i64 {
            unsafe { stand_in::$name($($of),*) }.max(0)
        }
    };
}

type Bytes = *const u8;
type Numbers = *const u32;

wrong!(contains_more, contains_always: contains(
    r: Bytes, s: usize, f: Bytes, l: usize, zone: u32, x: i32, y: i32
));
wrong!(lookup_more, lookup_always: lookup(f: Bytes, l: usize, lng: f64, lat: f64));
wrong!(ask_more, ask_always: ask(r: Bytes, s: usize, f: Bytes, l: usize, lng: f64, lat: f64));
wrong!(ask_all_more, ask_all_always: ask_all(
    r: Bytes, s: usize, f: Bytes, l: usize, lng: f64, lat: f64, zones: Numbers, places: usize
));
wrong!(contains_striped_more, contains_striped_always: contains_striped(
    r: Bytes, s: usize, n: Numbers, c: usize, f: Bytes, l: usize, zone: u32, x: i32, y: i32
));
wrong!(ask_striped_more, ask_striped_always: ask_striped(
    r: Bytes, s: usize, n: Numbers, c: usize, f: Bytes, l: usize, lng: f64, lat: f64
));
wrong!(ask_all_striped_more, ask_all_striped_always: ask_all_striped(
    r: Bytes, s: usize, n: Numbers, c: usize, f: Bytes, l: usize, lng: f64, lat: f64,
    zones: Numbers, places: usize
));

#[test]
fn each_export_is_compared() {
    for (i, port) in [
        Exports { contains_place: contains_more, ..STAND_IN },
        Exports { contains_place: contains_always, ..STAND_IN },
        Exports { lookup_place: lookup_more, ..STAND_IN },
        Exports { lookup_place: lookup_always, ..STAND_IN },
        Exports { ask_place: ask_more, ..STAND_IN },
        Exports { ask_place: ask_always, ..STAND_IN },
        Exports { ask_all_place: ask_all_more, ..STAND_IN },
        Exports { ask_all_place: ask_all_always, ..STAND_IN },
        Exports { contains_striped_place: contains_striped_more, ..STAND_IN },
        Exports { contains_striped_place: contains_striped_always, ..STAND_IN },
        Exports { ask_striped_place: ask_striped_more, ..STAND_IN },
        Exports { ask_striped_place: ask_striped_always, ..STAND_IN },
        Exports { ask_all_striped_place: ask_all_striped_more, ..STAND_IN },
        Exports { ask_all_striped_place: ask_all_striped_always, ..STAND_IN },
        // The first export counts as well, and that by stripes is not the plain one.
        Exports { ask: ask_that_finds_none, ..STAND_IN },
        Exports { contains_striped_place: plain_contains, ..STAND_IN },
    ]
    .into_iter()
    .enumerate()
    {
        assert!(found(port).is_some(), "not found out: {i}");
    }
}

unsafe extern "C" fn ask_that_finds_none(
    r: Bytes,
    size: usize,
    f: Bytes,
    length: usize,
    lng: f64,
    lat: f64,
) -> i64 {
    unsafe { (STAND_IN.ask)(r, size, f, length, lng, lat) }.min(-1)
}

#[allow(clippy::too_many_arguments)]
unsafe extern "C" fn plain_contains(
    r: Bytes,
    size: usize,
    _: Numbers,
    _: usize,
    f: Bytes,
    length: usize,
    zone: u32,
    x: i32,
    y: i32,
) -> i64 {
    unsafe { stand_in::contains(r, size, f, length, zone, x, y) }
}

/// A place behind the first 2^32 bytes, cut to 32 bits.
unsafe extern "C" fn near(
    r: Bytes,
    size: usize,
    f: Bytes,
    length: usize,
    chunk: u32,
    out: *const i32,
    room: usize,
) -> i64 {
    let place = unsafe { stand_in::decode(r, size, f, length, chunk, out, room) };
    if place < 0 { place } else { i64::from(place as u32) }
}

#[test]
fn a_place_far_behind_has_all_its_bits() {
    let far = |port| Run::new(port, 8).far().err().map(|found| found.why);
    assert_eq!(far(STAND_IN), None);
    let near = Exports { decode_place: near, ..STAND_IN };
    assert_eq!(found(near), None);
    assert!(far(near).is_some());
}

/// Writes to the numbers that are lent for it, though it may not.
unsafe extern "C" fn decode_that_writes(
    r: Bytes,
    size: usize,
    f: Bytes,
    length: usize,
    chunk: u32,
    out: *const i32,
    room: usize,
) -> i64 {
    if room > 0 {
        unsafe { *out.cast_mut().add(room - 1) ^= 1 };
    }
    unsafe { stand_in::decode(r, size, f, length, chunk, out, room) }
}

#[allow(clippy::too_many_arguments)]
unsafe extern "C" fn list_that_writes_behind(
    r: Bytes,
    size: usize,
    f: Bytes,
    length: usize,
    lng: f64,
    lat: f64,
    zones: Numbers,
    places: usize,
) -> i64 {
    unsafe {
        *zones.cast_mut().add(places) ^= 1;
        stand_in::ask_all(r, size, f, length, lng, lat, zones, places)
    }
}

/// Writes to the last byte of the file, which nobody reads but opening.
unsafe extern "C" fn decode_that_writes_to_the_file(
    r: Bytes,
    size: usize,
    f: Bytes,
    length: usize,
    chunk: u32,
    out: *const i32,
    room: usize,
) -> i64 {
    let place = unsafe { stand_in::decode(r, size, f, length, chunk, out, room) };
    unsafe { *f.cast_mut().add(length - 1) ^= 1 };
    place
}

#[test]
fn lent_memory_that_changes_is_found_out() {
    let changed = |port| found(port).is_some_and(|why| why.contains("changed"));
    assert!(changed(Exports { decode_place: decode_that_writes, ..STAND_IN }));
    assert!(changed(Exports { ask_all_place: list_that_writes_behind, ..STAND_IN }));
    assert!(changed(Exports { decode_place: decode_that_writes_to_the_file, ..STAND_IN }));
}

/// The sample, some of whose chunks are broken in their place: after each it is as it was.
#[test]
fn a_large_file_is_put_right() {
    let sample = include_bytes!("../../../../sample/real-ne.tzb");
    let mut large = Large::of(sample.to_vec());
    let mut find = |port, times| {
        let mut run = Run::new(port, 3);
        (0..times).find_map(|_| run.in_its_place(&mut large).err()).map(|found| found.why)
    };
    assert_eq!(find(STAND_IN, 3000), None);
    assert!(find(Exports { ask_place: ask_more, ..STAND_IN }, 3000).is_some());
}

/// Every refusal is met at every number that it can name, by every question and in every way.
#[test]
fn all_is_met() {
    let mut run = Run::new(STAND_IN, 1);
    assert!(run.every_chunk().is_ok());
    let zeros = |rows: &[&[u64]]| -> Vec<Vec<usize>> {
        let zeros = |row: &&[u64]| (0..row.len()).filter(|&i| row[i] == 0).collect();
        rows.iter().map(zeros).collect()
    };
    // 38 without a byte is not said of the first number, 41 of a later point alone, 42 of y, 43 of none.
    let x_and_left: [&[usize]; 7] =
        [&[0, 6], &[6], &[6], &[6], &[0, 1, 6], &[0, 2, 4, 6], &[0, 1, 2, 3, 4, 5]];
    assert_eq!(zeros(&run.met.positions.each_ref().map(|row| &row[..])), x_and_left);
    let later: [&[usize]; 7] = [&[], &[], &[], &[], &[1, 2], &[], &[1, 2]];
    assert_eq!(zeros(&run.met.ways.each_ref().map(|row| &row[..])), later);
    assert!(run.met.asked.iter().all(|said| said[..6].iter().all(|&count| count > 0)));
}

#[test]
fn a_place_in_a_chunk_is_told_by_its_bytes() {
    let bytes = [2, 0x80, 1, 6, 0x81, 0x80, 0];
    let spot = |refusal, place| format!("{:?}", Spot::of(&bytes, 2, refusal, place));
    assert_eq!(spot(39, 4), "Spot { row: 2, number: 3, position: 5, length: 3 }");
    assert_eq!(spot(42, 1), "Spot { row: 5, number: 1, position: 1, length: 2 }");
    assert_eq!(spot(38, 7), "Spot { row: 0, number: 4, position: 4, length: 0 }");
    assert_eq!(spot(43, 3), "Spot { row: 6, number: 2, position: 6, length: 1 }");
}
