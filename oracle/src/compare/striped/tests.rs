//! That the comparison can fail: the rules stand in the exports' place, and are changed in one thing. The archive's exports are compared as
//! well.

use super::stand_in::{STAND_IN, ask, ask_all, build, contains, need};
use super::*;
use std::slice::{from_raw_parts, from_raw_parts_mut};

/// What is found of these exports, over some random files and the kept ones.
fn found(port: Stripes) -> Option<String> {
    let mut run = Run::new(port, 8);
    let some = (0..8).find_map(|_| run.some().err());
    some.or_else(|| run.fixed().err()).map(|(_, why)| why)
}

#[test]
fn the_rules_are_not_found_fault_with() {
    assert_eq!(found(STAND_IN), None);
}

#[test]
fn the_port_is_not_found_fault_with() {
    assert_eq!(found(crate::port::striped::PORT), None);
}

/// Takes a right answer of building: its code, and the room with a number before it and one behind. Gives the code of a wrong one.
type Change = fn(i64, &mut [u32]) -> i64;

const CHANGES: [Change; 9] = [
    // It writes where it may not: before the room, behind it, behind the numbers, where it refuses.
    |code, lent| {
        lent[0] = 0;
        code
    },
    |code, lent| {
        lent[lent.len() - 1] = 0;
        code
    },
    |code, lent| {
        if code > 0 && code as usize + 2 < lent.len() {
            lent[1 + code as usize] = 0;
        }
        code
    },
    |code, lent| {
        if code == -1046 && lent.len() > 2 {
            lent[1] = 0;
        }
        code
    },
    // It wants a number more than it needs, or says one more than it wrote.
    |code, lent| if code > 0 && code as usize + 2 == lent.len() { -1046 } else { code },
    |code, _| if code > 0 { code + 1 } else { code },
    // 46 before 49.
    |code, lent| if code == -1049 && lent.len() == 2 { -1046 } else { code },
    // The last chunk number is another; the least y is not kept as two's complement.
    |code, lent| {
        if code > 8 {
            lent[code as usize] ^= 1;
        }
        code
    },
    |code, lent| {
        if code > 0 {
            lent[1] &= 0x7fff_ffff;
        }
        code
    },
];

unsafe extern "C" fn changed<const I: usize>(
    r: *const u8,
    size: usize,
    f: *const u8,
    length: usize,
    to: *mut u32,
    room: usize,
) -> i64 {
    let code = unsafe { build(r, size, f, length, to, room) };
    CHANGES[I](code, unsafe { from_raw_parts_mut(to.sub(1), room + 2) })
}

#[test]
fn a_port_that_builds_otherwise_is_found_out() {
    let all = [
        changed::<0>,
        changed::<1>,
        changed::<2>,
        changed::<3>,
        changed::<4>,
        changed::<5>,
        changed::<6>,
        changed::<7>,
        changed::<8>,
    ];
    assert_eq!(all.len(), CHANGES.len());
    for (i, build) in all.into_iter().enumerate() {
        assert!(found(Stripes { build, ..STAND_IN }).is_some(), "change {i} is not found out");
    }
}

unsafe extern "C" fn need_without_49(
    r: *const u8,
    size: usize,
    f: *const u8,
    length: usize,
) -> i64 {
    let code = unsafe { need(r, size, f, length) };
    if code == -1049 { 10 } else { code }
}

unsafe extern "C" fn need_of_one_more(
    r: *const u8,
    size: usize,
    f: *const u8,
    length: usize,
) -> i64 {
    let code = unsafe { need(r, size, f, length) };
    if code > 0 { code + 1 } else { code }
}

/// The last number is not read: one too few are lent.
#[allow(clippy::too_many_arguments)]
unsafe extern "C" fn contains_with_one_less(
    r: *const u8,
    size: usize,
    n: *const u32,
    count: usize,
    f: *const u8,
    length: usize,
    zone: u32,
    x: i32,
    y: i32,
) -> i32 {
    unsafe { contains(r, size, n, count.saturating_sub(1), f, length, zone, x, y) }
}

/// Plainly, whatever the numbers are.
#[allow(clippy::too_many_arguments)]
unsafe extern "C" fn plain_ask(
    r: *const u8,
    size: usize,
    _: *const u32,
    _: usize,
    f: *const u8,
    length: usize,
    lng: f64,
    lat: f64,
) -> i64 {
    let (record, file) = unsafe { (from_raw_parts(r, size), from_raw_parts(f, length)) };
    let opened = Opened::of_record(record, file);
    let zone = opened.and_then(|o| Ok(Judge::plain(o, &[]).lookup(lng, lat)?));
    match zone {
        Ok(zone) => zone.map_or(-1, |zone| zone as i64),
        Err(number) => -1000 - i64::from(number),
    }
}

/// Numbers with something else in the place of what they say, and the same question.
#[allow(clippy::too_many_arguments)]
unsafe fn ask_by(
    change: fn(&mut [u32]),
    r: *const u8,
    size: usize,
    n: *const u32,
    count: usize,
    f: *const u8,
    length: usize,
    lng: f64,
    lat: f64,
) -> i64 {
    let mut numbers = unsafe { from_raw_parts(n, count) }.to_vec();
    change(&mut numbers);
    unsafe { ask(r, size, numbers.as_ptr(), count, f, length, lng, lat) }
}

const READINGS: [fn(&mut [u32]); 4] = [
    // A height of 0 is taken for 1; a place's high half is not read; a chunk too large is taken for the first; k is held to 256.
    |numbers| numbers.iter_mut().skip(1).step_by(5).for_each(|n| *n = (*n).max(1)),
    |numbers| numbers.iter_mut().skip(4).step_by(5).take(1).for_each(|n| *n = 0),
    |numbers| numbers.iter_mut().for_each(|n| *n = if *n == 65_535 { 0 } else { *n }),
    |numbers| numbers.iter_mut().skip(2).step_by(5).for_each(|n| *n = (*n).min(256)),
];

#[allow(clippy::too_many_arguments)]
unsafe extern "C" fn read_otherwise<const I: usize>(
    r: *const u8,
    size: usize,
    n: *const u32,
    count: usize,
    f: *const u8,
    length: usize,
    lng: f64,
    lat: f64,
) -> i64 {
    unsafe { ask_by(READINGS[I], r, size, n, count, f, length, lng, lat) }
}

/// Writes where it refuses.
#[allow(clippy::too_many_arguments)]
unsafe extern "C" fn list_that_writes(
    r: *const u8,
    size: usize,
    n: *const u32,
    count: usize,
    f: *const u8,
    length: usize,
    lng: f64,
    lat: f64,
    to: *mut u32,
    room: usize,
) -> i64 {
    let code = unsafe { ask_all(r, size, n, count, f, length, lng, lat, to, room) };
    if code < 0 && room > 0 {
        unsafe { *to ^= 1 };
    }
    code
}

#[test]
fn a_port_that_says_something_else_is_found_out() {
    let is_found = |port| found(port).is_some();
    assert!(is_found(Stripes { need: need_without_49, ..STAND_IN }));
    assert!(is_found(Stripes { need: need_of_one_more, ..STAND_IN }));
    assert!(is_found(Stripes { contains: contains_with_one_less, ..STAND_IN }));
    assert!(is_found(Stripes { ask: plain_ask, ..STAND_IN }));
    assert!(is_found(Stripes { ask_all: list_that_writes, ..STAND_IN }));
    for (i, ask) in
        [read_otherwise::<0>, read_otherwise::<1>, read_otherwise::<2>, read_otherwise::<3>]
            .into_iter()
            .enumerate()
    {
        assert!(is_found(Stripes { ask, ..STAND_IN }), "reading {i} is not found out");
    }
}
