//! That the comparison can fail: a stand-in answers by the rules, and is changed in one thing. Where the archive has the exports, these
//! are compared as well.

use super::*;
use std::slice::{from_raw_parts, from_raw_parts_mut};

/// The rules behind the exports' forms.
const STAND_IN: Maps = Maps { map: written, map_length: length };

unsafe fn by_rules(file: *const u8, size: usize, zone: u32) -> Result<String, i64> {
    let file = unsafe { from_raw_parts(file, size) };
    rules::map::map(file, zone).map_err(|broken| -1000 - i64::from(broken.number))
}

unsafe extern "C" fn length(file: *const u8, size: usize, zone: u32) -> i64 {
    unsafe { by_rules(file, size, zone) }.map_or_else(|code| code, |text| text.len() as i64)
}

unsafe extern "C" fn written(
    file: *const u8,
    size: usize,
    zone: u32,
    out: *mut u8,
    room: usize,
) -> i64 {
    match unsafe { by_rules(file, size, zone) } {
        Ok(text) if text.len() <= room => lay(&text, unsafe { from_raw_parts_mut(out, room) }),
        Ok(_) => -1046,
        Err(code) => code,
    }
}

fn lay(text: &str, room: &mut [u8]) -> i64 {
    room[..text.len()].copy_from_slice(text.as_bytes());
    text.len() as i64
}

/// What is found of these exports, over the kept files, the longest rings and some random ones.
fn found(port: Maps) -> Option<String> {
    let (mut run, mut random) = (Run::new(port), Random::new(8));
    let fixed = run.fixed().err();
    fixed.or_else(|| (0..60).find_map(|_| run.some(&mut random).err())).map(|(_, why)| why)
}

#[test]
fn the_rules_are_not_found_fault_with() {
    assert_eq!(found(STAND_IN), None);
}

/// Takes a right answer: its code, the zone's text, and the room with a byte before it and one behind. Gives the code of a wrong one.
type Change = fn(i64, &str, &mut [u8]) -> i64;

const CHANGES: [Change; 12] = [
    // It writes where it may not: behind the text, around the room, where it refuses.
    |code, text, lent| {
        if code > 0 && text.len() + 2 < lent.len() {
            lent[1 + text.len()] = b' ';
        }
        code
    },
    |code, _, lent| {
        lent[lent.len() - 1] = 0;
        code
    },
    |code, _, lent| {
        lent[0] = 0;
        code
    },
    |code, _, lent| {
        if code == -1046 && lent.len() > 2 {
            lent[1] = b'{';
        }
        code
    },
    // It wants a byte more than it needs, or says one more than it wrote.
    |code, text, lent| if code > 0 && text.len() + 2 == lent.len() { -1046 } else { code },
    |code, _, _| if code > 0 { code + 1 } else { code },
    // It refuses in another order.
    |code, _, lent| if code == -1048 && lent.len() == 2 { -1046 } else { code },
    |code, _, _| if code == -1045 { -1048 } else { code },
    |code, _, _| if code == -1047 { -1045 } else { code },
    // Its text has a space, a ring the other way round, a ring that starts elsewhere.
    |code, text, lent| {
        if code > 0 { lay(&text.replacen(',', " ", 1), &mut lent[1..]) } else { code }
    },
    |code, text, lent| if code > 0 { redrawn(text, lent, <[_]>::reverse) } else { code },
    |code, text, lent| {
        let rotate = |ring: &mut [(i64, i64)]| {
            let last = ring.len() - 1;
            ring[..last].rotate_left(1);
            ring[last] = ring[0];
        };
        if code > 0 { redrawn(text, lent, rotate) } else { code }
    },
];

/// The text with its first ring changed.
fn redrawn(text: &str, lent: &mut [u8], change: fn(&mut [(i64, i64)])) -> i64 {
    let mut polygons = rules::map::read(text).unwrap();
    change(&mut polygons[0][0]);
    lay(&rules::map::text(&polygons), &mut lent[1..])
}

unsafe extern "C" fn changed<const I: usize>(
    file: *const u8,
    size: usize,
    zone: u32,
    out: *mut u8,
    room: usize,
) -> i64 {
    let code = unsafe { written(file, size, zone, out, room) };
    let text = unsafe { by_rules(file, size, zone) }.unwrap_or_default();
    CHANGES[I](code, &text, unsafe { from_raw_parts_mut(out.sub(1), room + 2) })
}

unsafe extern "C" fn length_with_46(file: *const u8, size: usize, zone: u32) -> i64 {
    let said = unsafe { length(file, size, zone) };
    if said > 1000 { -1046 } else { said }
}

#[test]
fn a_port_that_differs_is_found_out() {
    let all = [
        changed::<0>,
        changed::<1>,
        changed::<2>,
        changed::<3>,
        changed::<4>,
        changed::<5>,
        changed::<6>,
        changed::<7>,
        changed::<8>,
        changed::<9>,
        changed::<10>,
        changed::<11>,
    ];
    assert_eq!(all.len(), CHANGES.len());
    for (i, map) in all.into_iter().enumerate() {
        assert!(found(Maps { map, ..STAND_IN }).is_some(), "change {i} is not found out");
    }
    assert!(found(Maps { map_length: length_with_46, ..STAND_IN }).is_some());
}

#[test]
fn the_port_is_not_found_fault_with() {
    assert_eq!(found(crate::port::map::PORT), None);
}
