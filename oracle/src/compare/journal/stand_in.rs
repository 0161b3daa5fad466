//! The rules behind the exports' forms, for tests that change one thing.

use crate::port::journal::Journals;
use crate::rules::Said;
use crate::rules::journal::{self as rule, Entry};
use std::slice::{from_raw_parts, from_raw_parts_mut};

pub const STAND_IN: Journals = Journals { ask, write, read };

fn code<T>(said: &Said<T>) -> i32 {
    said.as_ref().err().map_or(0, |&number| -1000 - number as i32)
}

/// Lays the bytes into the room, if there are any.
unsafe fn lay(said: Said<Vec<u8>>, out: *mut u8, room: usize) -> i32 {
    if let Ok(bytes) = &said {
        let lent = unsafe { from_raw_parts_mut(out, room) };
        lent[..bytes.len()].copy_from_slice(bytes);
    }
    code(&said)
}

#[allow(clippy::too_many_arguments)]
pub unsafe extern "C" fn ask(
    r: *const u8,
    size: usize,
    f: *const u8,
    length: usize,
    places: u32,
    x: i32,
    y: i32,
    out: *mut u8,
    room: usize,
) -> i32 {
    let (record, file) = unsafe { (from_raw_parts(r, size), from_raw_parts(f, length)) };
    unsafe { lay(rule::asked(record, file, places, (x, y), room), out, room) }
}

#[allow(clippy::too_many_arguments)]
pub unsafe extern "C" fn write(
    places: u32,
    x: i32,
    y: i32,
    zones: *const u32,
    count: usize,
    reason: u32,
    out: *mut u8,
    room: usize,
) -> i32 {
    let zones = unsafe { from_raw_parts(zones, count) }.to_vec();
    unsafe { lay(rule::written(&Entry { x, y, zones, reason }, places, room), out, room) }
}

pub unsafe extern "C" fn read(
    places: u32,
    bytes: *const u8,
    length: usize,
    position: *mut i32,
    position_room: usize,
    zones: *mut u32,
    zones_room: usize,
) -> i32 {
    let bytes = unsafe { from_raw_parts(bytes, length) };
    let said = rule::read(bytes, places, [position_room, zones_room]);
    let Ok(entry) = said else { return code(&said) };
    let position = unsafe { from_raw_parts_mut(position, position_room) };
    position[..2].copy_from_slice(&[entry.x, entry.y]);
    let count = entry.zones.len();
    let zones = unsafe { from_raw_parts_mut(zones, zones_room) };
    zones[..count].copy_from_slice(&entry.zones);
    256 * count as i32 + entry.reason as i32
}
