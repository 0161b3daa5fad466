//! The rules behind the exports' forms, for tests that change one thing.

use crate::port::striped::Stripes;
use crate::rules::{Judge, Opened, Said};
use std::slice::{from_raw_parts, from_raw_parts_mut};

pub const STAND_IN: Stripes = Stripes { need, build, contains, ask, ask_all };

fn code(said: Said<i64>) -> i64 {
    said.unwrap_or_else(|number| -1000 - i64::from(number))
}

unsafe fn opened<'a>(
    record: *const u8,
    size: usize,
    file: *const u8,
    length: usize,
) -> Said<Opened<'a>> {
    unsafe { Opened::of_record(from_raw_parts(record, size), from_raw_parts(file, length)) }
}

/// Lays what was answered into the room: how many there are.
unsafe fn lay(answer: Said<Vec<u32>>, to: *mut u32, room: usize) -> i64 {
    code(answer.map(|all| {
        let lent = unsafe { from_raw_parts_mut(to, room) };
        lent[..all.len()].copy_from_slice(&all);
        all.len() as i64
    }))
}

pub unsafe extern "C" fn need(r: *const u8, size: usize, f: *const u8, length: usize) -> i64 {
    let opened = unsafe { opened(r, size, f, length) };
    code(opened.and_then(|o| o.stripes_need()).map(|need| need as i64))
}

pub unsafe extern "C" fn build(
    r: *const u8,
    size: usize,
    f: *const u8,
    length: usize,
    to: *mut u32,
    room: usize,
) -> i64 {
    let opened = unsafe { opened(r, size, f, length) };
    unsafe { lay(opened.and_then(|o| o.stripes(room as u64)), to, room) }
}

unsafe fn striped<'a>(
    record: (*const u8, usize),
    numbers: (*const u32, usize),
    file: (*const u8, usize),
) -> Said<Judge<'a>> {
    let opened = unsafe { opened(record.0, record.1, file.0, file.1) }?;
    Ok(Judge::striped(opened, unsafe { from_raw_parts(numbers.0, numbers.1) }))
}

#[allow(clippy::too_many_arguments)]
pub unsafe extern "C" fn contains(
    r: *const u8,
    size: usize,
    n: *const u32,
    count: usize,
    f: *const u8,
    length: usize,
    zone: u32,
    x: i32,
    y: i32,
) -> i32 {
    let judge = unsafe { striped((r, size), (n, count), (f, length)) };
    code(judge.and_then(|judge| Ok(judge.contains(zone.into(), x, y)?)).map(i64::from)) as i32
}

#[allow(clippy::too_many_arguments)]
pub unsafe extern "C" fn ask(
    r: *const u8,
    size: usize,
    n: *const u32,
    count: usize,
    f: *const u8,
    length: usize,
    lng: f64,
    lat: f64,
) -> i64 {
    let judge = unsafe { striped((r, size), (n, count), (f, length)) };
    let zone = judge.and_then(|judge| Ok(judge.lookup(lng, lat)?));
    code(zone.map(|zone| zone.map_or(-1, |zone| zone as i64)))
}

#[allow(clippy::too_many_arguments)]
pub unsafe extern "C" fn ask_all(
    r: *const u8,
    size: usize,
    n: *const u32,
    count: usize,
    f: *const u8,
    length: usize,
    lng: f64,
    lat: f64,
    to: *mut u32,
    room: usize,
) -> i64 {
    let judge = unsafe { striped((r, size), (n, count), (f, length)) };
    let zones = judge.and_then(|judge| Ok(judge.lookup_into(lng, lat, room as u64)?));
    let zones = zones.map(|zones| zones.into_iter().map(|zone| zone as u32).collect());
    unsafe { lay(zones, to, room) }
}
