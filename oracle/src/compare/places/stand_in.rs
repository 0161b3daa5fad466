//! The rules behind the forms of the eight exports, for tests that change one thing. The first exports are the archive's.

use super::{by_rules, codes};
use crate::port::exports::{Exports, PORT};
use crate::port::places::{Asked, Codes, Way};
use crate::port::striped::Asked as With;
use crate::voice::Question;
use std::slice::from_raw_parts;

pub const STAND_IN: Exports = Exports {
    contains_place: contains,
    decode_place: decode,
    lookup_place: lookup,
    ask_place: ask,
    ask_all_place: ask_all,
    contains_striped_place: contains_striped,
    ask_striped_place: ask_striped,
    ask_all_striped_place: ask_all_striped,
    ..PORT
};

type Bytes = *const u8;
type Numbers = *const u32;

/// What the rules say, asked so.
pub unsafe fn said(
    way: Way,
    (r, size): (Bytes, usize),
    (n, count): (Numbers, usize),
    (f, length): (Bytes, usize),
    question: Question,
) -> Codes {
    let with = unsafe {
        let (record, file) = (from_raw_parts(r, size), from_raw_parts(f, length));
        With { record, file, numbers: from_raw_parts(n, count) }
    };
    codes(&by_rules(with, Asked { way, question }))
}

pub const NONE: (Numbers, usize) = ([].as_ptr(), 0);

pub unsafe extern "C" fn contains(
    r: Bytes,
    size: usize,
    f: Bytes,
    length: usize,
    zone: u32,
    x: i32,
    y: i32,
) -> i64 {
    let question = Question::Contains(zone, x, y);
    unsafe { said(Way::Plain, (r, size), NONE, (f, length), question).place }
}

pub unsafe extern "C" fn decode(
    r: Bytes,
    size: usize,
    f: Bytes,
    length: usize,
    chunk: u32,
    _: *const i32,
    room: usize,
) -> i64 {
    let question = Question::Decode(chunk, room as u64);
    unsafe { said(Way::Plain, (r, size), NONE, (f, length), question).place }
}

pub unsafe extern "C" fn lookup(f: Bytes, length: usize, lng: f64, lat: f64) -> i64 {
    let record = ([].as_ptr(), 0);
    unsafe { said(Way::Opening, record, NONE, (f, length), Question::Lookup(lng, lat)).place }
}

pub unsafe extern "C" fn ask(
    r: Bytes,
    size: usize,
    f: Bytes,
    length: usize,
    lng: f64,
    lat: f64,
) -> i64 {
    let question = Question::Lookup(lng, lat);
    unsafe { said(Way::Plain, (r, size), NONE, (f, length), question).place }
}

#[allow(clippy::too_many_arguments)]
pub unsafe extern "C" fn ask_all(
    r: Bytes,
    size: usize,
    f: Bytes,
    length: usize,
    lng: f64,
    lat: f64,
    _: Numbers,
    places: usize,
) -> i64 {
    let question = Question::LookupInto(lng, lat, places as u64);
    unsafe { said(Way::Plain, (r, size), NONE, (f, length), question).place }
}

#[allow(clippy::too_many_arguments)]
pub unsafe extern "C" fn contains_striped(
    r: Bytes,
    size: usize,
    n: Numbers,
    count: usize,
    f: Bytes,
    length: usize,
    zone: u32,
    x: i32,
    y: i32,
) -> i64 {
    let question = Question::Contains(zone, x, y);
    unsafe { said(Way::Striped, (r, size), (n, count), (f, length), question).place }
}

#[allow(clippy::too_many_arguments)]
pub unsafe extern "C" fn ask_striped(
    r: Bytes,
    size: usize,
    n: Numbers,
    count: usize,
    f: Bytes,
    length: usize,
    lng: f64,
    lat: f64,
) -> i64 {
    let question = Question::Lookup(lng, lat);
    unsafe { said(Way::Striped, (r, size), (n, count), (f, length), question).place }
}

#[allow(clippy::too_many_arguments)]
pub unsafe extern "C" fn ask_all_striped(
    r: Bytes,
    size: usize,
    n: Numbers,
    count: usize,
    f: Bytes,
    length: usize,
    lng: f64,
    lat: f64,
    _: Numbers,
    places: usize,
) -> i64 {
    let question = Question::LookupInto(lng, lat, places as u64);
    unsafe { said(Way::Striped, (r, size), (n, count), (f, length), question).place }
}
