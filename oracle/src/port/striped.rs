//! Stripes by the port (document 02, 2026-02). The five exports stand in a table, so that a test can put others in their place.

use super::exports::*;
use super::opening::{AT_ODDS, CHANGED, said, unless_changed};
use crate::rules::Said;

type Bytes = *const u8;
type Need = unsafe extern "C" fn(Bytes, usize, Bytes, usize) -> i64;
type Build = unsafe extern "C" fn(Bytes, usize, Bytes, usize, *mut u32, usize) -> i64;
type Contains =
    unsafe extern "C" fn(Bytes, usize, *const u32, usize, Bytes, usize, u32, i32, i32) -> i32;
type Ask = unsafe extern "C" fn(Bytes, usize, *const u32, usize, Bytes, usize, f64, f64) -> i64;
type AskAll = unsafe extern "C" fn(
    Bytes,
    usize,
    *const u32,
    usize,
    Bytes,
    usize,
    f64,
    f64,
    *mut u32,
    usize,
) -> i64;

#[derive(Clone, Copy)]
pub struct Stripes {
    pub need: Need,
    pub build: Build,
    pub contains: Contains,
    pub ask: Ask,
    pub ask_all: AskAll,
}

pub const PORT: Stripes = Stripes {
    need: tzb_stripes_need,
    build: tzb_stripes,
    contains: tzb_contains_striped,
    ask: tzb_ask_striped,
    ask_all: tzb_ask_all_striped,
};

/// What lent numbers hold before, and where nothing may be written. Neither a zone nor, but by a rare chance, one of the stripes' numbers.
const GUARD: u32 = 0xa5a5_a5a5;
/// So many numbers lie before the room, and as many behind it.
const AROUND: usize = 8;

/// What a question is asked with.
#[derive(Clone, Copy)]
pub struct Asked<'a> {
    pub record: &'a [u8],
    pub file: &'a [u8],
    pub numbers: &'a [u32],
}

/// Lends so many numbers. All that may not be written must be as it was: what lies before them, behind the first that were written, and
/// after a refusal every one.
fn lent(room: usize, call: impl FnOnce(*mut u32) -> i64) -> Said<Vec<u32>> {
    let mut all = vec![GUARD; AROUND + room + AROUND];
    let code = call(all[AROUND..].as_mut_ptr());
    let (before, rest) = all.split_at(AROUND);
    let written = code.max(0) as usize;
    unless_changed(code, rest, written, GUARD)?;
    if before != [GUARD; AROUND] || written > room {
        return Err(CHANGED);
    }
    Ok(rest[..written].to_vec())
}

impl Stripes {
    pub fn need(&self, record: &[u8], file: &[u8]) -> Said<u64> {
        let (r, size, f, length) = (record.as_ptr(), record.len(), file.as_ptr(), file.len());
        said(unsafe { (self.need)(r, size, f, length) }).map(|need| need as u64)
    }

    pub fn numbers(&self, record: &[u8], file: &[u8], room: usize) -> Said<Vec<u32>> {
        let (r, size, f, length) = (record.as_ptr(), record.len(), file.as_ptr(), file.len());
        lent(room, |to| unsafe { (self.build)(r, size, f, length, to, room) })
    }

    pub fn contains(&self, asked: Asked, zone: u32, x: i32, y: i32) -> Said<bool> {
        let (r, size, n, count, f, length) = asked.parts();
        match said(unsafe { (self.contains)(r, size, n, count, f, length, zone, x, y) }.into())? {
            0 => Ok(false),
            1 => Ok(true),
            _ => Err(AT_ODDS),
        }
    }

    pub fn lookup(&self, asked: Asked, lng: f64, lat: f64) -> Said<Option<u64>> {
        let (r, size, n, count, f, length) = asked.parts();
        match unsafe { (self.ask)(r, size, n, count, f, length, lng, lat) } {
            -1 => Ok(None),
            code => said(code).map(|zone| Some(zone as u64)),
        }
    }

    pub fn lookup_into(&self, asked: Asked, lng: f64, lat: f64, places: usize) -> Said<Vec<u64>> {
        let (r, size, n, count, f, length) = asked.parts();
        let zones = lent(places, |to| unsafe {
            (self.ask_all)(r, size, n, count, f, length, lng, lat, to, places)
        })?;
        Ok(zones.into_iter().map(u64::from).collect())
    }
}

impl Asked<'_> {
    /// A pointer and a length of each, for the calls.
    pub fn parts(self) -> (*const u8, usize, *const u32, usize, *const u8, usize) {
        let Self { record, file, numbers } = self;
        (record.as_ptr(), record.len(), numbers.as_ptr(), numbers.len(), file.as_ptr(), file.len())
    }
}
