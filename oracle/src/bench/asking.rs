//! Decoding, containment, lookups and names of an opened file, and the full check beside opening.

use super::{ROUNDS, is_wanted, row, time};
use crate::original;
use crate::port;
use crate::port::exports::*;
use crate::random::Random;
use crate::rules::{self, Judge};
use std::time::Duration;

type Original<'a> = original::opening::Opened<'a>;

// The original behind calls as costly as those of the port.

#[inline(never)]
pub(super) extern "C" fn original_ask(file: &Original, lng: f64, lat: f64) -> i64 {
    file.zone(lng, lat)
}

#[inline(never)]
pub(super) extern "C" fn original_ask_all(
    file: &Original,
    lng: f64,
    lat: f64,
    zones: &mut Vec<u32>,
) -> i64 {
    file.zones(lng, lat, zones)
}

#[inline(never)]
pub(super) extern "C" fn original_contains(file: &Original, zone: u32, x: i32, y: i32) -> i32 {
    file.is_in(zone, x, y)
}

#[inline(never)]
extern "C" fn original_decode(file: &Original, chunk: u32, points: &mut original::Points) -> i64 {
    file.points(chunk, points)
}

#[inline(never)]
extern "C" fn original_name(file: &Original, zone: u32) -> i64 {
    file.name_length(zone)
}

/// Positions in degrees.
pub(super) type Positions = Vec<(f64, f64)>;

/// A zone and a whole-number point.
pub(super) type Places = Vec<(u32, i32, i32)>;

pub fn run(file: &[u8]) {
    let mut random = Random::new(2);
    let opened = rules::open(file, &[]).ok().expect("a file that opens");
    let anywhere: Positions = (0..10_000)
        .map(|_| (360.0 * random.part() - 180.0, 180.0 * random.part() - 90.0))
        .collect();
    let beside: Vec<(i32, i32)> = (0..2_000)
        .map(|_| {
            let points = opened.readable(random.below(opened.chunks() as usize) as u64);
            let (x, y) = points[random.below(points.len())];
            (x as i32 + random.from_to(-1000, 1000), y as i32 + random.from_to(-1000, 1000))
        })
        .collect();
    let degrees = |n: i32| f64::from(n) / 100_000.0;
    let borders: Positions = beside.iter().map(|&(x, y)| (degrees(x), degrees(y))).collect();
    let judge = Judge::plain(opened, &[]);
    let places: Places = beside
        .iter()
        .flat_map(|&(x, y)| {
            let zones = judge.lookup_into(degrees(x), degrees(y), 100).unwrap_or_default();
            zones.into_iter().map(move |zone| (zone as u32, x, y))
        })
        .collect();
    let far: Places = (0..2_000)
        .map(|_| {
            let (x, y) =
                (random.from_to(-18_000_000, 18_000_000), random.from_to(-9_000_000, 9_000_000));
            (random.below(opened.zones as usize) as u32, x, y)
        })
        .collect();

    let both = Both::open(file);
    both.lookup("random positions", &anywhere);
    both.lookup("near borders", &borders);
    both.lookup_into("random positions", &anywhere);
    both.lookup_into("near borders", &borders);
    both.contains("near borders, the zones there", &places);
    both.contains("random zones and points", &far);
    super::striped::run(file, &anywhere, &borders, &places);
    let whole: Vec<(i32, i32)> = far.iter().map(|&(_, x, y)| (x, y)).collect();
    super::journal::run(file, &whole, &beside);
    both.decode("all chunks", opened.chunks() as u32);
    both.names(opened.zones as u32);
    full_check(file);
}

/// Decoding alone, of a file whose numbers have such lengths.
pub fn decoding(kind: &str, file: &[u8]) {
    let opened = rules::open(file, &[]).ok().expect("a file that opens");
    Both::open(file).decode(&format!("numbers as in {kind} data"), opened.chunks() as u32);
}

struct Both<'a> {
    port: port::opening::Opened<'a>,
    original: Original<'a>,
}

impl<'a> Both<'a> {
    fn open(file: &'a [u8]) -> Self {
        Self {
            port: port::opening::open(file).expect("a file that opens"),
            original: original::opening::open(file).ok().expect("a file that opens"),
        }
    }

    fn lookup(&self, name: &str, at: &Positions) {
        let (r, size, f, length) = self.port.parts();
        let mut port = || {
            at.iter().fold(0u64, |sum, &(lng, lat)| {
                sum.wrapping_add(unsafe { tzb_ask(r, size, f, length, lng, lat) } as u64)
            })
        };
        let mut original = || {
            at.iter().fold(0u64, |sum, &(lng, lat)| {
                sum.wrapping_add(original_ask(&self.original, lng, lat) as u64)
            })
        };
        row(&format!("lookup, {name}, each"), at.len(), &mut port, &mut original);
    }

    fn lookup_into(&self, name: &str, at: &Positions) {
        let (r, size, f, length) = self.port.parts();
        let mut zones = [0u32; 16];
        let mut port = || {
            at.iter().fold(0u64, |sum, &(lng, lat)| {
                let (to, room) = (zones.as_mut_ptr(), zones.len());
                let count = unsafe { tzb_ask_all(r, size, f, length, lng, lat, to, room) };
                zones[..count as usize]
                    .iter()
                    .fold(sum, |sum, &zone| sum.wrapping_mul(31) + u64::from(zone))
            })
        };
        let mut list = Vec::with_capacity(16);
        let mut original = || {
            at.iter().fold(0u64, |sum, &(lng, lat)| {
                original_ask_all(&self.original, lng, lat, &mut list);
                list.iter().fold(sum, |sum, &zone| sum.wrapping_mul(31) + u64::from(zone))
            })
        };
        row(&format!("lookup_into, {name}, each"), at.len(), &mut port, &mut original);
    }

    fn contains(&self, name: &str, at: &Places) {
        let (r, size, f, length) = self.port.parts();
        let mut port = || {
            at.iter().fold(0u64, |sum, &(zone, x, y)| {
                sum.wrapping_mul(31)
                    + unsafe { tzb_contains(r, size, f, length, zone, x, y) } as u64
            })
        };
        let mut original = || {
            at.iter().fold(0u64, |sum, &(zone, x, y)| {
                sum.wrapping_mul(31) + original_contains(&self.original, zone, x, y) as u64
            })
        };
        row(&format!("containment, {name}, each"), at.len(), &mut port, &mut original);
    }

    fn decode(&self, name: &str, chunks: u32) {
        let (r, size, f, length) = self.port.parts();
        let mut out = vec![0i32; 131_072];
        let mut points = original::Points::with_capacity(65_536);
        let count = |chunk| original_decode(&self.original, chunk, &mut points) as usize;
        let total = (0..chunks).map(count).sum();
        let mut port = || {
            (0..chunks).fold(0u64, |sum, chunk| {
                let (to, room) = (out.as_mut_ptr(), out.len());
                let count = unsafe { tzb_decode(r, size, f, length, chunk, to, room) };
                sum.wrapping_mul(31).wrapping_add(out[2 * count as usize - 1] as u64)
            })
        };
        let mut original = || {
            (0..chunks).fold(0u64, |sum, chunk| {
                original_decode(&self.original, chunk, &mut points);
                sum.wrapping_mul(31).wrapping_add(points.last().unwrap().y as u64)
            })
        };
        row(&format!("decoding {name}, a point"), total, &mut port, &mut original);
    }

    fn names(&self, zones: u32) {
        let (r, size, f, length) = self.port.parts();
        let mut ends = [0u64; 2];
        let mut port = || {
            (0..zones).fold(0u64, |sum, zone| {
                let (to, room) = (ends.as_mut_ptr(), ends.len());
                unsafe { tzb_name(r, size, f, length, zone, to, room) };
                sum.wrapping_mul(31) + (ends[1] - ends[0])
            })
        };
        let mut original = || {
            (0..zones).fold(0u64, |sum, zone| {
                sum.wrapping_mul(31) + original_name(&self.original, zone) as u64
            })
        };
        row("names, each", zones as usize, &mut port, &mut original);
    }
}

/// The original has none: its time beside that of opening.
fn full_check(file: &[u8]) {
    if !is_wanted("full check, a byte") || std::env::var_os("COUNTS").is_some() {
        return;
    }
    let (data, length) = (file.as_ptr(), file.len());
    let mut check = || unsafe { tzb_full_check(data, length) } as u64;
    let mut open = || u64::from(unsafe { port::opening::refusal(data, length) });
    assert_eq!((check(), open()), (0, 0), "a file that the full check accepts");
    let (mut c, mut o) = (Duration::MAX, Duration::MAX);
    for _ in 0..ROUNDS {
        c = c.min(time(&mut check));
        o = o.min(time(&mut open));
    }
    let each = |d: Duration| d.as_secs_f64() * 1e9 / file.len() as f64;
    println!(
        "{:<46}{:>9.2} ns{:>9.2} times opening",
        "full check, a byte",
        each(c),
        c.as_secs_f64() / o.as_secs_f64()
    );
}
