//! A zone's text: the port's `tzb_map` on the zones with the longest texts, beside the full check, which is a part of it, and a plain Rust
//! writer over points that are decoded already. The best of some turns, in microseconds of processor time, so that other work on the machine
//! counts for little; all in one run.

use super::zones::time;
use crate::port::exports::*;
use crate::rules::map::Polygon;
use crate::rules::{self, Opened};
use std::fmt::Write;
use std::path::Path;

/// So many zones, and so many turns of each.
const ZONES: usize = 8;
const TURNS: usize = 40;

pub fn run(path: &Path) {
    let file = std::fs::read(path).expect("the file");
    let opened = rules::open(&file, &[]).ok().expect("a file that opens");
    let mut zones: Vec<(String, u32)> =
        (0..opened.zones).filter_map(|zone| Some((opened.map(zone).ok()?, zone as u32))).collect();
    zones.sort_by_key(|(text, _)| std::cmp::Reverse(text.len()));
    println!("{} of {} zones have a text; the longest:", zones.len(), opened.zones);
    println!(
        "{:<24}{:>10}{:>10}{:>11}{:>11}{:>11}{:>11}{:>11}{:>8}",
        "zone, µs",
        "positions",
        "bytes",
        "tzb_map",
        "length",
        "check",
        "map less",
        "write!",
        "ratio"
    );
    zones.iter().take(ZONES).for_each(|(text, zone)| row(&file, &opened, *zone, text));
    println!("map less: tzb_map without the full check's time. ratio: write! / map less");
}

fn row(file: &[u8], opened: &Opened, zone: u32, text: &str) {
    let (f, length) = (file.as_ptr(), file.len());
    let polygons = opened.drawn(zone.into()).expect("a zone with a text");
    let mut out = vec![0u8; text.len()];
    let mut plain = String::with_capacity(text.len());
    let mut map = || unsafe { tzb_map(f, length, zone, out.as_mut_ptr(), out.len()) } as u64;
    let mut measure = || unsafe { tzb_map_length(f, length, zone) } as u64;
    let mut check = || unsafe { tzb_full_check(f, length) } as u64;
    let mut write = || plain_text(&polygons, &mut plain);
    let answers = [map(), measure(), write()];
    assert!(answers == [text.len() as u64; 3] && check() == 0, "zone {zone}: {answers:?}");

    let mut best = [i64::MAX; 4];
    for _ in 0..TURNS {
        let turn = [time(&mut map), time(&mut measure), time(&mut check), time(&mut write)];
        best.iter_mut().zip(turn).for_each(|(best, now)| *best = now.min(*best));
    }
    assert!(out == text.as_bytes() && plain == text, "zone {zone}: the texts differ");
    let [map, measure, check, write] = best;
    let positions: usize = polygons.iter().flatten().map(Vec::len).sum();
    println!(
        "{:<24}{positions:>10}{:>10}{map:>11}{measure:>11}{check:>11}{:>11}{write:>11}{:>8.2}",
        name(file, opened, zone),
        text.len(),
        map - check,
        write as f64 / (map - check) as f64
    );
}

fn name(file: &[u8], opened: &Opened, zone: u32) -> String {
    let (start, length) = opened.name(zone.into()).expect("a zone's name");
    let name = &file[start as usize..(start + length) as usize];
    String::from_utf8_lossy(name).chars().take(22).collect()
}

/// What is written in Rust where nobody thinks of speed.
fn plain_text(polygons: &[Polygon], out: &mut String) -> u64 {
    out.clear();
    write_all(polygons, out).expect("a text");
    out.len() as u64
}

fn write_all(polygons: &[Polygon], out: &mut String) -> std::fmt::Result {
    write!(out, "{{\"type\":\"MultiPolygon\",\"coordinates\":[")?;
    for (i, polygon) in polygons.iter().enumerate() {
        write!(out, "{}[", if i > 0 { "," } else { "" })?;
        for (i, ring) in polygon.iter().enumerate() {
            write!(out, "{}[", if i > 0 { "," } else { "" })?;
            for (i, &(x, y)) in ring.iter().enumerate() {
                write!(out, "{}[", if i > 0 { "," } else { "" })?;
                write_decimal(x, out)?;
                write!(out, ",")?;
                write_decimal(y, out)?;
                write!(out, "]")?;
            }
            write!(out, "]")?;
        }
        write!(out, "]")?;
    }
    write!(out, "]}}")
}

fn write_decimal(n: i64, out: &mut String) -> std::fmt::Result {
    let (sign, size) = (if n < 0 { "-" } else { "" }, n.unsigned_abs());
    write!(out, "{sign}{}.{:05}", size / 100_000, size % 100_000)
}
