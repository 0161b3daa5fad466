//! Containment of the port against exact geometry alone, on files that the full check accepts: all of a small file's lattice, and along the borders of a large one.

use super::asking::questions;
use super::{DIFFERENCE, Tally};
use crate::exact::Exact;
use crate::file::damage::Aim;
use crate::file::{maps, mostly_with_room, some};
use crate::port::asking;
use crate::port::opening::{self, Opened};
use crate::random::Random;
use crate::rules;
use std::path::Path;
use std::time::{Duration, Instant};

/// A file that the full check accepts, and both who can be asked of it.
struct Pair<'a> {
    port: Opened<'a>,
    exact: Exact,
    zones: u32,
}

impl<'a> Pair<'a> {
    /// None where the port's full check does not accept the file.
    fn of(file: &'a [u8]) -> Option<Self> {
        if asking::full_check(file) != (0, 0) {
            return None;
        }
        let opened = rules::open(file, &[]).ok().expect("an accepted file opens");
        let exact = Exact::of(&opened).expect("an accepted file decodes");
        let port = opening::open(file).expect("an accepted file opens");
        Some(Self { port, exact, zones: opened.zones as u32 })
    }

    fn ask(&self, file: &[u8], tally: &mut Tally, zone: u32, (x, y): (i32, i32)) {
        let exact = self.exact.contains(zone.into(), x, y);
        let port = self.port.contains(zone, x, y);
        if port != Ok(exact) {
            std::fs::write(DIFFERENCE, file).expect("a place for the file");
            println!("zone {zone} at ({x}, {y}): the port says {port:?}, exact geometry {exact}");
            println!("the file is written to {DIFFERENCE}");
            std::process::exit(1);
        }
        tally.add(if exact { "points in the zone" } else { "points not in the zone" }, 1);
    }
}

/// By how many segments count in the ring that has the fewest. Below three the file is to be refused.
fn kind(fewest: usize) -> String {
    match fewest {
        0..3 => format!("files refused, a ring of {fewest} segments"),
        3 | 4 => format!("files, the smallest ring of {fewest} segments"),
        _ => "files, all rings of 5 segments or more".to_string(),
    }
}

/// Small files, as they are made and damaged where that is still accepted: every zone at every point of a lattice around them, or on and beside every point and edge.
pub fn run(seconds: u64, seed: u64) {
    println!("seed {seed}, random files for {seconds} s");
    let (mut tally, mut random) = (Tally::default(), Random::new(seed));
    let start = Instant::now();
    while start.elapsed() < Duration::from_secs(seconds) {
        let draft = match random.below(8) {
            0 => some(&mut random),
            1 => maps::mostly_with_room(&mut random),
            _ => mostly_with_room(&mut random),
        };
        let (file, kind) = (draft.lay(), kind(draft.fewest.unwrap()));
        let expected = if draft.has_room() { (0, 0) } else { (47, 2) };
        assert_eq!(asking::full_check(&file), expected, "a file of the builder");
        if !small(&file, &mut tally, &kind) {
            tally.add(&kind, 1);
        }
        let damaged = Aim::at_geometry(&file).damage(&mut random, &file, 1);
        small(&damaged, &mut tally, "files, damaged and accepted");
    }
    tally.print();
    println!("0 differences");
}

fn small(file: &[u8], tally: &mut Tally, kind: &str) -> bool {
    let Some(pair) = Pair::of(file) else { return false };
    let opened = rules::open(file, &[]).ok().expect("an accepted file opens");
    tally.add(kind, 1);
    for place in questions::whole_places(&opened) {
        (0..pair.zones).for_each(|zone| pair.ask(file, tally, zone, place));
    }
    true
}

/// A large file: the chunks in turn, on and beside every point and the middle of every edge, in the zones that the port lists there and in one more.
pub fn one(path: &Path, seconds: u64, seed: u64) {
    println!("seed {seed}, {} for {seconds} s", path.display());
    let file = std::fs::read(path).expect("the file");
    let pair = Pair::of(&file).expect("a file that the full check accepts");
    let opened = rules::open(&file, &[]).ok().expect("an accepted file opens");
    let (mut tally, mut random) = (Tally::default(), Random::new(seed));
    let chunks = opened.chunks();
    let first = random.below(chunks as usize) as u64;
    let start = Instant::now();
    for i in 0..chunks {
        if start.elapsed() >= Duration::from_secs(seconds) {
            break;
        }
        tally.add("chunks gone along", 1);
        for (x, y) in questions::border(&opened, (first + i) % chunks) {
            let (lng, lat) = (f64::from(x) / 100_000.0, f64::from(y) / 100_000.0);
            let mut zones = pair.port.lookup_into(lng, lat, 64).expect("an accepted file");
            zones.push(random.below(pair.zones as usize) as u64);
            for zone in zones {
                for beside in questions::beside((x, y)) {
                    pair.ask(&file, &mut tally, zone as u32, beside);
                }
            }
        }
    }
    tally.print();
    println!("0 differences");
}
