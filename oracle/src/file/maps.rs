//! Files for a zone's text (document 02, 2026-01): small ones with what is expected by hand, long rings, and random ones.

mod long;
mod some;
mod tables;

pub use long::long;
pub use some::{mostly_with_room, some};

use super::*;
use crate::rules::map::Polygon as Written;
use tables::{DIGITS, LINE, REFUSED, RINGS, SEVERAL, SQUARE, SQUARE_WRITTEN, STROKE, WITHOUT_ROOM};

type Point = (i32, i32);

/// A group's points as they are stored, and whether it is turned round.
type Leg<'a> = (&'a [Point], bool);
type Ring<'a> = &'a [Leg<'a>];
type Polygon<'a> = &'a [Ring<'a>];

/// What is expected: the rings as they run in the text, or the refusal; for 47 with 100 times the rule.
#[derive(Debug, PartialEq)]
pub enum Drawn {
    Rings(Vec<Written>),
    Refused(u32),
}

pub struct Case {
    pub what: String,
    pub file: Vec<u8>,
    pub zone: u32,
    pub drawn: Drawn,
}

const EAST: i32 = 18_000_000;
const NORTH: i32 = 9_000_000;

fn written(ring: &[Point]) -> Vec<(i64, i64)> {
    ring.iter().map(|&(x, y)| (x.into(), y.into())).collect()
}

/// Each leg is a group of its own, in chunks of so many points.
fn add_ring(shape: &mut Shape, ring: Ring, chunk: usize) -> Vec<Op> {
    let mut op = |&(points, turned): &Leg| {
        let chunks = points.chunks(chunk).map(<[Point]>::to_vec).collect();
        Op { group: shape.add_group(Chunks(chunks)), turned }
    };
    ring.iter().map(&mut op).collect()
}

fn add_polygon(shape: &mut Shape, polygon: Polygon, chunk: usize) -> Vec<Vec<Op>> {
    polygon.iter().map(|ring| add_ring(shape, ring, chunk)).collect()
}

/// A file of these zones, without GRID.
fn file(zones: &[&[Polygon]], chunk: usize) -> Vec<u8> {
    let mut shape = Shape::default();
    for zone in zones {
        let zone = zone.iter().map(|polygon| add_polygon(&mut shape, polygon, chunk)).collect();
        shape.zones.push(zone);
    }
    let mut parts = shape.parts();
    let all: Vec<Vec<u8>> = (0..zones.len()).map(|i| vec![b'A' + i as u8]).collect();
    parts.push(Part { typ: NAMES, bytes: names(&[], &all), gap: 0 });
    Draft::new(zones.len() as u32, parts).lay()
}

/// More than any group has.
const WHOLE: usize = usize::MAX;

/// One zone of one ring of one group.
#[cfg(test)]
pub fn one(points: &[Point]) -> Vec<u8> {
    file(&[&[&[&[(points, false)]]]], WHOLE)
}

fn case(what: &str, file: Vec<u8>, zone: u32, drawn: Drawn) -> Case {
    Case { what: what.to_string(), file, zone, drawn }
}

/// Small files. What is expected of each is read off document 02 by hand.
pub fn cases() -> Vec<Case> {
    let mut out = rings();
    let refused = |number| {
        move |&(what, ring): &(&str, Ring)| {
            case(what, file(&[&[&[ring]]], WHOLE), 0, Drawn::Refused(number))
        }
    };
    out.extend(REFUSED.iter().map(refused(48)));
    out.extend(WITHOUT_ROOM.iter().map(refused(247)));
    out.extend(SEVERAL.iter().map(|&(what, zone, polygons)| {
        let polygon = |rings: &&[&[Point]]| rings.iter().map(|ring| written(ring)).collect();
        let drawn = match polygons {
            [] => Drawn::Refused(48),
            _ => Drawn::Rings(polygons.iter().map(polygon).collect()),
        };
        case(what, file(&[zone], WHOLE), 0, drawn)
    }));
    out.extend(of_two_zones());
    out.extend(before_the_zone());
    out
}

fn rings() -> Vec<Case> {
    let drawn = |ring: &[Point]| Drawn::Rings(vec![vec![written(ring)]]);
    let mut out = Vec::new();
    for (i, &(what, ring, positions)) in RINGS.iter().enumerate() {
        out.push(case(what, file(&[&[&[ring]]], WHOLE), 0, drawn(positions)));
        // Some in chunks of one point and of two; the joints between chunks are no joints of a ring.
        if i % 5 == 2 {
            for chunk in [1, 2] {
                let what = format!("{what}, in chunks of {chunk}");
                out.push(case(&what, file(&[&[&[ring]]], chunk), 0, drawn(positions)));
            }
        }
    }
    for sign in [1, -1] {
        let stored = DIGITS.map(|(x, y)| (sign * x, sign * y));
        let positions = [&stored[..], &stored[..1]].concat();
        let file = file(&[&[&[&[(&stored, false)]]]], WHOLE);
        out.push(case(&format!("digits, times {sign}"), file, 0, drawn(&positions)));
    }
    out
}

/// A zone's line is no matter of another zone; a number too large is told before it.
fn of_two_zones() -> Vec<Case> {
    let drawn = || Drawn::Rings(vec![vec![written(SQUARE_WRITTEN)]]);
    let (fine, line): (&[Polygon], &[Polygon]) = (&[&[SQUARE]], &[&[LINE]]);
    let (first, second) = (file(&[fine, line], WHOLE), file(&[line, fine], WHOLE));
    let mut out = vec![
        case("the first of two, the second a line", first.clone(), 0, drawn()),
        case("a line, the second of two", first.clone(), 1, Drawn::Refused(48)),
        case("a line, the first of two", second.clone(), 0, Drawn::Refused(48)),
        case("the second of two, the first a line", second, 1, drawn()),
    ];
    for zone in [2, 3, 65_535, 65_536, u32::MAX] {
        out.push(case("past two zones", first.clone(), zone, Drawn::Refused(45)));
    }
    let alone = file(&[line], WHOLE);
    out.push(case("past one zone, a line", alone, 1, Drawn::Refused(45)));
    out.extend(of_a_file_without_room());
    out
}

/// A ring of two segments is a matter of every zone, and is told before a number too large.
fn of_a_file_without_room() -> Vec<Case> {
    let (fine, line, stroke): (&[Polygon], &[Polygon], &[Polygon]) =
        (&[&[SQUARE]], &[&[LINE]], &[&[SQUARE, STROKE]]);
    let refused = |what, zones: &[&[Polygon]], zone| {
        case(what, file(zones, WHOLE), zone, Drawn::Refused(247))
    };
    vec![
        refused("the first of two, the second's hole without room", &[fine, stroke], 0),
        refused("the second of two, the first's hole without room", &[stroke, fine], 1),
        refused("a line, the second's hole without room", &[line, stroke], 0),
        refused("past one zone without room", &[stroke], 1),
    ]
}

/// The full check's refusals come before 45 and 48: opening's numbers, and each rule of 47 in the first file that breaks it and in some more.
fn before_the_zone() -> Vec<Case> {
    let mut out = Vec::new();
    for number in 1..=34 {
        let (_, file) = super::cases().into_iter().find(|&(n, _)| n == number).unwrap();
        out.push(case("a file that does not open", file, u32::MAX, Drawn::Refused(number)));
    }
    out.push(case("no bytes", Vec::new(), 0, Drawn::Refused(1)));
    let mut files = broken::files();
    files.extend(departing());
    files.retain(|&(rule, _)| rule > 0);
    for rule in 2..=6 {
        let of_rule = || files.iter().filter(|&&(r, _)| r == rule);
        let refused = || Drawn::Refused(47 + 100 * rule);
        let (_, first) = of_rule().next().unwrap();
        for zone in [0, 1, 2, u32::MAX] {
            out.push(case("a rule broken", first.clone(), zone, refused()));
        }
        for (_, file) in of_rule().skip(1).step_by(5) {
            out.push(case("a rule broken elsewhere", file.clone(), 0, refused()));
        }
        for (_, file) in of_rule().skip(3).step_by(5) {
            out.push(case("a rule broken, past the zones", file.clone(), 2, refused()));
        }
    }
    out.extend(lines_that_break_a_rule());
    out
}

/// A zone that is a line, in a file that breaks a rule: 47 comes before 48.
fn lines_that_break_a_rule() -> Vec<Case> {
    let line = file(&[&[&[LINE]]], WHOLE);
    let at = |typ: u32| entries(&line).into_iter().find(|e| e[0] == typ).unwrap()[1] as usize;
    // A point count one off; a number that goes on; then boxes: of a chunk, of a group, of a zone.
    let breaks = [
        (2, at(RINGDIR) + 4, 3),
        (3, at(POINTS) + 5, 0x80),
        (4, at(CHUNKDIR) + 16, 6),
        (5, at(GROUPDIR) + 36, 6),
        (6, at(TZDIR) + 16, 6),
    ];
    let with = |(rule, at, value): (u32, usize, u8)| {
        let mut file = line.clone();
        file[at] = value;
        repair(&mut file);
        case("a line that breaks a rule", file, 0, Drawn::Refused(47 + 100 * rule))
    };
    breaks.map(with).into()
}
