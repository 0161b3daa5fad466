//! Files that open and break one clause of F2 to F6 each, or two, with the lowest broken rule; and the file that they are made from, which breaks none.

use super::*;

/// A rule, a section, a record's number and width, a field's place and width, and the value that breaks the rule.
type Break = (u32, u32, usize, usize, usize, usize, i64);

/// Two zones. The first: two groups of two chunks each, and a hole. The second: two polygons, one of them a triangle turned round.
pub fn whole() -> Vec<u8> {
    let mut shape = Shape::default();
    let groups = [
        vec![vec![(0, 0), (6, 0)], vec![(8, 2), (8, 8)]],
        vec![vec![(8, 8), (2, 9)], vec![(0, 7), (0, 0)]],
        vec![vec![(2, 2), (4, 2), (3, 5), (2, 2)]],
        vec![vec![(10, 0), (12, 0), (11, 3), (10, 0)]],
        vec![vec![(10, 5), (14, 5), (12, 9), (10, 5)]],
    ];
    for chunks in groups {
        shape.add_group(Chunks(chunks));
    }
    let ring =
        |groups: &[usize], turned| groups.iter().map(|&group| Op { group, turned }).collect();
    shape.zones.push(vec![vec![ring(&[0, 1], false), ring(&[2], false)]]);
    shape.zones.push(vec![vec![ring(&[3], true)], vec![ring(&[4], false)]]);
    let mut parts = shape.parts();
    let all = [b"B".to_vec(), b"A".to_vec()];
    parts.push(Part { typ: NAMES, bytes: names(&[], &all), gap: 0 });
    Draft::new(2, parts).lay()
}

const ZONE: (u32, usize) = (TZDIR, 24);
const POLYGON: (u32, usize) = (POLYDIR, 24);
const RING: (u32, usize) = (RINGDIR, 28);
const OP: (u32, usize) = (RINGOPS, 4);
const GROUP: (u32, usize) = (GROUPDIR, 44);
const CHUNK: (u32, usize) = (CHUNKDIR, 24);

const fn at(
    rule: u32,
    of: (u32, usize),
    i: usize,
    place: usize,
    width: usize,
    value: i64,
) -> Break {
    (rule, of.0, i, of.1, place, width, value)
}

/// The record rule of zones, polygons and rings, in the first record and in the last.
const RECORDS: [Break; 23] = [
    at(2, ZONE, 0, 4, 2, 0),
    at(2, ZONE, 0, 4, 2, 4),
    at(2, ZONE, 1, 0, 4, 3),
    at(2, ZONE, 1, 0, 4, 0xffff_ffff),
    at(2, ZONE, 0, 8, 4, 9),
    at(2, ZONE, 0, 8, 4, -18_000_001),
    at(2, ZONE, 1, 20, 4, 9_000_001),
    at(2, POLYGON, 0, 4, 2, 0),
    at(2, POLYGON, 0, 4, 2, 5),
    at(2, POLYGON, 2, 0, 4, 4),
    at(2, POLYGON, 2, 12, 4, 10),
    at(2, POLYGON, 2, 16, 4, 18_000_001),
    at(2, RING, 0, 8, 2, 0),
    at(2, RING, 0, 8, 2, 6),
    at(2, RING, 3, 0, 4, 5),
    at(2, RING, 3, 16, 4, -9_000_001),
    at(2, RING, 1, 12, 4, 5),
    // Ring ops, and point counts one off.
    at(2, OP, 0, 0, 4, 5),
    at(2, OP, 4, 0, 4, 0x8000_0005),
    at(2, RING, 0, 4, 4, 5),
    at(2, RING, 0, 4, 4, 7),
    at(2, RING, 3, 4, 4, 2),
    at(2, RING, 3, 4, 4, 4),
];

/// Boxes a step too small, on each side, and ends that are not the group's first and last point.
const BOXES: [Break; 26] = [
    // Its own points; a middle one too.
    at(4, CHUNK, 4, 8, 4, 3),
    at(4, CHUNK, 1, 20, 4, 7),
    at(4, CHUNK, 4, 20, 4, 4),
    at(4, CHUNK, 4, 16, 4, 3),
    at(4, CHUNK, 6, 12, 4, 6),
    // The joint to the next chunk alone.
    at(4, CHUNK, 0, 16, 4, 7),
    at(4, CHUNK, 0, 20, 4, 1),
    at(4, CHUNK, 2, 8, 4, 1),
    at(4, CHUNK, 2, 12, 4, 8),
    // A group's box over its chunks'.
    at(5, GROUP, 0, 28, 4, 1),
    at(5, GROUP, 0, 40, 4, 7),
    at(5, GROUP, 4, 32, 4, 6),
    at(5, GROUP, 4, 36, 4, 13),
    // Entry and exit.
    at(5, GROUP, 0, 12, 4, 1),
    at(5, GROUP, 0, 16, 4, 1),
    at(5, GROUP, 1, 20, 4, 1),
    at(5, GROUP, 4, 24, 4, 6),
    // A ring's box over its groups', a polygon's over its rings', a zone's over its polygons'.
    at(6, RING, 0, 24, 4, 8),
    at(6, RING, 0, 12, 4, 1),
    at(6, RING, 3, 20, 4, 13),
    at(6, POLYGON, 0, 8, 4, 1),
    at(6, POLYGON, 0, 20, 4, 8),
    at(6, POLYGON, 2, 12, 4, 6),
    at(6, ZONE, 0, 20, 4, 8),
    at(6, ZONE, 1, 8, 4, 11),
    at(6, ZONE, 1, 16, 4, 13),
];

fn with(file: &[u8], breaks: &[Break]) -> Vec<u8> {
    let mut out = file.to_vec();
    for &(_, typ, i, size, place, width, value) in breaks {
        let section = entries(file).into_iter().find(|entry| entry[0] == typ).unwrap();
        let at = section[1] as usize + size * i + place;
        out[at..at + width].copy_from_slice(&value.to_le_bytes()[..width]);
    }
    repair(&mut out);
    out
}

/// A byte of POINTS changed so that its number goes on: past the chunk's end, or longer than it need be. In the first chunk, in others.
fn points() -> Vec<Break> {
    let byte = |place, value| (3, POINTS, 0, 1, place, 1, value);
    vec![byte(3, 0x80), byte(0, 0x80), byte(7, 0x80), byte(27, 0x80)]
}

/// With the lowest broken rule, 0 for none.
pub fn files() -> Vec<(u32, Vec<u8>)> {
    let whole = whole();
    let mut out = vec![(0, whole.clone())];
    let points = points();
    for one in RECORDS.iter().chain(&points).chain(&BOXES) {
        out.push((one.0, with(&whole, &[*one])));
    }
    let pairs = [
        (RECORDS[20], points[0]),
        (RECORDS[20], BOXES[25]),
        (points[3], BOXES[1]),
        (points[3], BOXES[13]),
        (points[0], BOXES[20]),
        (BOXES[5], BOXES[9]),
        (BOXES[1], BOXES[23]),
        (BOXES[16], BOXES[17]),
    ];
    out.extend(pairs.map(|(a, b)| (a.0.min(b.0), with(&whole, &[a, b]))));
    // In a polygon that no zone names any more.
    let unnamed = at(2, ZONE, 1, 4, 2, 1);
    out.push((6, with(&whole, &[unnamed, at(6, POLYGON, 2, 8, 4, 11)])));
    out.push((2, with(&whole, &[unnamed, at(2, POLYGON, 2, 4, 2, 0)])));
    out
}
