//! Files and records for a journal's entries (document 02, 2026-04): the kept index with its answers, records made by hand, and random files
//! whose zones lie on each other.

mod by_hand;

pub use by_hand::by_hand;

use super::*;
use crate::rules::journal::Entry;

type Point = (i32, i32);

const EAST: i32 = 18_000_000;
const NORTH: i32 = 9_000_000;

/// A ring round two corners, one group of one chunk.
fn square(shape: &mut Shape, (west, south): Point, (east, north): Point) -> Vec<Op> {
    ring(shape, &[(west, south), (east, south), (east, north), (west, north), (west, south)])
}

fn ring(shape: &mut Shape, points: &[Point]) -> Vec<Op> {
    let group = shape.add_group(Chunks(vec![points.to_vec()]));
    vec![Op { group, turned: false }]
}

/// The index of the kept journal: six zones that lie on each other round 0, 0 and in two corners of the domain. The first has a hole, the
/// last stands in it; the second and the fourth have the same name, and the last's is the beginning of another. Its GRID lists the last zone
/// alone: whoever asks it answers otherwise.
pub fn kept() -> Vec<u8> {
    kept_draft().lay()
}

pub fn kept_draft() -> Draft {
    let mut shape = Shape::default();
    let s = &mut shape;
    let zones = vec![
        vec![vec![square(s, (0, 0), (100, 100)), square(s, (20, 20), (40, 40))]],
        vec![vec![square(s, (80, 0), (200, 100))]],
        vec![vec![square(s, (80, 60), (140, 140))]],
        vec![vec![square(s, (60, 60), (120, 120))]],
        vec![
            vec![square(s, (90, 90), (300, 200))],
            vec![square(s, (EAST - 100, NORTH - 100), (EAST, NORTH))],
        ],
        vec![
            vec![ring(s, &[(25, 25), (35, 25), (30, 35), (25, 25)])],
            vec![square(s, (-EAST, -NORTH), (100 - EAST, 100 - NORTH))],
        ],
    ];
    shape.zones = zones;
    let all = ["Delta", "Bravo", "Alpha", "Bravo", "Charlie", "Al"].map(|name| name.into());
    let mut parts = shape.parts();
    parts.push(Part { typ: NAMES, bytes: names(&[], &all), gap: 0 });
    let (words, candidates) = (vec![1 << 28], vec![5]);
    let grid = Grid { lng: 0, lat: 0, columns: 1, rows: 1, words, candidates };
    parts.push(Part { typ: GRID, bytes: grid.bytes(), gap: 0 });
    Draft::new(6, parts)
}

/// A position, and its zones or the reason why none are told.
pub type Answer = (Point, Result<&'static [u32], u32>);

/// What is written of a position where this is expected.
pub fn expected((x, y): Point, said: Result<&[u32], u32>) -> Entry {
    let (zones, reason) = said.map_or_else(|number| (&[][..], number), |zones| (zones, 0));
    Entry { x, y, zones: zones.to_vec(), reason }
}

/// Positions of the kept index with their answers, read off document 02 by hand.
pub const ANSWERS: [Answer; 47] = [
    // In the first zone, its corner, its hole's edge, its hole, and the last zone in the hole.
    ((10, 10), Ok(&[0])),
    ((0, 0), Ok(&[0])),
    ((20, 30), Ok(&[0])),
    ((40, 40), Ok(&[0])),
    ((22, 22), Ok(&[])),
    ((39, 39), Ok(&[])),
    ((25, 25), Ok(&[5])),
    ((30, 30), Ok(&[5])),
    ((30, 35), Ok(&[5])),
    ((30, 36), Ok(&[])),
    // Two zones, and the edges of both.
    ((90, 30), Ok(&[1, 0])),
    ((80, 30), Ok(&[1, 0])),
    ((79, 30), Ok(&[0])),
    ((100, 30), Ok(&[1, 0])),
    ((101, 30), Ok(&[1])),
    ((200, 50), Ok(&[1])),
    ((201, 50), Ok(&[])),
    ((70, 70), Ok(&[3, 0])),
    ((60, 60), Ok(&[3, 0])),
    ((59, 60), Ok(&[0])),
    ((130, 110), Ok(&[2, 4])),
    ((121, 120), Ok(&[2, 4])),
    ((140, 140), Ok(&[2, 4])),
    ((150, 95), Ok(&[1, 4])),
    // Three, of equal names too.
    ((110, 70), Ok(&[2, 1, 3])),
    ((110, 110), Ok(&[2, 3, 4])),
    ((120, 120), Ok(&[2, 3, 4])),
    ((130, 95), Ok(&[2, 1, 4])),
    // Four and five.
    ((85, 70), Err(46)),
    ((110, 95), Err(46)),
    ((95, 95), Err(46)),
    ((90, 90), Err(46)),
    ((100, 100), Err(46)),
    // The fifth alone, its other polygon, and beside them.
    ((250, 150), Ok(&[4])),
    ((300, 200), Ok(&[4])),
    ((301, 200), Ok(&[])),
    ((EAST, NORTH), Ok(&[4])),
    ((EAST - 101, NORTH), Ok(&[])),
    ((-EAST, -NORTH), Ok(&[5])),
    // Outside the domain, and in no zone.
    ((EAST + 1, NORTH), Ok(&[])),
    ((EAST, NORTH + 1), Ok(&[])),
    ((-EAST - 1, -NORTH), Ok(&[])),
    ((-EAST, -NORTH - 1), Ok(&[])),
    ((i32::MIN, i32::MAX), Ok(&[])),
    ((i32::MAX, i32::MIN), Ok(&[])),
    ((1, -1), Ok(&[])),
    ((-1, 0), Ok(&[])),
];

/// Few names: some are equal, some begin alike.
const SOME_NAMES: [&str; 6] = ["A", "B", "Aa", "AB", "Ä", "B"];

/// A valid file of one to eight zones on a small lattice, which lie on each other most of the time. With GRID or without.
pub fn some(random: &mut Random) -> Draft {
    let (side, step) = (random.from_to(1, 6), random.pick(&[1, 1, 1, 3, 1000, 100_000]));
    let (east, north) = (EAST - side * step, NORTH - side * step);
    let origin = random.pick(&[(0, 0), (0, 0), (-step, -step), (-EAST, -NORTH), (east, north)]);
    let corners = |random: &mut Random| {
        let at = |n: i32, from: i32| from + step * n;
        let [a, b, c, d] = [(); 4].map(|()| random.from_to(0, side));
        let ([west, east], [south, north]) = ([a.min(b), a.max(b)], [c.min(d), c.max(d)]);
        ((at(west, origin.0), at(south, origin.1)), (at(east, origin.0), at(north, origin.1)))
    };
    let mut shape = Shape::default();
    for _ in 0..random.pick(&[1, 2, 3, 3, 4, 4, 5, 8]) {
        let mut zone = Vec::new();
        for _ in 0..random.pick(&[1, 1, 1, 2]) {
            let rings = random.pick(&[1, 1, 1, 2]);
            let mut some_ring = |_| {
                let (from, to) = corners(random);
                square(&mut shape, from, to)
            };
            zone.push((0..rings).map(&mut some_ring).collect());
        }
        shape.zones.push(zone);
    }
    let zones = shape.zones.len();
    let mut parts = shape.parts();
    let all: Vec<Vec<u8>> = (0..zones).map(|_| random.pick(&SOME_NAMES).into()).collect();
    parts.push(Part { typ: NAMES, bytes: names(&[], &all), gap: 0 });
    if random.below(2) == 0 {
        let grid = Grid::over(random, zones, shape.cell());
        parts.push(Part { typ: GRID, bytes: grid.bytes(), gap: 0 });
    }
    finish(random, Draft::of_shape(&shape, parts))
}
