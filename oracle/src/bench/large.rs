//! A file with large groups: eight zones over most of the world, each one ring of one group of 4,096 chunks, without GRID.

use crate::file::{Chunks, Op, Shape, striped};
use crate::random::Random;

type Point = (i32, i32);

/// An edge is halved so many times.
const HALVED: u32 = 12;
/// So many points a chunk: 16 sides of 4,096 points each are 4,096 chunks.
const EACH: usize = 16;
/// How far a zone reaches from its middle.
const FAR: i32 = 4_000_000;
const EAST: i32 = 18_000_000;
const NORTH: i32 = 9_000_000;

/// Sixteen directions in turn, roughly round, in eighths.
const ROUND: [Point; 16] = [
    (8, 0),
    (7, 3),
    (6, 6),
    (3, 7),
    (0, 8),
    (-3, 7),
    (-6, 6),
    (-7, 3),
    (-8, 0),
    (-7, -3),
    (-6, -6),
    (-3, -7),
    (0, -8),
    (3, -7),
    (6, -6),
    (7, -3),
];

pub fn file() -> Vec<u8> {
    let mut random = Random::new(16);
    let mut shape = Shape::default();
    for y in [-4_500_000, 4_500_000] {
        for x in [-13_500_000, -4_500_000, 4_500_000, 13_500_000] {
            let coast = coast(&mut random, (x, y));
            let chunks = coast.chunks(EACH).map(<[Point]>::to_vec).collect();
            let group = shape.add_group(Chunks(chunks));
            shape.zones.push(vec![vec![vec![Op { group, turned: false }]]]);
        }
    }
    striped::named(&shape).lay()
}

/// A closed line round a middle. Each edge's middle is moved by up to a quarter of the edge, and both halves likewise.
fn coast(random: &mut Random, (x, y): Point) -> Vec<Point> {
    let corner = |(dx, dy): Point| (x + FAR / 8 * dx, y + FAR / 8 * dy);
    let mut line: Vec<Point> = ROUND.map(corner).to_vec();
    for _ in 0..HALVED {
        let ends = line.iter().zip(line.iter().cycle().skip(1));
        line = ends.flat_map(|(&a, &b)| [a, between(random, a, b)]).collect();
    }
    line
}

fn between(random: &mut Random, a: Point, b: Point) -> Point {
    let far = (a.0.abs_diff(b.0)).max(a.1.abs_diff(b.1)) as i32 / 4;
    let mut middle =
        |a: i32, b: i32, end: i32| (a + (b - a) / 2 + random.from_to(-far, far)).clamp(-end, end);
    (middle(a.0, b.0, EAST), middle(a.1, b.1, NORTH))
}
