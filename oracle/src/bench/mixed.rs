//! Files whose numbers have the lengths that `mod.rs` measured of real boundaries: "66%/32% full, 26%/72% lite" of one and two bytes, the rest longer.

use crate::file::{Chunks, Op, Shape, striped};
use crate::random::Random;

/// Of a hundred numbers, how many have one byte and how many two.
pub const MIXES: [(&str, u32, u32); 2] = [("full", 66, 32), ("lite", 26, 72)];

/// So many zones, each one ring of one group.
const ZONES: usize = 16;
/// So many chunks in a group, and points in a chunk.
const CHUNKS: usize = 32;
const POINTS: usize = 256;
const EAST: i32 = 18_000_000;
const NORTH: i32 = 9_000_000;

pub fn file(one: u32, two: u32) -> Vec<u8> {
    let mut random = Random::new(3);
    let mut shape = Shape::default();
    for _ in 0..ZONES {
        let (mut x, mut y) = (0, 0);
        let mut point = || {
            x = step(&mut random, one, two, x, EAST);
            y = step(&mut random, one, two, y, NORTH);
            (x, y)
        };
        let chunks = (0..CHUNKS).map(|_| (0..POINTS).map(|_| point()).collect()).collect();
        let group = shape.add_group(Chunks(chunks));
        shape.zones.push(vec![vec![vec![Op { group, turned: false }]]]);
    }
    striped::named(&shape).lay()
}

/// One number further, to either side; back where it would leave the world.
fn step(random: &mut Random, one: u32, two: u32, from: i32, end: i32) -> i32 {
    let length = random.below(100) as u32;
    let far = match length {
        n if n < one => random.from_to(0, 63),
        n if n < one + two => random.from_to(64, 8191),
        _ => random.from_to(8192, 100_000),
    };
    let to = if random.below(2) == 0 { from + far } else { from - far };
    if to.abs() <= end { to } else { from - (to - from) }
}
