//! Rings of about 10,000 positions, too large for a list.

use super::tables::{SQUARE, SQUARE_WRITTEN};
use super::*;

/// So many points: a long level side, and one point above it. Counterclockwise.
fn sliver(count: i32) -> Vec<Point> {
    (0..count - 1).map(|x| (x, 0)).chain([(0, 1)]).collect()
}

/// So many of the world's corners in turn, counterclockwise.
fn round_the_world(count: usize) -> Vec<Point> {
    let corners = [(-EAST, -NORTH), (EAST, -NORTH), (EAST, NORTH), (-EAST, NORTH)];
    corners.into_iter().cycle().take(count).collect()
}

/// Rings of about 10,000 positions, too large for a list.
pub fn long() -> Vec<Case> {
    let closed = |points: &[Point]| [points, &points[..1]].concat();
    let drawn = |ring: &[Point]| Drawn::Rings(vec![vec![written(ring)]]);
    let of = |legs: Ring, chunk| file(&[&[&[legs]]], chunk);
    let one = |points: &[Point], chunk| of(&[(points, false)], chunk);
    let (most, more) = (sliver(9_999), sliver(10_000));
    let (whole, more_closed) = (closed(&most), closed(&more));
    let (left, right) = most.split_at(5_000);
    let met = [&left[4_999..], right].concat();
    let mut out = vec![
        case("10,000 positions", one(&most, WHOLE), 0, drawn(&whole)),
        case("10,000 positions in chunks", one(&most, 64), 0, drawn(&whole)),
        case("10,000 positions, stored closed", one(&whole, 64), 0, drawn(&whole)),
        case("of two groups", of(&[(left, false), (right, false)], 64), 0, drawn(&whole)),
        case("of two that meet", of(&[(left, false), (&met, false)], 64), 0, drawn(&whole)),
        case("10,001 positions", one(&more, WHOLE), 0, Drawn::Refused(48)),
        case("10,001 positions, stored closed", one(&more_closed, 64), 0, Drawn::Refused(48)),
        case("60,000 positions", one(&sliver(60_000), WHOLE), 0, Drawn::Refused(48)),
        case("10,001 positions, past the zone", one(&more, WHOLE), 1, Drawn::Refused(45)),
    ];
    let hole = file(&[&[&[SQUARE, &[(&more, false)]]]], 64);
    out.push(case("a hole of 10,001 positions", hole, 0, Drawn::Refused(48)));
    let long_hole = file(&[&[&[SQUARE, &[(&most, false)]]]], 64);
    let mut back = written(&whole);
    back.reverse();
    let rings = Drawn::Rings(vec![vec![written(SQUARE_WRITTEN), back]]);
    out.push(case("a hole of 10,000 positions", long_hole, 0, rings));
    // The greatest areas: turned round where the sign is below zero.
    let turns = round_the_world(9_997);
    let file = one(&turns, 64);
    out.push(case("2,499 times round the world", file, 0, drawn(&turns)));
    let mut clockwise = turns.clone();
    clockwise.reverse();
    let file = one(&clockwise, 64);
    out.push(case("2,499 times round the world, clockwise", file, 0, drawn(&turns)));
    out.push(case("one group 65,535 times", many_times(), 0, Drawn::Refused(48)));
    out
}

/// A ring that names the same group of two points as often as it can.
fn many_times() -> Vec<u8> {
    let mut shape = Shape::default();
    let group = shape.add_group(Chunks(vec![vec![(0, 0), (4, 1)]]));
    shape.zones.push(vec![vec![vec![Op { group, turned: false }; 65_535]]]);
    let mut parts = shape.parts();
    parts.push(Part { typ: NAMES, bytes: names(&[], &[b"A".to_vec()]), gap: 0 });
    Draft::new(1, parts).lay()
}
