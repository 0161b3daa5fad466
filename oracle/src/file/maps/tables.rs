//! Zones as they are stored, and by hand as they are written.

use super::{EAST, Leg, NORTH, Point, Polygon, Ring};

const fn ahead(points: &[Point]) -> Leg<'_> {
    (points, false)
}

const fn turned(points: &[Point]) -> Leg<'_> {
    (points, true)
}

/// Outer rings of one zone, with their positions as they are written.
pub const RINGS: [(&str, Ring, &[Point]); 35] = [
    (
        "the triangle",
        &[ahead(&[(0, 0), (100, 0), (0, 100)])],
        &[(0, 0), (100, 0), (0, 100), (0, 0)],
    ),
    (
        "the triangle, stored closed",
        &[ahead(&[(0, 0), (100, 0), (0, 100), (0, 0)])],
        &[(0, 0), (100, 0), (0, 100), (0, 0)],
    ),
    ("clockwise", &[ahead(&[(0, 0), (0, 100), (100, 0)])], &[(0, 0), (100, 0), (0, 100), (0, 0)]),
    (
        "clockwise, stored closed",
        &[ahead(&[(0, 0), (0, 100), (100, 0), (0, 0)])],
        &[(0, 0), (100, 0), (0, 100), (0, 0)],
    ),
    (
        "turned round, which is clockwise: it starts at its exit",
        &[turned(&[(0, 0), (100, 0), (0, 100)])],
        &[(0, 100), (0, 0), (100, 0), (0, 100)],
    ),
    (
        "turned round, which is counterclockwise",
        &[turned(&[(0, 0), (0, 100), (100, 0)])],
        &[(100, 0), (0, 100), (0, 0), (100, 0)],
    ),
    (
        "an entry equal to the exit before it",
        &[ahead(&[(0, 0), (4, 0)]), ahead(&[(4, 0), (4, 4), (0, 0)])],
        &[(0, 0), (4, 0), (4, 4), (0, 0)],
    ),
    (
        "an entry that is not",
        &[ahead(&[(0, 0), (4, 0)]), ahead(&[(4, 4), (0, 4)])],
        &[(0, 0), (4, 0), (4, 4), (0, 4), (0, 0)],
    ),
    (
        "not equal in x alone",
        &[ahead(&[(0, 0), (4, 0)]), ahead(&[(5, 0), (5, 5)])],
        &[(0, 0), (4, 0), (5, 0), (5, 5), (0, 0)],
    ),
    (
        "not equal in y alone",
        &[ahead(&[(0, 0), (4, 0)]), ahead(&[(4, 1), (0, 5)])],
        &[(0, 0), (4, 0), (4, 1), (0, 5), (0, 0)],
    ),
    (
        "the second turned round, its entry equal",
        &[ahead(&[(0, 0), (4, 0)]), turned(&[(0, 0), (4, 4), (4, 0)])],
        &[(0, 0), (4, 0), (4, 4), (0, 0)],
    ),
    (
        "the second turned round, equal where it was not turned",
        &[ahead(&[(0, 0), (4, 0)]), turned(&[(4, 0), (0, 4), (4, 4)])],
        &[(0, 0), (4, 0), (4, 4), (0, 4), (4, 0), (0, 0)],
    ),
    (
        "the first turned round",
        &[turned(&[(4, 0), (0, 0)]), ahead(&[(4, 0), (4, 4)])],
        &[(0, 0), (4, 0), (4, 4), (0, 0)],
    ),
    (
        "the last not the first in x alone",
        &[ahead(&[(0, 0), (4, 0), (4, 4), (1, 0)])],
        &[(0, 0), (4, 0), (4, 4), (1, 0), (0, 0)],
    ),
    (
        "the last not the first in y alone",
        &[ahead(&[(0, 0), (4, 0), (4, 4), (0, 1)])],
        &[(0, 0), (4, 0), (4, 4), (0, 1), (0, 0)],
    ),
    (
        "a group of one point",
        &[ahead(&[(0, 0), (4, 0)]), ahead(&[(4, 4)])],
        &[(0, 0), (4, 0), (4, 4), (0, 0)],
    ),
    (
        "a group of one point that is left out",
        &[ahead(&[(0, 0), (4, 0)]), turned(&[(4, 0)]), ahead(&[(4, 4)])],
        &[(0, 0), (4, 0), (4, 4), (0, 0)],
    ),
    (
        "one left out, then an entry equal to it",
        &[ahead(&[(0, 0), (4, 0)]), ahead(&[(4, 0)]), ahead(&[(4, 0), (4, 4)])],
        &[(0, 0), (4, 0), (4, 4), (0, 0)],
    ),
    (
        "a group of one point at the start",
        &[ahead(&[(0, 0)]), ahead(&[(0, 0), (4, 0), (4, 4)])],
        &[(0, 0), (4, 0), (4, 4), (0, 0)],
    ),
    (
        "three groups of one point",
        &[ahead(&[(0, 0)]), ahead(&[(4, 0)]), turned(&[(4, 4)])],
        &[(0, 0), (4, 0), (4, 4), (0, 0)],
    ),
    (
        "a group of one point that closes",
        &[ahead(&[(0, 0), (4, 0), (4, 4)]), ahead(&[(0, 0)])],
        &[(0, 0), (4, 0), (4, 4), (0, 0)],
    ),
    (
        "equal neighbours within a group",
        &[ahead(&[(0, 0), (0, 0), (4, 0), (4, 4), (4, 4)])],
        &[(0, 0), (0, 0), (4, 0), (4, 4), (4, 4), (0, 0)],
    ),
    (
        "equal neighbours behind an entry that is left out",
        &[ahead(&[(0, 0), (4, 0)]), ahead(&[(4, 0), (4, 0), (4, 4)])],
        &[(0, 0), (4, 0), (4, 0), (4, 4), (0, 0)],
    ),
    (
        "equal neighbours, clockwise",
        &[ahead(&[(0, 0), (0, 0), (4, 4), (4, 0)])],
        &[(0, 0), (4, 0), (4, 4), (0, 0), (0, 0)],
    ),
    (
        "the closing point stored twice",
        &[ahead(&[(0, 0), (4, 0), (4, 4), (0, 0), (0, 0)])],
        &[(0, 0), (4, 0), (4, 4), (0, 0), (0, 0)],
    ),
    (
        "the first position in the middle too",
        &[ahead(&[(0, 0), (2, 0), (2, 2), (0, 0), (-2, 0), (-2, -2)])],
        &[(0, 0), (2, 0), (2, 2), (0, 0), (-2, 0), (-2, -2), (0, 0)],
    ),
    (
        "a figure of eight whose halves are not alike",
        &[ahead(&[(0, 0), (2, 2), (2, 0), (0, 3)])],
        &[(0, 0), (2, 2), (2, 0), (0, 3), (0, 0)],
    ),
    (
        "-1, 0 and 1",
        &[ahead(&[(-1, -1), (1, -1), (0, 0), (1, 1), (-1, 1)])],
        &[(-1, -1), (1, -1), (0, 0), (1, 1), (-1, 1), (-1, -1)],
    ),
    (
        "the world",
        &[ahead(&[(-EAST, -NORTH), (EAST, -NORTH), (EAST, NORTH), (-EAST, NORTH)])],
        &[(-EAST, -NORTH), (EAST, -NORTH), (EAST, NORTH), (-EAST, NORTH), (-EAST, -NORTH)],
    ),
    (
        "the world, clockwise",
        &[ahead(&[(-EAST, -NORTH), (-EAST, NORTH), (EAST, NORTH), (EAST, -NORTH)])],
        &[(-EAST, -NORTH), (EAST, -NORTH), (EAST, NORTH), (-EAST, NORTH), (-EAST, -NORTH)],
    ),
    (
        "a doubled area of 1 in the world's corner",
        &[ahead(&[(EAST, NORTH), (EAST - 1, NORTH), (EAST, NORTH - 1)])],
        &[(EAST, NORTH), (EAST - 1, NORTH), (EAST, NORTH - 1), (EAST, NORTH)],
    ),
    (
        "a doubled area of -1 in the world's corner",
        &[ahead(&[(EAST, NORTH), (EAST, NORTH - 1), (EAST - 1, NORTH)])],
        &[(EAST, NORTH), (EAST - 1, NORTH), (EAST, NORTH - 1), (EAST, NORTH)],
    ),
    (
        "a doubled area of 2^32",
        &[ahead(&[(0, 0), (65_536, 0), (65_536, 32_768), (0, 32_768)])],
        &[(0, 0), (65_536, 0), (65_536, 32_768), (0, 32_768), (0, 0)],
    ),
    (
        "a doubled area of -2^32",
        &[ahead(&[(0, 0), (0, 32_768), (65_536, 32_768), (65_536, 0)])],
        &[(0, 0), (65_536, 0), (65_536, 32_768), (0, 32_768), (0, 0)],
    ),
    (
        "a doubled area of 2^31",
        &[ahead(&[(0, 0), (65_536, 0), (65_536, 16_384), (0, 16_384)])],
        &[(0, 0), (65_536, 0), (65_536, 16_384), (0, 16_384), (0, 0)],
    ),
];

/// Where a number gets one digit more. Counterclockwise, and so is its image through 0, 0.
pub const DIGITS: [Point; 15] = [
    (9, -9),
    (10, -10),
    (99, -99),
    (100, -100),
    (999, -999),
    (1000, -1000),
    (9999, -9999),
    (10_000, -10_000),
    (99_999, -99_999),
    (100_000, -100_000),
    (999_999, -999_999),
    (1_000_000, -1_000_000),
    (9_999_999, -8_999_999),
    (10_000_000, -9_000_000),
    (0, 1),
];

/// Rings of fewer than three segments whose ends differ: 47, rule 2. All that have under four positions are among them.
pub const WITHOUT_ROOM: [(&str, Ring); 5] = [
    ("one position", &[ahead(&[(0, 0)])]),
    ("two positions", &[ahead(&[(0, 0), (0, 0)])]),
    ("three positions", &[ahead(&[(0, 0), (4, 0)])]),
    ("three positions, stored closed", &[ahead(&[(0, 0), (4, 0), (0, 0)])]),
    ("four positions, two of them equal neighbours", &[ahead(&[(0, 0), (0, 0), (4, 1)])]),
];

/// Rings of three such segments or more, of area zero: 48.
pub const REFUSED: [(&str, Ring); 8] = [
    ("a line", &[ahead(&[(0, 0), (1, 1), (2, 2)])]),
    ("a line there and back", &[ahead(&[(0, 1), (1, 3), (2, 5), (1, 3)])]),
    ("a line through the world", &[ahead(&[(-EAST, -NORTH), (0, 0), (EAST, NORTH)])]),
    ("two points there and back twice", &[ahead(&[(0, 0), (4, 1), (0, 0), (4, 1)])]),
    ("a group of two points twice", &[ahead(&[(0, 0), (4, 1)]); 2]),
    ("a figure of eight", &[ahead(&[(0, 0), (2, 2), (2, 0), (0, 2)])]),
    (
        "a figure of eight through the world",
        &[ahead(&[(-EAST, -NORTH), (EAST, NORTH), (EAST, -NORTH), (-EAST, NORTH)])],
    ),
    (
        "a group, and the same turned round",
        &[ahead(&[(0, 0), (4, 0), (4, 4)]), turned(&[(0, 0), (4, 0), (4, 4)])],
    ),
];

pub const SQUARE: Ring = &[ahead(&[(0, 0), (9, 0), (9, 9), (0, 9)])];
pub const SQUARE_WRITTEN: &[Point] = &[(0, 0), (9, 0), (9, 9), (0, 9), (0, 0)];
/// Counterclockwise, so that a hole is turned; and clockwise.
const LEFT: Ring = &[ahead(&[(1, 1), (2, 1), (1, 2)])];
const RIGHT: Ring = &[ahead(&[(3, 3), (3, 4), (4, 3)])];
/// Three segments, without area; and two.
pub const LINE: Ring = &[ahead(&[(5, 5), (6, 6), (7, 7)])];
pub const STROKE: Ring = &[ahead(&[(5, 5), (6, 6)])];

/// Zones of several rings, with their polygons as they are written.
pub type Several<'a> = (&'a str, &'a [Polygon<'a>], &'a [&'a [&'a [Point]]]);

pub const SEVERAL: [Several; 8] = [
    (
        "holes, stored either way",
        &[&[SQUARE, LEFT, RIGHT]],
        &[&[SQUARE_WRITTEN, &[(1, 1), (1, 2), (2, 1), (1, 1)], &[(3, 3), (3, 4), (4, 3), (3, 3)]]],
    ),
    (
        "a hole of two groups, one turned round",
        &[&[SQUARE, &[ahead(&[(1, 1), (2, 1)]), turned(&[(1, 2), (2, 2), (2, 1)])]]],
        &[&[SQUARE_WRITTEN, &[(1, 1), (1, 2), (2, 2), (2, 1), (1, 1)]]],
    ),
    (
        "two polygons, the second clockwise",
        &[&[LEFT], &[RIGHT]],
        &[&[&[(1, 1), (2, 1), (1, 2), (1, 1)]], &[&[(3, 3), (4, 3), (3, 4), (3, 3)]]],
    ),
    (
        "two polygons with a hole each",
        &[&[SQUARE, RIGHT], &[SQUARE, LEFT]],
        &[
            &[SQUARE_WRITTEN, &[(3, 3), (3, 4), (4, 3), (3, 3)]],
            &[SQUARE_WRITTEN, &[(1, 1), (1, 2), (2, 1), (1, 1)]],
        ],
    ),
    (
        "a hole that is the outer ring",
        &[&[SQUARE, SQUARE]],
        &[&[SQUARE_WRITTEN, &[(0, 0), (0, 9), (9, 9), (9, 0), (0, 0)]]],
    ),
    ("a hole that is a line", &[&[SQUARE, LINE]], &[]),
    ("a line in the second of two holes", &[&[SQUARE, LEFT, LINE]], &[]),
    ("a line in the second of two polygons", &[&[SQUARE, LEFT], &[LINE]], &[]),
];
