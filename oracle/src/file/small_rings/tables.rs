//! Rings, with how many of their segments have two different ends.

pub type Point = (i32, i32);

/// A group's points, chunk by chunk.
pub type Group<'a> = &'a [&'a [Point]];

/// A group, turned round or not.
#[derive(Clone, Copy)]
pub struct Leg<'a> {
    pub group: Group<'a>,
    pub turned: bool,
}

pub type Ring<'a> = &'a [Leg<'a>];

const fn ahead<'a>(group: Group<'a>) -> Leg<'a> {
    Leg { group, turned: false }
}

const fn turned<'a>(group: Group<'a>) -> Leg<'a> {
    Leg { group, turned: true }
}

const A: Point = (0, 0);
const B: Point = (4, 0);
const C: Point = (0, 4);
const D: Point = (4, 4);
/// The domain's corners.
const W: Point = (-18_000_000, -9_000_000);
const E: Point = (18_000_000, 9_000_000);

pub const RINGS: [(&str, Ring, usize); 54] = [
    // One point.
    ("a point", &[ahead(&[&[A]])], 0),
    ("a point, twice", &[ahead(&[&[B, B]])], 0),
    ("a point, in two chunks", &[ahead(&[&[D], &[D]])], 0),
    ("a point, in three chunks, turned round", &[turned(&[&[D, D], &[D], &[D]])], 0),
    ("a point, in two groups", &[ahead(&[&[C]]), turned(&[&[C, C]])], 0),
    ("a point, the same group four times", &[ahead(&[&[B]]); 4], 0),
    ("a point, in groups of two", &[ahead(&[&[C, C]]), ahead(&[&[C], &[C]])], 0),
    // Two points: there, and back.
    ("a line", &[ahead(&[&[A, D]])], 2),
    ("a level line", &[ahead(&[&[A, B]])], 2),
    ("an upright line", &[ahead(&[&[A, C]])], 2),
    ("a line, turned round", &[turned(&[&[A, D]])], 2),
    ("a line, its first point repeated at the end", &[ahead(&[&[A, B, A]])], 2),
    ("a line through the domain", &[ahead(&[&[W, E, W]])], 2),
    ("a line, both points twice", &[ahead(&[&[A, A, B, B]])], 2),
    ("a line, both points three times, closed", &[ahead(&[&[A, A, A, B, B, B, A]])], 2),
    ("a line in two chunks", &[ahead(&[&[A], &[B]])], 2),
    ("a line, equal neighbours across two joints", &[ahead(&[&[A], &[A, B], &[B]])], 2),
    ("a line in two groups of a point", &[ahead(&[&[A]]), ahead(&[&[B]])], 2),
    ("a line in two groups that meet", &[ahead(&[&[A, B]]), ahead(&[&[B, A]])], 2),
    ("a line, its end a group of its own", &[ahead(&[&[A, B]]), ahead(&[&[B]])], 2),
    ("a line, its start a group of its own", &[ahead(&[&[A]]), turned(&[&[B, A]])], 2),
    ("a line, and the same group turned round", &[ahead(&[&[A, B]]), turned(&[&[A, B]])], 2),
    ("a line, and the same in chunks, turned", &[turned(&[&[A, B]]), ahead(&[&[A], &[B]])], 2),
    (
        "a line, its end between it and the same group turned round",
        &[ahead(&[&[A, B]]), ahead(&[&[B]]), turned(&[&[A, B]])],
        2,
    ),
    // Three.
    ("a triangle, open", &[ahead(&[&[A, B, C]])], 3),
    ("a triangle, its first point repeated at the end", &[ahead(&[&[A, B, C, A]])], 3),
    ("a triangle, turned round", &[turned(&[&[A, B, C]])], 3),
    ("a triangle, each point twice", &[ahead(&[&[A, A, B, B, C, C]])], 3),
    ("a triangle in three chunks", &[ahead(&[&[A], &[B], &[C]])], 3),
    ("a triangle, equal neighbours across joints", &[ahead(&[&[A, B], &[B, C], &[C]])], 3),
    ("three points on a line", &[ahead(&[&[A, (1, 1), D]])], 3),
    ("three points on a level line", &[ahead(&[&[(1, 0), A, B]])], 3),
    ("three neighbours", &[ahead(&[&[A, (1, 0), (1, 1)]])], 3),
    ("three of the domain's corners", &[ahead(&[&[W, (W.0, E.1), E]])], 3),
    ("three groups of one point", &[ahead(&[&[A]]), turned(&[&[B]]), ahead(&[&[C]])], 3),
    (
        "three groups of one point, one above the other",
        &[ahead(&[&[A]]), ahead(&[&[(0, 2)]]), ahead(&[&[C]])],
        3,
    ),
    (
        "three points a step apart at the domain's end",
        &[ahead(&[&[(18_000_000, 0), (17_999_999, 0), (18_000_000, 1)]])],
        3,
    ),
    ("three points, two of them 16,777,216 apart", &[ahead(&[&[A, (16_777_216, 0), C]])], 3),
    ("three points 65,536 apart", &[ahead(&[&[A, (65_536, 0), (0, 65_536)]])], 3),
    (
        "three groups of one point, 65,536 apart",
        &[ahead(&[&[A]]), ahead(&[&[(65_536, 0)]]), ahead(&[&[(0, 65_536)]])],
        3,
    ),
    ("a line and a point", &[ahead(&[&[A, B]]), ahead(&[&[C]])], 3),
    ("a line that is turned, and a point", &[turned(&[&[A, B]]), ahead(&[&[C]])], 3),
    ("two lines that meet, and a joint", &[ahead(&[&[A, B]]), turned(&[&[C, B]])], 3),
    (
        "three lines that meet, no joint",
        &[ahead(&[&[A, B]]), turned(&[&[C, B]]), ahead(&[&[C, A]])],
        3,
    ),
    (
        "three groups of one point twice",
        &[ahead(&[&[A, A]]), ahead(&[&[B], &[B]]), ahead(&[&[C, C]])],
        3,
    ),
    ("a line that meets its end again, and a point", &[ahead(&[&[A, B], &[B]]), ahead(&[&[C]])], 3),
    // Four.
    ("a square, open", &[ahead(&[&[A, B, D, C]])], 4),
    ("a square, its first point repeated at the end", &[ahead(&[&[A, B], &[D, C, A]])], 4),
    ("a square in two lines, with two joints", &[ahead(&[&[A, B]]), ahead(&[&[D, C]])], 4),
    ("there and back twice", &[ahead(&[&[A, B, A, B]])], 4),
    ("there and back twice, closed", &[ahead(&[&[A, B, A, B, A]])], 4),
    ("there and back twice, the same group twice", &[ahead(&[&[A, B]]); 2], 4),
    (
        "there and back twice, the same group four times, turned in between",
        &[ahead(&[&[A, B]]), turned(&[&[A, B]]), ahead(&[&[A, B]]), turned(&[&[A, B]])],
        4,
    ),
    (
        "there and back twice, two groups of a point twice",
        &[ahead(&[&[A]]), ahead(&[&[B]]), ahead(&[&[A]]), ahead(&[&[B]])],
        4,
    ),
];
