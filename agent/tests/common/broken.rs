//! A coast in chunks, whose bytes can be broken at each of their numbers, by each refusal from 38 to 43.

use super::{Point, in_chunks_of, number, numbers_of};

/// A coast of eight chunks with nine points each, one above the other, and a ninth chunk that goes back around the land. The
/// steps of the eight take one or two bytes.
pub struct Shore {
    corner: Point,
    stretches: Vec<Vec<Point>>,
}

const WIDTH: i32 = 100_000;
const HEIGHT: i32 = 1000;
/// How many chunks lie by the sea. The one around the land has this number.
pub const BY_THE_SEA: usize = 8;

impl Shore {
    /// With its lower left corner at this point. No coordinate may be 0.
    pub fn new(corner: Point) -> Self {
        let point = |x, y| (corner.0 + x, corner.1 + y);
        let by_the_sea = |chunk: usize| {
            let bottom = HEIGHT * chunk as i32;
            (0..9).map(|n| point(WIDTH + 5 * n, bottom + 100 * n)).collect()
        };
        let top = HEIGHT * BY_THE_SEA as i32;
        let corners = [(WIDTH, top), (0, top), (0, 0), (WIDTH, 0)];
        let around = corners.map(|(x, y)| point(x, y)).to_vec();
        Self { corner, stretches: (0..BY_THE_SEA).map(by_the_sea).chain([around]).collect() }
    }

    /// The file, with these bytes in the place of some chunks' own.
    pub fn file(&self, broken: &[(usize, &[u8])]) -> Vec<u8> {
        let mut bytes: Vec<Vec<u8>> =
            self.stretches.iter().map(|stretch| numbers_of(stretch).concat()).collect();
        for (chunk, new) in broken {
            bytes[*chunk] = new.to_vec();
        }
        in_chunks_of("A", &self.stretches, &bytes)
    }

    /// All damage that a chunk can have.
    pub fn damages(&self, chunk: usize) -> Vec<Damage> {
        damages(&self.stretches[chunk])
    }

    /// A point of the land from which a question reads all of a chunk.
    pub fn beside(&self, chunk: usize) -> Point {
        if chunk == BY_THE_SEA {
            return self.inland(0);
        }
        (self.corner.0 + WIDTH + 1, self.inland(chunk).1)
    }

    /// A point far from the sea, at a chunk's height: a question reads no more of that than its first point and the next
    /// chunk's, and all of the one around the land.
    pub fn inland(&self, chunk: usize) -> Point {
        (self.corner.0 + WIDTH / 2, self.corner.1 + HEIGHT * chunk as i32 + 250)
    }
}

/// Bytes for a chunk, the refusal that they get, and its place, counted from the chunk's first byte.
pub struct Damage {
    pub bytes: Vec<u8>,
    pub refusal: u32,
    pub place: usize,
    /// The number of the chunk at which it is done.
    pub at: usize,
}

/// A chunk of these points, broken at each number in turn, and with bytes left over. No coordinate may be 0.
fn damages(points: &[Point]) -> Vec<Damage> {
    let numbers = numbers_of(points);
    let count = numbers.len();
    let mut all: Vec<Damage> = (0..count).flat_map(|at| misread(&numbers, at)).collect();
    all.extend((2..count).flat_map(|at| out_of_32_bits(points, &numbers, at)));
    all.extend((0..count).flat_map(|at| outside(points, &numbers, at)));
    let whole = numbers.concat();
    let (place, at) = (whole.len(), count);
    for more in [&[0][..], &[0x80], &[0xff; 9]] {
        all.push(Damage { bytes: [&whole, more].concat(), refusal: 43, place, at });
    }
    all
}

/// The number is cut off, written too long, or too large.
fn misread(numbers: &[Vec<u8>], at: usize) -> Vec<Damage> {
    let place = start(numbers, at);
    let damage = |refusal, bytes| Damage { bytes, refusal, place, at };
    let mut all = Vec::new();
    for rest in [&[][..], &[0x80], &[0xff; 4]] {
        all.push(damage(38, with(numbers, at, &[rest], numbers.len())));
    }
    for long in [&[0x80, 0][..], &[0xff, 0x80, 0], &[0x80, 0x80, 0x80, 0x80, 0]] {
        all.push(damage(39, with(numbers, at, &[long], at + 1)));
    }
    for large in [[0xff, 0xff, 0xff, 0xff, 0x10], [0x80; 5]] {
        all.push(damage(40, with(numbers, at, &[&large], at + 1)));
    }
    // A chunk without a byte is none.
    all.retain(|damage| !damage.bytes.is_empty());
    all
}

/// The number takes a coordinate out of 32 bits. The number behind it is read before that is seen.
fn out_of_32_bits(points: &[Point], numbers: &[Vec<u8>], at: usize) -> Vec<Damage> {
    let far = |at: usize| number(if before(points, at) > 0 { i32::MAX } else { i32::MIN });
    let place = start(numbers, at);
    let damage = |refusal, place, bytes| Damage { bytes, refusal, place, at };
    let mut all = vec![damage(41, place, with(numbers, at, &[&far(at)], at + 1))];
    if at.is_multiple_of(2) {
        let behind = place + far(at).len();
        let both = with(numbers, at, &[&far(at), &far(at + 1)], at + 2);
        let cut = with(numbers, at, &[&far(at)], numbers.len());
        let long = with(numbers, at, &[&far(at), &[0x80, 0]], at + 2);
        all.extend([damage(41, place, both), damage(38, behind, cut), damage(39, behind, long)]);
    }
    all
}

/// The number takes the point out of the domain, by a step to either side. The place is that of y, also for x.
fn outside(points: &[Point], numbers: &[Vec<u8>], at: usize) -> Vec<Damage> {
    let is_x = at.is_multiple_of(2);
    let edge = if is_x { 18_000_001 } else { 9_000_001 };
    let start = start(numbers, at);
    let past = |edge: i32| {
        let new = number(edge - before(points, at));
        let place = if is_x { start + new.len() } else { start };
        Damage { bytes: with(numbers, at, &[&new], at + 1), refusal: 42, place, at }
    };
    vec![past(edge), past(-edge)]
}

/// Where a number starts.
fn start(numbers: &[Vec<u8>], at: usize) -> usize {
    numbers[..at].concat().len()
}

/// The numbers before a place, new ones, and those from another place on.
fn with(numbers: &[Vec<u8>], at: usize, new: &[&[u8]], from: usize) -> Vec<u8> {
    [numbers[..at].concat(), new.concat(), numbers[from..].concat()].concat()
}

/// What a number is added to: the coordinate before it.
fn before(points: &[Point], at: usize) -> i32 {
    let point = (at / 2).checked_sub(1).map_or((0, 0), |before| points[before]);
    if at.is_multiple_of(2) { point.0 } else { point.1 }
}
