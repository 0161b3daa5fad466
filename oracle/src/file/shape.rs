//! Zones of polygons of rings of groups of chunks of points, and the records that say so. Each box is the least that covers what it must.

use super::*;

type Point = (i32, i32);

/// A group's points, chunk by chunk.
#[derive(Clone)]
pub struct Chunks(pub Vec<Vec<Point>>);

/// A ring's step: a group, turned round or not.
#[derive(Clone, Copy)]
pub struct Op {
    pub group: usize,
    pub turned: bool,
}

type Ring = Vec<Op>;
type Polygon = Vec<Ring>;

#[derive(Clone, Default)]
pub struct Shape {
    pub zones: Vec<Vec<Polygon>>,
    groups: Vec<Chunks>,
    /// Unread bytes before the first chunk.
    lead: usize,
    /// By how much each box is greater than the least that covers what it must, at each level once more.
    slack: i32,
}

#[derive(Clone, Copy)]
struct Bounds([i32; 4]);

impl Bounds {
    const NONE: Self = Self([i32::MAX, i32::MAX, i32::MIN, i32::MIN]);

    fn with(self, (x, y): Point) -> Self {
        self.and(Self([x, y, x, y]))
    }

    fn and(self, other: Self) -> Self {
        let ([a, b, c, d], [e, f, g, h]) = (self.0, other.0);
        Self([a.min(e), b.min(f), c.max(g), d.max(h)])
    }

    fn of(points: &[Point]) -> Self {
        points.iter().fold(Self::NONE, |b, &p| b.with(p))
    }

    /// Greater on each side, as far as a file may say.
    fn wider(self, by: i32) -> Self {
        let [a, b, c, d] = self.0;
        let [west, south] = [-18_000_000, -9_000_000];
        Self([(a - by).max(west), (b - by).max(south), (c + by).min(-west), (d + by).min(-south)])
    }
}

/// The fields of a record, one after another.
#[derive(Default)]
struct Records(Vec<u8>);

impl Records {
    fn word(&mut self, n: usize) {
        self.0.extend_from_slice(&(n as u32).to_le_bytes());
    }

    /// A count of two bytes and the two unread ones after it.
    fn count(&mut self, n: usize) {
        self.0.extend_from_slice(&(n as u16).to_le_bytes());
        self.0.extend_from_slice(&[0, 0]);
    }

    fn point(&mut self, (x, y): Point) {
        [x, y].iter().for_each(|n| self.0.extend_from_slice(&n.to_le_bytes()));
    }

    fn bounds(&mut self, b: Bounds) {
        b.0.iter().for_each(|n| self.0.extend_from_slice(&n.to_le_bytes()));
    }
}

impl Chunks {
    fn points(&self) -> Vec<Point> {
        self.0.concat()
    }

    /// A chunk's box covers its points and the next chunk's first.
    fn bounds(&self, i: usize) -> Bounds {
        let own = Bounds::of(&self.0[i]);
        self.0.get(i + 1).map_or(own, |next| own.with(next[0]))
    }
}

/// Zigzag LEB128: the first point whole, then deltas.
fn encode(points: &[Point]) -> Vec<u8> {
    let mut out = Vec::new();
    let mut before = (0, 0);
    for &(x, y) in points {
        for delta in [x - before.0, y - before.1] {
            let mut n = (delta << 1 ^ delta >> 31) as u32;
            while n >= 128 {
                out.push(n as u8 | 128);
                n >>= 7;
            }
            out.push(n as u8);
        }
        before = (x, y);
    }
    out
}

impl Shape {
    /// Without zones.
    pub fn with_slack(slack: i32) -> Self {
        Self { slack, ..Self::default() }
    }

    pub fn add_group(&mut self, chunks: Chunks) -> usize {
        self.groups.push(chunks);
        self.groups.len() - 1
    }

    fn ring_bounds(&self, ring: &Ring) -> Bounds {
        let of = |op: &Op| Bounds::of(&self.groups[op.group].points());
        ring.iter().map(of).fold(Bounds::NONE, Bounds::and).wider(3 * self.slack)
    }

    fn polygon_bounds(&self, polygon: &Polygon) -> Bounds {
        let all = polygon.iter().map(|r| self.ring_bounds(r));
        all.fold(Bounds::NONE, Bounds::and).wider(self.slack)
    }

    /// How many of a ring's segments have two different ends: its points one after another, round to the first.
    fn segments(&self, ring: &Ring) -> usize {
        let leg = |op: &Op| {
            let points = self.groups[op.group].points();
            if op.turned { points.into_iter().rev().collect() } else { points }
        };
        let points: Vec<Point> = ring.iter().flat_map(leg).collect();
        let next = points.iter().cycle().skip(1);
        points.iter().zip(next).filter(|(a, b)| a != b).count()
    }

    /// A ring of this maker. Where it has to have room it is made anew until three of its segments count.
    pub fn made(&mut self, room: bool, mut make: impl FnMut(&mut Self) -> Ring) -> Ring {
        let groups = self.groups.len();
        loop {
            let ring = make(self);
            if !room || self.segments(&ring) >= 3 {
                return ring;
            }
            self.groups.truncate(groups);
        }
    }

    /// Of the ring that has the fewest. With fewer than three the full check refuses the file.
    pub fn fewest_segments(&self) -> usize {
        let rings = self.zones.iter().flatten().flatten();
        rings.map(|ring| self.segments(ring)).min().unwrap()
    }

    /// The cell of a point of the first group, in degrees.
    pub fn cell(&self) -> (i32, i32) {
        let (x, y) = self.groups[0].0[0][0];
        (x.div_euclid(100_000), y.div_euclid(100_000))
    }

    pub fn parts(&self) -> Vec<Part> {
        let [tzdir, polydir, ringdir, ringops] = self.upper();
        let [groupdir, chunkdir, points] = self.lower();
        let part = |(typ, bytes)| Part { typ, bytes, gap: 0 };
        [
            (TZDIR, tzdir),
            (POLYDIR, polydir),
            (RINGDIR, ringdir),
            (RINGOPS, ringops),
            (GROUPDIR, groupdir),
            (CHUNKDIR, chunkdir),
            (POINTS, points),
        ]
        .map(part)
        .to_vec()
    }

    fn upper(&self) -> [Vec<u8>; 4] {
        let [mut zones, mut polygons, mut rings, mut ops] = [(); 4].map(|()| Records::default());
        let [mut polygon_count, mut ring_count, mut op_count] = [0; 3];
        for zone in &self.zones {
            zones.word(polygon_count);
            zones.count(zone.len());
            let all = zone.iter().map(|p| self.polygon_bounds(p));
            zones.bounds(all.fold(Bounds::NONE, Bounds::and));
            polygon_count += zone.len();
            for polygon in zone {
                polygons.word(ring_count);
                polygons.count(polygon.len());
                polygons.bounds(self.polygon_bounds(polygon));
                ring_count += polygon.len();
                for ring in polygon {
                    let stored = ring.iter().map(|op| self.groups[op.group].points().len());
                    rings.word(op_count);
                    rings.word(stored.sum::<usize>() - ring.len());
                    rings.count(ring.len());
                    rings.bounds(self.ring_bounds(ring));
                    op_count += ring.len();
                    for op in ring {
                        ops.word(op.group | usize::from(op.turned) << 31);
                    }
                }
            }
        }
        [zones.0, polygons.0, rings.0, ops.0]
    }

    fn lower(&self) -> [Vec<u8>; 3] {
        let [mut groups, mut chunks] = [(); 2].map(|()| Records::default());
        let mut points = vec![0xff; self.lead];
        let mut chunk_count = 0;
        for group in &self.groups {
            let all = group.points();
            groups.word(chunk_count);
            groups.word(all.len());
            groups.count(group.0.len());
            groups.point(all[0]);
            groups.point(all[all.len() - 1]);
            groups.bounds(Bounds::of(&all).wider(2 * self.slack));
            chunk_count += group.0.len();
            for (i, chunk) in group.0.iter().enumerate() {
                chunks.word(points.len());
                chunks.count(chunk.len());
                chunks.bounds(group.bounds(i).wider(self.slack));
                points.extend(encode(chunk));
            }
        }
        [groups.0, chunks.0, points]
    }
}

/// Sixteen directions in turn, roughly round.
const ROUND: [Point; 16] = [
    (8, 0),
    (7, 3),
    (6, 6),
    (3, 7),
    (0, 8),
    (-3, 7),
    (-6, 6),
    (-7, 3),
    (-8, 0),
    (-7, -3),
    (-6, -6),
    (-3, -7),
    (0, -8),
    (3, -7),
    (6, -6),
    (7, -3),
];

/// The corners of a ring round a centre, three or more, inside what a file may store.
fn corners(random: &mut Random) -> Vec<Point> {
    let (scale, reach) = random.pick(&[(1, 4), (1000, 40), (12_500, 100), (100_000, 100)]);
    let centre = match random.below(8) {
        0 => (18_000_000, 9_000_000),
        1 => (-18_000_000, -9_000_000),
        _ => (random.from_to(-200_000, 200_000), random.from_to(-200_000, 200_000)),
    };
    let skip = random.pick(&[1, 2, 3, 4, 5, 6]);
    let corner = |(x, y): Point, random: &mut Random| {
        let far = scale * random.from_to(1, reach).min(20);
        let x = (centre.0 + x * far).clamp(-18_000_000, 18_000_000);
        (x, (centre.1 + y * far).clamp(-9_000_000, 9_000_000))
    };
    ROUND.iter().step_by(skip).map(|&d| corner(d, random)).collect()
}

/// Cuts a list into `count` runs, none empty.
fn cut<T: Clone>(random: &mut Random, all: &[T], count: usize) -> Vec<Vec<T>> {
    let mut rest = all;
    let mut out = Vec::new();
    for left in (1..count).rev() {
        let take = 1 + random.below(rest.len() - left);
        out.push(rest[..take].to_vec());
        rest = &rest[take..];
    }
    out.push(rest.to_vec());
    out
}

impl Shape {
    pub fn some(random: &mut Random) -> Self {
        let mut shape = Self { lead: random.pick(&[0, 0, 0, 3]), ..Self::default() };
        for _ in 0..1 + random.below(4) {
            let polygons = random.pick(&[1, 1, 1, 2]);
            let zone = (0..polygons).map(|_| shape.polygon(random)).collect();
            shape.zones.push(zone);
        }
        shape
    }

    fn polygon(&mut self, random: &mut Random) -> Polygon {
        let rings = random.pick(&[1, 1, 1, 2]);
        (0..rings).map(|_| self.ring(random)).collect()
    }

    /// A new ring, or an earlier one the other way round: then the two share their groups.
    fn ring(&mut self, random: &mut Random) -> Ring {
        if let Some(earlier) = self.zones.last().map(|zone| zone[0][0].clone())
            && random.below(4) == 0
        {
            return earlier.iter().rev().map(|op| Op { turned: !op.turned, ..*op }).collect();
        }
        let points = corners(random);
        let groups = 1 + random.below(3);
        let runs = cut(random, &points, groups);
        let mut ring = Vec::new();
        for i in 0..groups {
            let mut run = runs[i].clone();
            run.push(runs[(i + 1) % groups][0]);
            let turned = random.below(3) == 0;
            if turned {
                run.reverse();
            }
            let chunks = 1 + random.below(run.len().min(4));
            let group = self.add_group(Chunks(cut(random, &run, chunks)));
            ring.push(Op { group, turned });
        }
        ring
    }
}

/// How a lattice lies: its origin, how many points it has on a side, less one, and the distance of two.
#[derive(Clone, Copy)]
struct Lattice {
    origin: Point,
    side: i32,
    step: i32,
}

impl Lattice {
    fn some(random: &mut Random) -> Self {
        let step = random.pick(&[1, 1, 1, 2, 50_000, 100_000]);
        let side = random.from_to(1, 8);
        let far = side * step;
        let origin = match random.below(8) {
            0 => (18_000_000 - far, 9_000_000 - far),
            1 => (-18_000_000, -9_000_000),
            _ => (-step * random.from_to(0, side), -step * random.from_to(0, side)),
        };
        Self { origin, side, step }
    }

    fn at(self, column: i32, row: i32) -> Point {
        (self.origin.0 + self.step * column, self.origin.1 + self.step * row)
    }

    fn point(self, random: &mut Random) -> Point {
        self.at(random.from_to(0, self.side), random.from_to(0, self.side))
    }

    /// Corners: a rectangle, any points, a few points on one line, a walk of steps to all sides.
    fn corners(self, random: &mut Random) -> Vec<Point> {
        let (a, c) = (self.point(random), self.point(random));
        match random.below(8) {
            0..3 => vec![a, (c.0, a.1), c, (a.0, c.1)],
            3 => vec![a, c],
            4 => (0..20).map(|_| self.point(random)).collect(),
            5 => self.walk(random),
            _ => (0..3 + random.below(4)).map(|_| self.point(random)).collect(),
        }
    }

    /// Two to four points, each once, twice or three times in turn: few segments count.
    fn few(self, random: &mut Random) -> Vec<Point> {
        let mut out = Vec::new();
        for _ in 0..2 + random.below(3) {
            let point = self.point(random);
            out.extend(vec![point; 1 + random.below(3)]);
        }
        out
    }

    fn walk(self, random: &mut Random) -> Vec<Point> {
        let (mut column, mut row) = (0, 0);
        let mut out = Vec::new();
        for _ in 0..8 + random.below(25) {
            out.push(self.at(column, row));
            column = (column + random.from_to(-1, 1)).clamp(0, self.side);
            row = (row + random.from_to(-1, 1)).clamp(0, self.side);
        }
        out
    }
}

impl Shape {
    /// Zones on one small lattice: level and upright edges, edges that touch and lie on each other, joints between groups, groups shared and turned round, many chunks.
    /// A ring may also be a line or a point.
    pub fn on_lattice(random: &mut Random) -> Self {
        Self::of_lattice(random, false)
    }

    /// The same, but each ring has room. There are more of three segments and four.
    pub fn with_room(random: &mut Random) -> Self {
        Self::of_lattice(random, true)
    }

    fn of_lattice(random: &mut Random, room: bool) -> Self {
        let lattice = Lattice::some(random);
        let slack = random.pick(&[0, 0, 0, 1, 7]);
        let mut shape = Self { lead: random.pick(&[0, 0, 0, 2]), slack, ..Self::default() };
        for _ in 0..1 + random.below(3) {
            let mut zone = Vec::new();
            for _ in 0..random.pick(&[1, 1, 2]) {
                let rings = random.pick(&[1, 1, 2, 3]);
                let mut make = |shape: &mut Self| {
                    let few = room && random.below(6) == 0;
                    let corners = if few { lattice.few(random) } else { lattice.corners(random) };
                    shape.lattice_ring(random, corners)
                };
                let mut ring = |_| shape.made(room, &mut make);
                zone.push((0..rings).map(&mut ring).collect());
            }
            shape.zones.push(zone);
        }
        shape
    }

    /// A ring of these corners. Its groups meet, or a joint lies between them; now and then one is a group that stands elsewhere too.
    fn lattice_ring(&mut self, random: &mut Random, mut points: Vec<Point>) -> Ring {
        let (joined, open) = (random.below(3) > 0, random.below(6) == 0);
        if !open {
            points.push(points[0]);
        }
        let most = points.len() / 2;
        let groups = 1 + random.below(most.min(3));
        let mut ring: Ring = Vec::new();
        let mut rest = &points[..];
        for left in (0..groups).rev() {
            let take =
                if left == 0 { rest.len() } else { 2 + random.below(rest.len() - 1 - 2 * left) };
            let (run, after) = rest.split_at(take.min(rest.len()));
            rest = after;
            let mut run = run.to_vec();
            if joined && let Some(&next) = rest.first() {
                run.push(next);
            }
            let turned = random.below(3) == 0;
            if turned {
                run.reverse();
            }
            let chunks =
                if random.below(3) == 0 { run.len() } else { 1 + random.below(run.len().min(4)) };
            let group = self.add_group(Chunks(cut(random, &run, chunks)));
            ring.push(Op { group, turned });
        }
        if random.below(4) == 0 {
            let group = random.below(self.groups.len());
            let place = random.below(ring.len() + 1);
            ring.insert(place, Op { group, turned: random.below(2) == 0 });
        }
        ring
    }
}
