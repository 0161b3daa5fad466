//! What is asked of a file: on and beside its points and edges, on a lattice around it, and at the floats that tell.

use crate::random::Random;
use crate::rules::{Candidates, Judge, Opened};
use crate::voice::Question;

type Place = (i32, i32);

/// So many of a list, spread over it.
pub fn spread<T: Copy>(all: &[T], most: usize) -> Vec<T> {
    if all.len() <= most {
        return all.to_vec();
    }
    (0..most).map(|i| all[i * all.len() / most]).collect()
}

/// At most so many questions of each kind.
pub fn of(o: &Opened, most: usize) -> Vec<Question> {
    let lines = lines(o);
    let whole = whole_places(o);
    let chosen = spread(&whole, most);
    let mut out = Vec::new();
    for chunk in 0..o.chunks().min(most as u64) as u32 {
        out.extend([u64::MAX, 2, 3].map(|room| Question::Decode(chunk, room)));
    }
    out.push(Question::Decode(o.chunks() as u32, u64::MAX));
    let floats = spread(&floats(&lines), most);
    for zone in 0..o.zones as u32 {
        out.extend(chosen.iter().map(|&(x, y)| Question::Contains(zone, x, y)));
        out.extend(floats.iter().map(|&(x, y)| Question::ContainsAt(zone, x, y)));
    }
    out.extend([(18_000_001, 0), (0, -9_000_001)].map(|(x, y)| Question::Contains(0, x, y)));
    out.push(Question::Contains(o.zones as u32, i32::MIN, 0));
    let positions = spread(&positions(&whole), most).into_iter();
    for (lng, lat) in positions.chain(spread(&telling(o), most / 4)) {
        out.push(Question::Lookup(lng, lat));
        let places = [u64::MAX, 0, 1];
        out.extend(places.map(|places| Question::LookupInto(lng, lat, places)));
    }
    out
}

/// The whole-number points that are asked of a small file, each once.
pub fn whole_places(o: &Opened) -> Vec<Place> {
    let mut whole = places(o, &lines(o));
    whole.sort_unstable();
    whole.dedup();
    whole
}

/// The points of each chunk, as far as they can be read, and the first of the next.
fn lines(o: &Opened) -> Vec<Vec<Place>> {
    let whole = |(x, y): (i64, i64)| (x as i32, y as i32);
    let mut out: Vec<Vec<Place>> =
        (0..o.chunks()).map(|i| o.readable(i).into_iter().map(whole).collect()).collect();
    for i in 1..out.len() {
        let first: Vec<Place> = out[i].first().copied().into_iter().collect();
        out[i - 1].extend(first);
    }
    out
}

fn middle(a: Place, b: Place) -> Place {
    (a.0 + (b.0 - a.0) / 2, a.1 + (b.1 - a.1) / 2)
}

/// Each point and its eight neighbours, the middle of each edge and its neighbours, the corners of the boxes; a whole lattice where that is small.
fn places(o: &Opened, lines: &[Vec<Place>]) -> Vec<Place> {
    let mut marks: Vec<Place> = lines.concat();
    for line in lines {
        marks.extend(line.windows(2).map(|ends| middle(ends[0], ends[1])));
    }
    let boxes = (0..o.zones).map(|i| o.zone_at(i).map(|zone| zone.bounds));
    let boxes = boxes.chain((0..o.groups()).map(|i| o.group_at(i).map(|group| group.bounds)));
    let boxes = boxes.chain((0..o.chunks()).map(|i| o.chunk_at(i).map(|chunk| chunk.bounds)));
    for b in boxes.flatten() {
        let [minx, miny, maxx, maxy] = [b.minx, b.miny, b.maxx, b.maxy].map(|n| n as i32);
        marks.extend([(minx, miny), (maxx, maxy), (minx, maxy), (maxx, miny)]);
    }
    let Some(&(x, y)) = marks.first() else { return marks };
    let span = marks
        .iter()
        .fold([x, y, x, y], |[a, b, c, d], &(x, y)| [a.min(x), b.min(y), c.max(x), d.max(y)]);
    if span[2] - span[0] < 24 && span[3] - span[1] < 24 {
        let columns = span[0] - 2..=span[2] + 2;
        return columns.flat_map(|x| (span[1] - 2..=span[3] + 2).map(move |y| (x, y))).collect();
    }
    let beside =
        |(x, y): Place| (-1..=1).flat_map(move |dx| (-1..=1).map(move |dy| (x + dx, y + dy)));
    marks.into_iter().flat_map(beside).collect()
}

/// Beside each point by the least that a float can tell, and along each edge.
fn floats(lines: &[Vec<Place>]) -> Vec<(f64, f64)> {
    let mut out = Vec::new();
    for line in lines {
        for ends in line.windows(2) {
            let [(ax, ay), (bx, by)] =
                [ends[0], ends[1]].map(|(x, y)| (f64::from(x), f64::from(y)));
            out.extend([(ax.next_up(), ay), (ax.next_down(), ay)]);
            out.extend([(ax, ay.next_up()), (ax, ay.next_down()), (ax + 0.5, ay + 0.5)]);
            out.extend([(ax - 0.25, ay), (ax, ay + 0.125)]);
            for part in [0.5, 0.25, 1.0 / 3.0] {
                let (x, y) = (ax + part * (bx - ax), ay + part * (by - ay));
                out.extend([(x, y), (x.next_down(), y), (x, y.next_up())]);
            }
        }
    }
    out
}

/// The positions of whole-number points, and beside them.
fn positions(whole: &[Place]) -> Vec<(f64, f64)> {
    let degrees = |n: i32| f64::from(n) / 100_000.0;
    let near = |x: f64, i: usize| match i % 3 {
        0 => x,
        1 => x.next_up(),
        _ => x.next_down(),
    };
    let all = whole.iter().enumerate();
    all.map(|(i, &(x, y))| (near(degrees(x), i / 3), near(degrees(y), i))).collect()
}

/// The ends of the shortcut and of the world, zeros, subnormals, infinities, NaN.
fn telling(o: &Opened) -> Vec<(f64, f64)> {
    let mut ends = vec![0.0, -0.0, f64::from_bits(1), -f64::from_bits(1), -0.5];
    ends.extend([f64::NAN, f64::INFINITY, f64::NEG_INFINITY]);
    let around = |x: f64| [x, -x, x.next_up(), x.next_down(), -x.next_up(), -x.next_down()];
    let (xs, ys) = ([179.0, 180.0].map(around), [89.0, 90.0].map(around));
    let (lng, lat) = o.grid.map_or((0.5, 0.5), |g| (g.lng as f64 + 0.5, g.lat as f64 + 0.5));
    let mut out: Vec<(f64, f64)> = ends.iter().flat_map(|&x| [(x, 0.0), (0.0, x)]).collect();
    out.extend(xs.concat().into_iter().flat_map(|x| [(x, 0.0), (x, lat), (x, 90.0)]));
    out.extend(ys.concat().into_iter().flat_map(|y| [(0.0, y), (lng, y), (180.0, y)]));
    out
}

/// Of a large file: a position anywhere, at a cell's border, or on or beside a point or an edge, and containment there.
pub fn at_random(judge: &Judge, random: &mut Random) -> Vec<Question> {
    let o = &judge.opened;
    let (x, y) = match random.below(6) {
        0 => (random.from_to(-18_000_000, 18_000_000), random.from_to(-9_000_000, 9_000_000)),
        1 => (random.from_to(-180, 180) * 100_000, random.from_to(-90, 90) * 100_000),
        _ => on_border(o, random),
    };
    let (x, y) = moved((x, y), random);
    let (lng, lat) = (degrees(random, x), degrees(random, y));
    let mut out = vec![Question::Lookup(lng, lat), Question::LookupInto(lng, lat, u64::MAX)];
    let mut zones = judge.lookup_into(lng, lat, u64::MAX).unwrap_or_default();
    zones.push(random.below(o.zones as usize) as u64);
    for zone in zones {
        out.push(Question::Contains(zone as u32, x, y));
        out.push(Question::ContainsAt(zone as u32, lng * 100_000.0, lat * 100_000.0));
    }
    out
}

/// A point or one beside it.
fn moved((x, y): Place, random: &mut Random) -> Place {
    let by = random.pick(&[0, 0, 0, 1, 1, 3, 1000]);
    let x = x.saturating_add(random.from_to(-by, by));
    (x, y.saturating_add(random.from_to(-by, by)))
}

/// The degrees of a whole number, or beside them.
fn degrees(random: &mut Random, n: i32) -> f64 {
    let x = f64::from(n) / 100_000.0;
    match random.below(5) {
        0 => x.next_up(),
        1 => x.next_down(),
        2 => x + (random.part() - 0.5) * 1e-5,
        _ => x,
    }
}

/// A corner of a zone's, a group's or a chunk's box.
fn corner(o: &Opened, random: &mut Random) -> Place {
    let any = |random: &mut Random, count: u64| random.below(count as usize) as u64;
    let bounds = match random.below(3) {
        0 => o.zone_at(any(random, o.zones)).map(|zone| zone.bounds),
        1 => o.group_at(any(random, o.groups())).map(|group| group.bounds),
        _ => o.chunk_at(any(random, o.chunks())).map(|chunk| chunk.bounds),
    };
    let Ok(b) = bounds else { return (0, 0) };
    (random.pick(&[b.minx, b.maxx]) as i32, random.pick(&[b.miny, b.maxy]) as i32)
}

/// A number below a total most of the time, else the first past it, or far past it.
fn number(random: &mut Random, total: u64) -> u32 {
    match random.below(12) {
        0 => total as u32,
        1 => random.pick(&[total as u32 + 1, 65_535, 65_536, u32::MAX]),
        _ => random.below(total.max(1) as usize) as u32,
    }
}

/// Where questions tell: points of two chunks, the middles of their edges, and corners of boxes.
struct Marks(Vec<Place>);

impl Marks {
    fn of(o: &Opened, random: &mut Random) -> Self {
        let mut marks = vec![corner(o, random), corner(o, random)];
        for _ in 0..2 {
            marks.extend(border(o, random.below(o.chunks() as usize) as u64));
        }
        Self(marks)
    }

    /// One of them, or between two of them, or beside.
    fn place(&self, random: &mut Random) -> Place {
        let (a, b) = (random.pick(&self.0), random.pick(&self.0));
        match random.below(8) {
            0..3 => moved(middle(a, b), random),
            _ => moved(a, random),
        }
    }

    fn position(&self, o: &Opened, random: &mut Random) -> (f64, f64) {
        let (x, y) = self.place(random);
        let (lng, lat) = (degrees(random, x), degrees(random, y));
        match (o.grid, random.below(16)) {
            (_, 0) => (end(random, 180.0), lat),
            (_, 1) => (lng, end(random, 90.0)),
            (_, 2) => (end(random, 180.0), end(random, 90.0)),
            (Some(g), 3..6) => {
                let lng = g.lng as f64 + random.below(g.columns as usize + 1) as f64;
                let lat = g.lat as f64 + random.below(g.rows as usize + 1) as f64;
                match random.below(3) {
                    0 => (lng + 0.5, lat + 0.25),
                    1 => (beside_float(random, lng), lat + 0.25),
                    _ => (lng + 0.5, beside_float(random, lat)),
                }
            }
            _ => (lng, lat),
        }
    }

    /// Where there are candidates, if such a position is soon found.
    fn listed(&self, o: &Opened, random: &mut Random) -> (f64, f64) {
        let mut at = self.position(o, random);
        for _ in 0..3 {
            if o.candidates(at.0, at.1) != Ok(Candidates::Nothing) {
                break;
            }
            at = self.position(o, random);
        }
        at
    }
}

fn beside_float(random: &mut Random, x: f64) -> f64 {
    random.pick(&[x, x, x.next_down(), x.next_up()])
}

/// The end of the world or of the shortcut, or beside; now and then a float that is special everywhere.
fn end(random: &mut Random, end: f64) -> f64 {
    let special = random.pick(&[f64::NAN, f64::INFINITY, 0.0, f64::from_bits(1), end + 1.0]);
    let x = random.pick(&[end, end, end - 1.0, special]);
    beside_float(random, x) * random.pick(&[1.0, -1.0])
}

/// Of a small file: a question of each kind, where it tells.
pub fn few(o: &Opened, random: &mut Random) -> [Question; 8] {
    let marks = Marks::of(o, random);
    let chunk = number(random, o.chunks());
    let numbers = o.chunk_at(chunk.into()).map_or(4, |chunk| 2 * chunk.count);
    let room = random.pick(&[numbers, numbers + 1, numbers + 6, numbers.saturating_sub(1), 0]);
    let places = random.pick(&[o.zones, o.zones + 3, 1, 0]);
    let (x, y) = marks.place(random);
    let anywhere = marks.position(o, random);
    let (first, second) = (marks.listed(o, random), marks.listed(o, random));
    let zone = random.below(o.zones as usize) as u32;
    [
        Question::Name(number(random, o.zones)),
        Question::Candidate(number(random, o.candidate_total())),
        Question::Candidates(anywhere.0, anywhere.1),
        Question::Decode(chunk, room),
        Question::Contains(number(random, o.zones), x, y),
        Question::ContainsAt(zone, first.0 * 100_000.0, first.1 * 100_000.0),
        Question::Lookup(first.0, first.1),
        Question::LookupInto(second.0, second.1, places),
    ]
}

/// On and beside every point and the middle of every edge of a chunk, in the zones listed there.
pub fn along(judge: &Judge, chunk: u64) -> Vec<Question> {
    let mut out = Vec::new();
    for (x, y) in border(&judge.opened, chunk) {
        let (lng, lat) = (f64::from(x) / 100_000.0, f64::from(y) / 100_000.0);
        out.extend([Question::Lookup(lng, lat), Question::LookupInto(lng, lat, u64::MAX)]);
        for zone in judge.lookup_into(lng, lat, u64::MAX).unwrap_or_default() {
            out.extend(beside((x, y)).map(|(x, y)| Question::Contains(zone as u32, x, y)));
        }
    }
    out
}

/// Every point of a chunk and the middle of every edge.
pub fn border(o: &Opened, chunk: u64) -> Vec<Place> {
    let whole = |(x, y): (i64, i64)| (x as i32, y as i32);
    let mut points: Vec<Place> = o.readable(chunk).into_iter().map(whole).collect();
    let middles: Vec<Place> = points.windows(2).map(|ends| middle(ends[0], ends[1])).collect();
    points.extend(middles);
    points
}

/// A point and its four neighbours.
pub fn beside((x, y): Place) -> [Place; 5] {
    [(x, y), (x + 1, y), (x, y + 1), (x - 1, y), (x, y - 1)]
}

/// A point of a chunk, or one on the way to the next. A corner of a box, where no point of the chunk can be read.
fn on_border(o: &Opened, random: &mut Random) -> Place {
    let points = o.readable(random.below(o.chunks() as usize) as u64);
    let whole = |(x, y): (i64, i64)| (x as i32, y as i32);
    if points.is_empty() {
        return corner(o, random);
    }
    let i = random.below(points.len());
    let a = whole(points[i]);
    match points.get(i + 1) {
        Some(&next) if random.below(2) == 0 => middle(a, whole(next)),
        _ => a,
    }
}
