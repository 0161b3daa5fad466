//! Where it is asked: on and beside the points, edges and boxes of the zones, at the ends of the domain and past them, and anywhere.

use crate::file::relatives::{groups_of, points_of};
use crate::random::Random;
use crate::rules::{Opened, Said};

/// Ends of the domain and of i32, and beside them.
const ENDS: [(i32, i32); 12] = [
    (18_000_000, 9_000_000),
    (-18_000_000, -9_000_000),
    (18_000_001, 0),
    (-18_000_001, 0),
    (0, 9_000_001),
    (0, -9_000_001),
    (17_999_999, 8_999_999),
    (18_000_000, 9_000_001),
    (i32::MIN, i32::MIN),
    (i32::MAX, i32::MAX),
    (i32::MIN, 0),
    (0, i32::MAX),
];

/// So many chunks and zones are looked at for points.
const LOOKED_AT: u64 = 12;

/// What a record has that tells where something is: points of chunks, and the corners of the zones' boxes.
fn marks(o: &Opened, random: &mut Random) -> Vec<(i32, i32)> {
    let some = |random: &mut Random, count: u64| -> Vec<u64> {
        let all = count.clamp(1, 1 << 20) as usize;
        (0..count.min(LOOKED_AT)).map(|_| random.below(all) as u64).collect()
    };
    let mut out = Vec::new();
    for chunk in some(random, o.chunks()) {
        out.extend(o.readable(chunk).into_iter().take(40).map(|(x, y)| (x as i32, y as i32)));
    }
    for zone in some(random, o.zones).into_iter().filter_map(|zone| o.zone_at(zone).ok()) {
        let b = zone.bounds;
        let (x, y) = ((b.minx + b.maxx) / 2, (b.miny + b.maxy) / 2);
        let all = [(b.minx, b.miny), (b.maxx, b.maxy), (b.minx, b.maxy), (b.maxx, b.miny), (x, y)];
        out.extend(all.map(|(x, y)| (x as i32, y as i32)));
    }
    out
}

/// So many positions, most of them beside what the record has, and one that tells or lies anywhere.
pub fn of(o: Option<&Opened>, random: &mut Random, most: usize) -> Vec<(i32, i32)> {
    let marks = o.map_or(Vec::new(), |o| marks(o, random));
    let mut out = vec![random.pick(&ENDS), (random.bits() as i32, random.bits() as i32)];
    for _ in 0..most {
        let marked = !marks.is_empty() && random.below(10) > 0;
        out.push(if marked { beside(random, &marks) } else { anywhere(random) });
    }
    out
}

fn beside(random: &mut Random, marks: &[(i32, i32)]) -> (i32, i32) {
    let (x, y) = random.pick(marks);
    let far = random.pick(&[0, 0, 1, 1, 3, 1000]);
    let mut moved = |n: i32| n.wrapping_add(random.from_to(-far, far));
    (moved(x), moved(y))
}

fn anywhere(random: &mut Random) -> (i32, i32) {
    match random.below(4) {
        0 => random.pick(&ENDS),
        1 => (random.from_to(-9, 9), random.from_to(-9, 9)),
        _ => (random.from_to(-18_000_001, 18_000_001), random.from_to(-9_000_001, 9_000_001)),
    }
}

type Places = Vec<(i32, i32)>;

/// First what lies on a border: every point of the groups that two zones have, and one place on each edge between them. Then the other
/// points, on and beside their edges, beside the boxes of the zones, and at the ends of the domain and past them.
pub fn on_edges(o: &Opened, random: &mut Random) -> Said<(Places, Places)> {
    let named = groups_of(o)?;
    let (mut borders, mut others) = (Vec::new(), ENDS.to_vec());
    for group in 0..o.groups() {
        let points = points_of(o, group)?.concat();
        let zones = named.iter().filter(|groups| groups.contains(&(group as usize)));
        let own = if zones.count() > 1 { &mut borders } else { &mut others };
        own.extend(&points);
        for ends in points.windows(2) {
            own.extend(within(random, ends[0], ends[1]));
        }
        for ends in points.windows(2) {
            let middle = |a: i32, b: i32| (a + b) / 2;
            let (x, y) = (middle(ends[0].0, ends[1].0), middle(ends[0].1, ends[1].1));
            others.push((x + random.from_to(-1, 1), y + random.from_to(-1, 1)));
            others.push((ends[0].0 + random.from_to(-1, 1), ends[0].1 + random.from_to(-1, 1)));
        }
    }
    for zone in 0..o.zones {
        let b = o.zone_at(zone)?.bounds;
        let [west, south, east, north] = [b.minx, b.miny, b.maxx, b.maxy].map(|n| n as i32);
        let (x, y) = ((west + east) / 2, (south + north) / 2);
        others.extend([(west - 1, south - 1), (east + 1, north + 1), (west - 1, y), (east + 1, y)]);
        others.extend([(x, south - 1), (x, north + 1), (x, y), (west, north), (east, south)]);
    }
    Ok((borders, others))
}

/// A place between the ends of an edge and on it, if there is one of whole numbers.
fn within(random: &mut Random, a: (i32, i32), b: (i32, i32)) -> Option<(i32, i32)> {
    let (dx, dy) = (b.0 - a.0, b.1 - a.1);
    let steps = common(dx.abs(), dy.abs());
    (steps > 1).then(|| {
        let step = random.from_to(1, steps - 1);
        (a.0 + dx / steps * step, a.1 + dy / steps * step)
    })
}

/// The greatest number that divides both.
fn common(a: i32, b: i32) -> i32 {
    if b == 0 { a } else { common(b, a % b) }
}
