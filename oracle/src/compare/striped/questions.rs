//! Where it is asked: beside every box in y, and at the floats that tell.

use crate::random::Random;
use crate::rules::Bounds;
use crate::rules::Opened;
use crate::voice::Question;

/// Beside a box's least and greatest y, in hundred-thousandths of a degree.
const BESIDE: [f64; 5] = [-1.0, -0.5, 0.0, 0.5, 1.0];

const SPECIAL: [f64; 12] = [
    0.0,
    -0.0,
    f64::NAN,
    f64::INFINITY,
    f64::NEG_INFINITY,
    90.0,
    -90.0,
    180.0,
    -180.0,
    f64::MIN_POSITIVE,
    1e300,
    -0.000_005,
];

/// Each chunk's box and each group's, beside the box of the group.
fn boxes(o: &Opened) -> Vec<[Bounds; 2]> {
    let mut out = Vec::new();
    for group in (0..o.groups()).map_while(|i| o.group_at(i).ok()) {
        out.push([group.bounds; 2]);
        let chunks = (group.first..group.first + group.count).map_while(|i| o.chunk_at(i).ok());
        out.extend(chunks.map(|chunk| [chunk.bounds, group.bounds]));
    }
    out
}

/// A position that the box tells something about: beside its least or greatest y, and within its group's box in x, mostly.
fn beside(random: &mut Random, [own, group]: [Bounds; 2], which: usize) -> (f64, f64) {
    let y = if which.is_multiple_of(2) { own.miny } else { own.maxy };
    let y = y as f64 + BESIDE[which / 2 % BESIDE.len()];
    let middle = (own.minx + own.maxx) / 2;
    let all = [own.minx, own.maxx, middle, group.minx, group.maxx, own.minx - 1, own.maxx + 1];
    let x = random.pick(&all) as f64 + random.pick(&[0.0, 0.0, 0.0, 0.5, -0.5]);
    (x, y)
}

/// At most so many positions beside boxes, or all that there are, each in one place of x; then some others.
pub fn of(o: &Opened, random: &mut Random, most: usize) -> Vec<Question> {
    let boxes = boxes(o);
    let ways = 2 * BESIDE.len();
    let mut out = Vec::new();
    for i in 0..most.min(ways * boxes.len()) {
        let (of, which) = match most < ways * boxes.len() {
            true => (random.below(boxes.len()), random.below(ways)),
            false => (i / ways, i % ways),
        };
        let place = beside(random, boxes[of], which);
        at(o, random, place, &mut out);
    }
    for _ in 0..1 + (most / 40).min(3) {
        let (x, y) = (random.pick(&SPECIAL), random.pick(&SPECIAL));
        out.extend([Question::Lookup(x, y), Question::LookupInto(x, y, 16)]);
        let anywhere = (random.part() * 3.6e7 - 1.8e7, random.part() * 1.8e7 - 9e6);
        at(o, random, anywhere, &mut out);
    }
    out
}

/// Every question at a point in hundred-thousandths of a degree.
fn at(o: &Opened, random: &mut Random, (x, y): (f64, f64), out: &mut Vec<Question>) {
    let (lng, lat) = (x / 100_000.0, y / 100_000.0);
    out.push(Question::Lookup(lng, lat));
    out.push(Question::LookupInto(lng, lat, random.pick(&[0, 1, 2, 16, 16])));
    let zone = random.below(o.zones.clamp(1, 1 << 20) as usize) as u32;
    let past = (o.zones as u32).wrapping_add(random.pick(&[0, 0, 1, u32::MAX]));
    let asked = if random.below(32) == 0 { past } else { zone };
    out.push(Question::Contains(asked, x.floor() as i32, y.floor() as i32));
    out.push(Question::ContainsAt(zone, x, y));
}
