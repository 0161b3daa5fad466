//! Files for stripes (document 02, 2026-02): groups of up to more than a thousand chunks, tall and flat, and boxes that leave their group's.

mod cases;
pub mod numbers;
mod walks;

pub use cases::cases;
pub use walks::{square, walks};

use super::*;

type Point = (i32, i32);

const EAST: i32 = 18_000_000;
const NORTH: i32 = 9_000_000;

/// How many chunks a group has: where the number of stripes turns, most of all.
const COUNTS: [usize; 20] =
    [1, 2, 2, 3, 4, 5, 7, 8, 8, 9, 11, 12, 13, 16, 20, 33, 64, 100, 255, 300];
/// Of many groups in a ring.
const FEW: usize = 10;
/// Where the number of stripes ends to grow.
const MANY: [usize; 4] = [1019, 1023, 1024, 1100];

/// A valid file: zones of rings of groups of many chunks, most without GRID, so that questions walk them.
pub fn some(random: &mut Random) -> Draft {
    let mut shape = Shape::with_slack(random.pick(&[0, 0, 0, 1, 9]));
    for _ in 0..random.pick(&[1, 1, 2, 3]) {
        let rings = random.pick(&[1, 1, 1, 2]);
        let polygon = (0..rings).map(|_| ring(random, &mut shape)).collect();
        shape.zones.push(vec![polygon]);
    }
    let mut draft = match random.below(4) {
        0 => {
            let cell = shape.cell();
            around(random, &shape, false, |random, zones| Grid::over(random, zones, cell))
        }
        _ => named(&shape),
    };
    if random.below(4) == 0 {
        taller(random, &mut draft);
    }
    if random.below(4) == 0 {
        for _ in 0..random.pick(&[1, 2, 3, 30]) {
            share(random, &mut draft);
        }
    }
    draft
}

/// A file of these zones, named by a letter each, without GRID.
pub fn named(shape: &Shape) -> Draft {
    let mut parts = shape.parts();
    let all: Vec<Vec<u8>> = (0..shape.zones.len()).map(|i| vec![b'A' + i as u8]).collect();
    parts.push(Part { typ: NAMES, bytes: names(&[], &all), gap: 0 });
    Draft::of_shape(shape, parts)
}

fn ring(random: &mut Random, shape: &mut Shape) -> Vec<Op> {
    let groups = random.pick(&[1, 1, 1, 2, 3, 12]);
    let counts = if groups > 3 { &COUNTS[..FEW] } else { &COUNTS };
    let mut ring = Vec::new();
    for _ in 0..groups {
        let chunks = if random.below(60) == 0 { random.pick(&MANY) } else { random.pick(counts) };
        let each = random.pick(&[1, 1, 2, 3]).max(if chunks == 1 { 3 } else { 1 });
        let points = line(random, chunks * each);
        let chunks = points.chunks(each).map(<[Point]>::to_vec).collect();
        let turned = random.below(3) == 0;
        ring.push(Op { group: shape.add_group(Chunks(chunks)), turned });
    }
    // A ring of three points or more, so that the original reads it.
    ring.push(Op { group: shape.add_group(Chunks(vec![line(random, 4)])), turned: false });
    ring
}

/// So many points: round a centre, rising, falling, up and down, level, anywhere in a box; now and then far away.
fn line(random: &mut Random, count: usize) -> Vec<Point> {
    let heights = [0, 1, 2, 3, 7, 8, 9, 63, 64, 65, 1000, 100_000, 5_000_000, 2 * NORTH];
    let (wide, high) = (random.pick(&[1, 3, 100, 100_000, 9_000_000]), random.pick(&heights));
    let centre = match random.below(8) {
        0 => (EAST, NORTH),
        1 => (-EAST, -NORTH),
        2 => (random.from_to(-EAST, EAST), random.from_to(-NORTH, NORTH)),
        _ => (random.from_to(-wide, wide), random.from_to(-high, high)),
    };
    let way = random.below(6);
    let mut point = |i: usize| {
        let (x, y) = match way {
            0 => (random.from_to(-wide, wide), share_of(high, i, count)),
            1 => (share_of(wide, i, count), -share_of(high, i, count)),
            2 => (random.from_to(-wide, wide), if i % 2 == 0 { -high / 2 } else { high / 2 }),
            3 => (random.from_to(-wide, wide), 0),
            4 => on_lozenge(wide, high / 2, i, count),
            _ => (random.from_to(-wide, wide), random.from_to(-high / 2, high / 2)),
        };
        let y = if random.below(40) == 0 { -y } else { y };
        ((centre.0 + x).clamp(-EAST, EAST), (centre.1 + y).clamp(-NORTH, NORTH))
    };
    (0..count).map(&mut point).collect()
}

fn share_of(whole: i32, i: usize, of: usize) -> i32 {
    (i64::from(whole) * i as i64 / of as i64) as i32
}

/// The i-th of so many places on a lozenge's four sides.
fn on_lozenge(wide: i32, high: i32, i: usize, of: usize) -> Point {
    let far = |side: i32| share_of(side, 4 * i % of, of);
    match 4 * i / of {
        0 => (wide - far(wide), far(high)),
        1 => (-far(wide), high - far(high)),
        2 => (far(wide) - wide, -far(high)),
        _ => (far(wide), far(high) - high),
    }
}

fn part(draft: &mut Draft, typ: u32) -> &mut Vec<u8> {
    &mut draft.parts.iter_mut().find(|part| part.typ == typ).unwrap().bytes
}

/// A record's two heights, from a place on.
fn heights(record: &[u8], at: usize) -> [i32; 2] {
    [word(record, at) as i32, word(record, at + 8) as i32]
}

/// The chunks of a group, from its record: from, up to.
fn run_of(group: &[u8]) -> std::ops::Range<usize> {
    let first = word(group, 0) as usize;
    first..first + usize::from(u16::from_le_bytes([group[8], group[9]]))
}

/// Some chunks' boxes reach as far up and down as their group's: they stand in every stripe.
fn taller(random: &mut Random, draft: &mut Draft) {
    let groups = part(draft, GROUPDIR).clone();
    let chunks = part(draft, CHUNKDIR);
    for group in groups.chunks(44) {
        let [low, high] = heights(group, 32);
        for i in run_of(group) {
            match random.below(6) {
                0 => put(chunks, 24 * i + 12, low as u32),
                1 => put(chunks, 24 * i + 20, high as u32),
                _ => {}
            }
        }
    }
}

/// One more group, which no ring names: a run of chunks that others have too. Its box is the least, or greater in y.
fn share(random: &mut Random, draft: &mut Draft) {
    let chunks = part(draft, CHUNKDIR).clone();
    let total = chunks.len() / 24;
    let first = random.below(total);
    let longest = (total - first).min(random.pick(&[1, 2, 8, 40, 400]));
    let count = 1 + random.below(longest);
    let run = &chunks[24 * first..24 * (first + count)];
    let field = |at: usize| run.chunks(24).map(move |chunk| word(chunk, at) as i32);
    let (least, greatest) = (|at| field(at).min().unwrap(), |at| field(at).max().unwrap());
    let points: u32 = run.chunks(24).map(|c| u32::from(u16::from_le_bytes([c[4], c[5]]))).sum();
    let more = random.pick(&[0, 0, 1, 1000]);
    let (low, high) = ((least(12) - more).max(-NORTH), (greatest(20) + more).min(NORTH));
    let (left, right) = (least(8), greatest(16));
    let words = [first as i32, points as i32, count as i32, left, low, right, high];
    let words = words.into_iter().chain([left, low, right, high]);
    part(draft, GROUPDIR).extend(words.flat_map(i32::to_le_bytes));
}

/// 257 groups that share 65,535 chunks, each as tall as the group: every chunk stands in each of 256 stripes, of every group.
pub fn too_many() -> Vec<u8> {
    let point = |i: usize| vec![(0, if i.is_multiple_of(2) { -1000 } else { 1000 })];
    let mut draft = one_zone(Chunks((0..65_535).map(point).collect()), usize::MAX, false);
    let groups = part(&mut draft, GROUPDIR);
    *groups = groups.repeat(257);
    draft.lay()
}

/// The least file with a group of so many chunks, all of them a point at 0, 0. The last one's box reaches one below its group's, or above.
#[cfg(test)]
pub fn leaving(chunks: usize, above: bool) -> Vec<u8> {
    let mut draft = one_zone(Chunks(vec![vec![(0, 0)]; chunks]), chunks, false);
    let records = part(&mut draft, CHUNKDIR);
    for i in 0..chunks {
        put(records, 24 * i, i as u32);
    }
    let last = 24 * (chunks - 1);
    match above {
        true => put(records, last + 20, 1),
        false => put(records, last + 12, -1i32 as u32),
    }
    draft.lay()
}

/// A box's least or greatest y, of a group or a chunk, set beside its group's. The sum is repaired. With it, 49 may come.
pub fn moved(random: &mut Random, file: &[u8]) -> Vec<u8> {
    let section = |typ: u32| entries(file).into_iter().find(|entry| entry[0] == typ).unwrap();
    let [_, groups, length] = section(GROUPDIR).map(|n| n as usize);
    let chunks = section(CHUNKDIR)[1] as usize;
    let at = groups + 44 * random.below(length / 44);
    let [low, high] = heights(&file[at..], 32);
    let chunk = chunks + 24 * (run_of(&file[at..]).start + random.below(run_of(&file[at..]).len()));
    let by = random.pick(&[1, 1, 2, 7, 100_000]);
    let mut out = file.to_vec();
    match random.below(6) {
        0 => put(&mut out, chunk + 12, (low - by) as u32),
        1 => put(&mut out, chunk + 20, (high + by) as u32),
        2 => put(&mut out, chunk + 12, low as u32),
        3 => put(&mut out, chunk + 20, high as u32),
        4 => put(&mut out, at + 32, (low + by).min(high) as u32),
        _ => put(&mut out, at + 40, (high - by).max(low) as u32),
    }
    repair(&mut out);
    out
}

#[cfg(test)]
mod tests {
    use super::cases::Case;
    use super::walks::OF_SQUARE;
    use super::*;
    use crate::rules;
    use crate::voice::Voice;

    /// What is read off document 02 by hand is what the rules say, and where there are numbers what the original has.
    #[test]
    fn the_cases_are_as_the_rules_say() {
        for Case { what, file, numbers } in cases() {
            let opened = rules::open(&file, &[]).ok().expect(what);
            assert_eq!(opened.stripes(u64::MAX), numbers, "{what}");
            assert_eq!(
                opened.stripes_need(),
                numbers.as_ref().map(|all| all.len() as u64).map_err(|&n| n),
                "{what}"
            );
            let original = crate::original::opening::open(&file).ok().expect(what);
            if let Ok(numbers) = numbers {
                assert_eq!(original.stripes(), numbers, "{what}");
                assert_eq!(opened.stripes(numbers.len() as u64 - 1), Err(46), "{what}");
            }
        }
    }

    #[test]
    fn the_walks_are_as_the_rules_say() {
        let file = square();
        let opened = rules::open(&file, &[]).ok().unwrap();
        assert_eq!(opened.stripes(u64::MAX), Ok(OF_SQUARE.to_vec()));
        for walk in walks() {
            let judge = rules::Judge::striped(opened, &walk.numbers);
            let (what, question) = (walk.what, walk.question);
            assert_eq!(judge.ask(question), Some(walk.answer), "{what}: {question:?}");
        }
    }

    #[test]
    fn the_files_open_and_have_stripes() {
        let mut random = Random::new(11);
        let (mut numbers, mut refused) = (0, 0);
        for _ in 0..200 {
            let file = some(&mut random).lay();
            numbers += rules::open(&file, &[]).ok().unwrap().stripes(u64::MAX).unwrap().len();
            let moved = moved(&mut random, &file);
            let opened = rules::open(&moved, &[]);
            refused += usize::from(opened.is_ok_and(|o| o.stripes_need() == Err(49)));
        }
        assert!(numbers > 100_000 && refused > 50, "{numbers} {refused}");
    }
}
