//! The file that costs most to count segments in (document 02, 2026-05): a ring that names one long group again and again, whose points are all equal, and last of all a triangle. Only there three segments are found.

use super::zones::time;
use crate::file::{Chunks, Draft, NAMES, Op, Part, RINGDIR, RINGOPS, Shape, names, put};
use crate::port::exports::tzb_full_check;
use crate::port::opening::refusal;

/// How many rings there are, all of the same ops; how many ops; how many equal points the long group has, and how many of them stand in a chunk.
#[derive(Clone, Copy)]
pub struct Sizes {
    pub rings: usize,
    pub ops: usize,
    pub points: usize,
    pub chunk: usize,
}

/// A count of two bytes ends here: ops of a ring, points of a chunk, rings of a polygon.
const MOST: usize = 65_535;

/// What is measured where no sizes are given: twice as many of each, then as many as a small file may ask for.
const TABLE: [[usize; 4]; 10] = [
    [1, 1_000, 1_000, MOST],
    [2, 1_000, 1_000, MOST],
    [1, 2_000, 1_000, MOST],
    [1, 1_000, 2_000, MOST],
    [1, 1_000, 1_000, 1],
    [1, MOST, 2, MOST],
    [1, MOST, 1_000, MOST],
    [1, 1_000, MOST, MOST],
    [20_000, 1_000, 2, MOST],
    [1_000, 1_000, 100, MOST],
];

impl Sizes {
    pub fn of([rings, ops, points, chunk]: [usize; 4]) -> Self {
        Self { rings, ops, points, chunk }
    }

    /// What the record of each ring counts: its groups' points less their number. It has four bytes.
    fn point_count(self) -> u32 {
        let all = (self.ops - 1) * self.points + TRIANGLE.len();
        u32::try_from(all - self.ops).expect("a point count of four bytes")
    }
}

/// Its first point is that of the long group, and it ends there: no joint has two different ends.
const TRIANGLE: [(i32, i32); 4] = [(0, 0), (4, 0), (0, 4), (0, 0)];

fn part(parts: &mut [Part], typ: u32) -> &mut Vec<u8> {
    &mut parts.iter_mut().find(|part| part.typ == typ).unwrap().bytes
}

/// One zone of one polygon, which names as many of the rings as it can. Every box is the least: the full check accepts the file.
pub fn worst(sizes: Sizes) -> Vec<u8> {
    let Sizes { rings, ops, points, chunk } = sizes;
    assert!(ops <= MOST && chunk <= MOST && points.div_ceil(chunk) <= MOST, "counts of two bytes");
    let mut shape = Shape::default();
    let equal = vec![TRIANGLE[0]; points];
    let long = shape.add_group(Chunks(equal.chunks(chunk).map(<[_]>::to_vec).collect()));
    let last = shape.add_group(Chunks(vec![TRIANGLE.to_vec()]));
    let ring = [long, last].map(|group| Op { group, turned: false });
    shape.zones.push(vec![vec![ring.to_vec(); rings.min(MOST)]]);
    let mut parts = shape.parts();
    let words = vec![long; ops - 1].into_iter().chain([last]);
    *part(&mut parts, RINGOPS) = words.flat_map(|group| (group as u32).to_le_bytes()).collect();
    let record = &mut part(&mut parts, RINGDIR)[..28].to_vec();
    put(record, 4, sizes.point_count());
    record[8..10].copy_from_slice(&(ops as u16).to_le_bytes());
    *part(&mut parts, RINGDIR) = record.repeat(rings);
    parts.push(Part { typ: NAMES, bytes: names(&[], &[b"Z".to_vec()]), gap: 0 });
    Draft::new(1, parts).lay()
}

pub fn run(sizes: Option<Sizes>) {
    let head = ["rings", "ops", "points", "a chunk", "bytes", "opening", "full check"];
    println!("{}", head.map(|name| format!("{name:>14}")).concat());
    match sizes {
        Some(sizes) => row(sizes),
        None => TABLE.map(Sizes::of).into_iter().for_each(row),
    }
}

/// Milliseconds of processor time, the best of three, or the first where that took two seconds.
fn row(sizes: Sizes) {
    let file = worst(sizes);
    let (data, length) = (file.as_ptr(), file.len());
    let open = best(&mut || unsafe { refusal(data, length) }.into());
    let check = best(&mut || unsafe { tzb_full_check(data, length) } as u64);
    let Sizes { rings, ops, points, chunk } = sizes;
    let numbers = [rings, ops, points, chunk, length].map(|n| format!("{n:>14}")).concat();
    println!("{numbers}{open:>14.2}{check:>14.2}");
}

fn best(f: &mut dyn FnMut() -> u64) -> f64 {
    assert_eq!(f(), 0, "a file that is accepted");
    let first = time(f);
    let others = if first < 2_000_000 { 2 } else { 0 };
    let best = (0..others).map(|_| time(f)).fold(first, i64::min);
    best as f64 / 1e3
}

#[cfg(test)]
mod tests {
    use super::*;
    use crate::file::{entries, repair};
    use crate::rules::full_check;

    /// It is accepted, and without its last op's triangle it has no segment: so the count ends there and not before.
    #[test]
    fn the_worst_file_is_accepted_by_its_last_op_alone() {
        for sizes in [[1, 2, 2, 2], [3, 5, 7, 3], [2, 300, 400, 100], [70_000, 3, 2, 2]] {
            let sizes = Sizes::of(sizes);
            let file = worst(sizes);
            assert_eq!(full_check(&file), Ok(()));
            let place = |typ| entries(&file).into_iter().find(|e| e[0] == typ).unwrap();
            let ([_, ops, length], [_, rings, _]) = (place(RINGOPS), place(RINGDIR));
            assert_eq!(length as usize, 4 * sizes.ops);
            let mut without = file.clone();
            put(&mut without, (ops + length) as usize - 4, 0);
            for ring in 0..sizes.rings {
                let equal = sizes.ops * sizes.points - sizes.ops;
                put(&mut without, rings as usize + 28 * ring + 4, equal as u32);
            }
            repair(&mut without);
            assert_eq!(full_check(&without).map_err(|broken| broken.rule), Err(2));
        }
    }
}
