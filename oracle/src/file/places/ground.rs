//! A valid file of which a chunk is made anew. The points are its last section, so that nothing else moves.

use super::Broken;
use crate::file::{CHUNKDIR, Chunks, GROUPDIR, Grid, Op, POINTS, RINGDIR, RINGOPS, Shape};
use crate::file::{Draft, around, entries, put, seal, striped, word};
use crate::port::opening::{SIZE, open_into};
use crate::random::Random;
use std::ops::Range;

/// By so much every box is greater than it need be: it is the whole domain.
const WIDE: i32 = 40_000_000;

/// How a chunk's box lies to the point that is asked.
#[derive(Debug, Clone, Copy, PartialEq)]
pub enum Lies {
    /// All of the domain: the chunk is scanned.
    Around,
    /// Strictly right: its first point alone is read.
    Right,
    /// Below or above: it is skipped.
    Aside,
}

impl Lies {
    /// Least x and y, greatest x and y.
    fn bounds(self, (x, y): (i32, i32)) -> [i32; 4] {
        let [west, south, east, north] = [-18_000_000, -9_000_000, 18_000_000, 9_000_000];
        match self {
            Lies::Around => [west, south, east, north],
            Lies::Right => [(x + 1).min(east), south, east, north],
            Lies::Aside if y > 0 => [west, south, east, y - 1],
            Lies::Aside => [west, y + 1, east, north],
        }
    }
}

/// Where the entry of POINTS stands, and where the sections start. None moves, whatever the points are.
#[derive(Clone, Copy)]
struct At {
    entry: usize,
    points: usize,
    chunks: usize,
    groups: usize,
    rings: usize,
    ops: usize,
}

pub struct Ground {
    file: Vec<u8>,
    at: At,
    rings: usize,
    record: Vec<u8>,
    /// The bytes of each chunk.
    chunks: Vec<Vec<u8>>,
    /// Which chunks each group has.
    pub groups: Vec<Range<usize>>,
}

/// A file with a chunk made anew, and the file's record. Its size and sum are not repaired.
pub struct Made {
    pub file: Vec<u8>,
    pub record: Vec<u8>,
    /// The chunk's bytes.
    pub bytes: Range<usize>,
}

/// Where a section's entry stands, where the section starts, and how long it is.
fn section(file: &[u8], typ: u32) -> [usize; 3] {
    let all = entries(file);
    let i = all.iter().position(|entry| entry[0] == typ).unwrap();
    [64 + 16 * i, all[i][1] as usize, all[i][2] as usize]
}

fn count(file: &[u8], at: usize) -> usize {
    u16::from_le_bytes([file[at], file[at + 1]]).into()
}

impl Ground {
    pub fn of(mut draft: Draft) -> Self {
        let points = draft.parts.iter().position(|part| part.typ == POINTS).unwrap();
        let points = draft.parts.remove(points);
        draft.parts.push(points);
        let file = draft.lay();
        let record = open_into(&file, SIZE).expect("a file that opens");
        let [entry, points, length] = section(&file, POINTS);
        let [_, chunks, chunks_size] = section(&file, CHUNKDIR);
        let [_, groups, groups_size] = section(&file, GROUPDIR);
        let [_, rings, rings_size] = section(&file, RINGDIR);
        let [_, ops, _] = section(&file, RINGOPS);
        let at = At { entry, points, chunks, groups, rings, ops };
        let starts = (0..chunks_size / 24).map(|i| word(&file, chunks + 24 * i) as usize);
        let starts: Vec<usize> = starts.chain([length]).collect();
        let bytes = |ends: &[usize]| file[points + ends[0]..points + ends[1]].to_vec();
        let chunks = starts.windows(2).map(bytes).collect();
        let run = |at: usize| {
            let first = word(&file, at) as usize;
            first..first + count(&file, at + 8)
        };
        let groups = (0..groups_size / 44).map(|i| run(groups + 44 * i)).collect();
        Self { at, rings: rings_size / 28, record, chunks, groups, file }
    }

    /// One zone of one group of so many chunks.
    pub fn of_one(chunks: usize) -> Self {
        let mut shape = Shape::with_slack(WIDE);
        let points = (1..=chunks as i32).map(|i| vec![(i, 2 * i), (3 * i, i)]).collect();
        let group = shape.add_group(Chunks(points));
        shape.zones.push(vec![vec![vec![Op { group, turned: false }]]]);
        Self::of(striped::named(&shape))
    }

    /// Zones of polygons of rings of groups of few chunks, every box as wide as the domain.
    pub fn some(random: &mut Random) -> Self {
        let mut shape = Shape::with_slack(WIDE);
        for _ in 0..random.pick(&[1, 1, 2, 3]) {
            let polygons = random.pick(&[1, 1, 1, 2]);
            let zone = (0..polygons).map(|_| polygon(random, &mut shape)).collect();
            shape.zones.push(zone);
        }
        Self::of(match random.below(6) {
            0 => around(random, &shape, false, |random, zones| Grid::over(random, zones, (0, 0))),
            _ => striped::named(&shape),
        })
    }

    pub fn chunks(&self) -> usize {
        self.chunks.len()
    }

    /// With this chunk in the place of one of its own, and each chunk's box as it lies to a point.
    pub fn with(&self, which: usize, chunk: &Broken, boxes: &[Lies], point: (i32, i32)) -> Made {
        let At { entry, points, chunks, .. } = self.at;
        let mut file = self.file[..points].to_vec();
        let mut bytes = 0..0;
        for (i, own) in self.chunks.iter().enumerate() {
            let (record, start) = (chunks + 24 * i, file.len());
            put(&mut file, record, (start - points) as u32);
            for (j, n) in boxes[i].bounds(point).into_iter().enumerate() {
                put(&mut file, record + 8 + 4 * j, n as u32);
            }
            file.extend(if i == which { &chunk.bytes } else { own });
            bytes = if i == which { start..file.len() } else { bytes };
        }
        file[chunks + 24 * which + 4..][..2].copy_from_slice(&chunk.count.to_le_bytes());
        let length = (file.len() - points) as u32;
        put(&mut file, entry + 8, length);
        self.add_up(&mut file);
        file.extend([0; 4]);
        let mut record = self.record.clone();
        put(&mut record, 64, length);
        Made { file, record, bytes }
    }

    /// Groups' and rings' point counts by those of the chunks.
    fn add_up(&self, file: &mut [u8]) {
        let At { chunks, groups, rings, ops, .. } = self.at;
        let of_group = |run: &Range<usize>| -> usize {
            run.clone().map(|i| count(file, chunks + 24 * i + 4)).sum()
        };
        let points: Vec<usize> = self.groups.iter().map(of_group).collect();
        for (i, &points) in points.iter().enumerate() {
            put(file, groups + 44 * i + 4, points as u32);
        }
        for ring in (0..self.rings).map(|i| rings + 28 * i) {
            let (first, steps) = (word(file, ring) as usize, count(file, ring + 8));
            let op = |i: usize| word(file, ops + 4 * i) as usize & 0x7fff_ffff;
            let all: usize = (first..first + steps).map(|i| points[op(i)]).sum();
            put(file, ring + 4, (all - steps) as u32);
        }
    }
}

impl Made {
    /// Opened, it gives the record.
    pub fn seal(&mut self) {
        seal(&mut self.file);
    }
}

fn polygon(random: &mut Random, shape: &mut Shape) -> Vec<Vec<Op>> {
    let holes = random.pick(&[0, 0, 0, 1]);
    (0..=holes).map(|_| ring(random, shape)).collect()
}

/// Round the domain, so that a point is inside, or anywhere.
fn ring(random: &mut Random, shape: &mut Shape) -> Vec<Op> {
    if random.below(3) == 0 {
        let corners = [(-1, -1), (1, -1), (1, 1), (-1, 1), (-1, -1)];
        let frame = corners.map(|(x, y)| (17_900_000 * x, 8_900_000 * y));
        let each = random.pick(&[1, 2, 3, 5]);
        let chunks = Chunks(frame.chunks(each).map(<[_]>::to_vec).collect());
        return vec![Op { group: shape.add_group(chunks), turned: random.below(2) == 0 }];
    }
    let groups = random.pick(&[1, 1, 2, 3]);
    (0..groups).map(|_| step(random, shape)).collect()
}

fn step(random: &mut Random, shape: &mut Shape) -> Op {
    let count = random.pick(&[1, 1, 2, 2, 3, 4, 8, 9, 12]);
    let each = random.pick(&[1, 1, 2, 3, 5]);
    let points = super::points(random, count * each);
    let points: Vec<(i32, i32)> = points.iter().map(|&(x, y)| (x as i32, y as i32)).collect();
    let chunks = Chunks(points.chunks(each).map(<[_]>::to_vec).collect());
    Op { group: shape.add_group(chunks), turned: random.below(3) == 0 }
}
