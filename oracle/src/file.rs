//! Builds small `.tzb` files: a draft says what a file has, `lay` gives its bytes.

#[cfg(test)]
mod accepted;
pub mod broken;
mod cases;
pub mod damage;
mod examples;
mod fields;
mod grid;
pub mod journal;
pub mod maps;
pub mod places;
pub mod relatives;
mod shape;
pub mod small_rings;
pub mod smaller;
pub mod striped;
pub mod tables;

pub use cases::cases;
pub use examples::{
    at_the_shortcuts_ends, bases, chunks, departing, kinds, least, marked, one_zone,
};
pub use grid::Grid;
pub use shape::{Chunks, Op, Shape};

use crate::random::Random;
use crate::rules::crc32;

pub const NAMES: u32 = 1;
pub const TZDIR: u32 = 2;
pub const POLYDIR: u32 = 3;
pub const RINGDIR: u32 = 4;
pub const RINGOPS: u32 = 5;
pub const GROUPDIR: u32 = 6;
pub const CHUNKDIR: u32 = 7;
pub const GRID: u32 = 8;
pub const POINTS: u32 = 9;
pub const FUZZY: u32 = 10;

/// A section: its bytes, and how many unread words stand before it.
#[derive(Clone)]
pub struct Part {
    pub typ: u32,
    pub bytes: Vec<u8>,
    pub gap: usize,
}

#[derive(Clone)]
pub struct Draft {
    pub flags: u32,
    pub version: Vec<u8>,
    pub zones: u32,
    pub chunk_target: u32,
    /// In the order of their bytes.
    pub parts: Vec<Part>,
    /// The order of the entries, as places in `parts`.
    pub order: Vec<usize>,
    /// Unread bytes before the sum.
    pub tail: usize,
    /// What stands in every byte that nobody reads.
    pub unread: u8,
    /// Of the ring with the fewest: how many segments it has whose ends differ. Told by who makes valid files at random.
    pub fewest: Option<usize>,
}

impl Draft {
    pub fn new(zones: u32, parts: Vec<Part>) -> Self {
        let has_grid = parts.iter().any(|part| part.typ == GRID);
        Self {
            flags: u32::from(has_grid),
            version: b"2025b".to_vec(),
            zones,
            chunk_target: 64,
            order: (0..parts.len()).collect(),
            parts,
            tail: 0,
            unread: 0,
            fewest: None,
        }
    }

    /// Without sections but these of a shape's.
    fn of_shape(shape: &Shape, parts: Vec<Part>) -> Self {
        let fewest = Some(shape.fewest_segments());
        Self { fewest, ..Self::new(shape.zones.len() as u32, parts) }
    }

    /// Whether every ring has its three segments: a valid file without is refused by the full check, by rule 2.
    pub fn has_room(&self) -> bool {
        self.fewest.expect("a draft whose maker tells") >= 3
    }

    pub fn lay(&self) -> Vec<u8> {
        let mut file = self.header();
        let mut entries = vec![[0; 2]; self.parts.len()];
        file.resize(64 + 16 * self.order.len(), self.unread);
        for (entry, part) in entries.iter_mut().zip(&self.parts) {
            file.resize(file.len().next_multiple_of(4) + 4 * part.gap, self.unread);
            *entry = [file.len() as u32, part.bytes.len() as u32];
            file.extend_from_slice(&part.bytes);
        }
        for (i, &place) in self.order.iter().enumerate() {
            let [off, len] = entries[place];
            put_all(&mut file, 64 + 16 * i, &[self.parts[place].typ, off, len]);
        }
        file.resize(file.len() + self.tail + 4, self.unread);
        seal(&mut file);
        file
    }

    fn header(&self) -> Vec<u8> {
        let mut h = vec![self.unread; 64];
        h[0..4].copy_from_slice(b"TZFB");
        h[4] = 1;
        h[6..8].copy_from_slice(&64u16.to_le_bytes());
        put_all(&mut h, 8, &[self.flags, 100_000, 0, self.order.len() as u32]);
        h[24..40].fill(0);
        h[24..24 + self.version.len()].copy_from_slice(&self.version);
        put_all(&mut h, 40, &[self.zones, self.chunk_target]);
        h[48] = 0;
        h
    }
}

pub fn word(file: &[u8], at: usize) -> u32 {
    u32::from_le_bytes(file[at..at + 4].try_into().unwrap())
}

pub fn put(file: &mut [u8], at: usize, n: u32) {
    file[at..at + 4].copy_from_slice(&n.to_le_bytes());
}

fn put_all(file: &mut [u8], at: usize, numbers: &[u32]) {
    numbers.iter().enumerate().for_each(|(i, &n)| put(file, at + 4 * i, n));
}

/// Writes the size into the header, then the sum. A file too short for either stays as it is.
pub fn seal(file: &mut [u8]) {
    if file.len() >= 68 {
        put(file, 16, file.len() as u32);
    }
    repair(file);
}

/// Writes the sum alone.
pub fn repair(file: &mut [u8]) {
    if let Some(at) = file.len().checked_sub(4) {
        let sum = crc32(&file[..at]);
        put(file, at, sum);
    }
}

/// How many entries of a file's table lie in the file.
pub fn entry_count(file: &[u8]) -> usize {
    if file.len() < 68 {
        return 0;
    }
    let room = (file.len() - 68) / 16;
    room.min(word(file, 20) as usize)
}

/// An entry of a file's table: type, offset, length.
pub fn entry(file: &[u8], i: usize) -> [u32; 3] {
    [0, 4, 8].map(|field| word(file, 64 + 16 * i + field))
}

pub fn entries(file: &[u8]) -> Vec<[u32; 3]> {
    (0..entry_count(file)).map(|i| entry(file, i)).collect()
}

/// NAMES: blob length, offsets, blob. `skipped` stands in the blob before the first name.
pub fn names(skipped: &[u8], all: &[Vec<u8>]) -> Vec<u8> {
    let mut offset = skipped.len() as u32;
    let mut offsets = vec![offset];
    for name in all {
        offset += name.len() as u32;
        offsets.push(offset);
    }
    let mut out = offset.to_le_bytes().to_vec();
    offsets.iter().for_each(|o| out.extend_from_slice(&o.to_le_bytes()));
    out.extend_from_slice(skipped);
    all.iter().for_each(|name| out.extend_from_slice(name));
    out
}

/// A valid file, of every kind: 1 to 4 zones, GRID or none, unknown and empty sections, gaps, any order.
pub fn some(random: &mut Random) -> Draft {
    let shape = Shape::some(random);
    around(random, &shape, false, Grid::some)
}

/// A valid file whose zones lie on a small lattice. A ring may also be a line or a point: then the full check refuses it. Now and then all zones have the same name.
pub fn on_lattice(random: &mut Random) -> Draft {
    let shape = Shape::on_lattice(random);
    over_lattice(random, &shape)
}

/// The same, but three times in four each ring has room.
pub fn mostly_with_room(random: &mut Random) -> Draft {
    let shape = match random.below(4) {
        0 => Shape::on_lattice(random),
        _ => Shape::with_room(random),
    };
    over_lattice(random, &shape)
}

fn over_lattice(random: &mut Random, shape: &Shape) -> Draft {
    let alike = random.below(8) == 0;
    let cell = shape.cell();
    around(random, shape, alike, |random, zones| Grid::over(random, zones, cell))
}

/// A file with these zones; their names are alike or not.
fn around(
    random: &mut Random,
    shape: &Shape,
    alike: bool,
    grid: impl Fn(&mut Random, usize) -> Grid,
) -> Draft {
    let zones = shape.zones.len();
    let mut parts = shape.parts();
    let text = |random: &mut Random| {
        let mut name = b"Zone/".to_vec();
        name.truncate(random.below(6));
        name.extend(crate::bytes::text(random, 1, false).into_iter().filter(|&b| b != 0));
        if name.is_empty() { b"Z".to_vec() } else { name }
    };
    let all: Vec<Vec<u8>> = (0..zones).map(|_| text(random)).collect();
    let all = if alike { vec![b"Z".to_vec(); zones] } else { all };
    let skipped = random.below(4).saturating_sub(1);
    let skipped = random.bytes(skipped);
    parts.push(Part { typ: NAMES, bytes: names(&skipped, &all), gap: 0 });
    if random.below(3) > 0 {
        parts.push(Part { typ: GRID, bytes: grid(random, zones).bytes(), gap: 0 });
    }
    if random.below(3) == 0 {
        let length = random.below(20);
        parts.push(Part { typ: FUZZY, bytes: random.bytes(length), gap: 0 });
    }
    for _ in 0..random.below(4).saturating_sub(1) {
        let typ = random.pick(&[0, 0, 15, 16, 255, u32::MAX]);
        let length = random.pick(&[0, 0, 1, 4, 9]);
        parts.push(Part { typ, bytes: random.bytes(length), gap: 0 });
    }
    finish(random, Draft::of_shape(shape, parts))
}

/// Order of the sections and of their entries, gaps, version, flags.
fn finish(random: &mut Random, mut draft: Draft) -> Draft {
    if random.below(2) == 0 {
        shuffle(random, &mut draft.parts);
    }
    if random.below(2) == 0 {
        shuffle(random, &mut draft.order);
    }
    if random.below(2) == 0 {
        draft.parts.iter_mut().for_each(|part| part.gap = random.below(3).saturating_sub(1));
        draft.tail = random.below(6);
    }
    let length = random.below(17);
    draft.version = (0..length).map(|_| random.pick(b"2025abcdefgh-.")).collect();
    draft.chunk_target = random.pick(&[1, 2, 64, 65_535]);
    draft.flags |= random.pick(&[0, 0, 2, 0xffff_fffe]);
    draft.unread = random.pick(&[0, 0, 1, 255]);
    draft
}

pub fn shuffle<T>(random: &mut Random, all: &mut [T]) {
    for i in (1..all.len()).rev() {
        all.swap(i, random.below(i + 1));
    }
}
