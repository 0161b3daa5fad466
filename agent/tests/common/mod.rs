//! The sample, small files with one square or with rings of one's own in them, and damage to any of them. And two indexes that
//! are to say the same.

// Each test program uses some of it.
#![allow(dead_code)]

pub mod broken;
pub mod program;

use std::ops::Range;

use tzb::Index;

/// The sample index of the repository.
pub fn sample() -> Vec<u8> {
    std::fs::read("../sample/real-ne.tzb").expect("the sample is read")
}

/// The sections, in the order in which a small file has them, by type.
pub const NAMES: usize = 1;
pub const TZDIR: usize = 2;
pub const POLYDIR: usize = 3;
pub const RINGDIR: usize = 4;
pub const RINGOPS: usize = 5;
pub const GROUPDIR: usize = 6;
pub const CHUNKDIR: usize = 7;
pub const POINTS: usize = 9;

/// A file without GRID in which every zone is the same square, one degree wide, from (0, 0).
pub struct Squares {
    pub bytes: Vec<u8>,
    /// Where each section starts.
    starts: [usize; 10],
}

const SIDE: i32 = 100_000;

impl Squares {
    pub fn new(names: &[&str]) -> Self {
        let zones = names.len();
        let sections = [
            (NAMES, names_section(names)),
            (TZDIR, listed(0, 1).repeat(zones)),
            (POLYDIR, listed(0, 1)),
            (RINGDIR, [words(&[0, 4, 1]), square_box()].concat()),
            (RINGOPS, words(&[0])),
            (GROUPDIR, [words(&[0, 5, 1, 0, 0, 0, 0]), square_box()].concat()),
            (CHUNKDIR, listed(0, 5)),
            (POINTS, points(&[(0, 0), (SIDE, 0), (0, SIDE), (-SIDE, 0), (0, -SIDE)])),
        ];
        let (bytes, starts) = whole(zones, &sections);
        Self { bytes, starts }
    }

    /// A copy with these bytes at a place of a section, and the right sum.
    pub fn with(&self, kind: usize, at: usize, new: &[u8]) -> Vec<u8> {
        changed(&self.bytes, self.starts[kind] + at, new)
    }
}

pub type Point = (i32, i32);

/// A file without GRID whose zones are all of these polygons, each a list of rings, the outer one first. A ring's points
/// stand in one group and one chunk, the first one again at the end. All boxes are of the same points: they are large.
pub fn drawn(names: &[&str], polygons: &[&[&[Point]]]) -> Vec<u8> {
    let all = || polygons.iter().flat_map(|rings| rings.iter());
    let count = all().count() as u32;
    let side = box_of(all().flat_map(|ring| ring.iter().copied()));
    let listed = |first: u32, count: u32| [words(&[first, count]), side.clone()].concat();
    let (mut first, mut chunks, mut stream) = (0, Vec::new(), Vec::new());
    let (mut polydir, mut ringdir, mut groupdir) = (Vec::new(), Vec::new(), Vec::new());
    for rings in polygons {
        polydir.extend(listed(first, rings.len() as u32));
        first += rings.len() as u32;
    }
    for (ring, number) in all().zip(0..) {
        let length = ring.len() as u32;
        let (x, y) = (ring[0].0 as u32, ring[0].1 as u32);
        ringdir.extend([words(&[number, length, 1]), side.clone()].concat());
        groupdir.extend([words(&[number, length + 1, 1, x, y, x, y]), side.clone()].concat());
        chunks.extend(listed(stream.len() as u32, length + 1));
        stream.extend(points(&steps(&[*ring, &ring[..1]].concat())));
    }
    let sections = [
        (NAMES, names_section(names)),
        (TZDIR, listed(0, polygons.len() as u32).repeat(names.len())),
        (POLYDIR, polydir),
        (RINGDIR, ringdir),
        (RINGOPS, words(&(0..count).collect::<Vec<_>>())),
        (GROUPDIR, groupdir),
        (CHUNKDIR, chunks),
        (POINTS, stream),
    ];
    whole(names.len(), &sections).0
}

/// A file without GRID whose one zone is one ring, in one group that has a chunk for each of these stretches of points. The
/// last point is the first one again. All boxes are the least.
pub fn in_chunks(name: &str, stretches: &[Vec<Point>]) -> Vec<u8> {
    let bytes: Vec<_> = stretches.iter().map(|stretch| numbers_of(stretch).concat()).collect();
    in_chunks_of(name, stretches, &bytes)
}

/// The same with these bytes for the chunks, whatever points they have.
pub fn in_chunks_of(name: &str, stretches: &[Vec<Point>], bytes: &[Vec<u8>]) -> Vec<u8> {
    let all = stretches.concat();
    let side = box_of(all.iter().copied());
    let listed = |first: u32, count: u32| [words(&[first, count]), side.clone()].concat();
    let (mut chunks, mut stream) = (Vec::new(), Vec::new());
    for (place, stretch) in stretches.iter().enumerate() {
        let next = stretches.get(place + 1).map(|next| next[0]);
        chunks.extend(words(&[stream.len() as u32, stretch.len() as u32]));
        chunks.extend(box_of(stretch.iter().copied().chain(next)));
        stream.extend_from_slice(&bytes[place]);
    }
    let count = all.len() as u32;
    let (x, y) = (all[0].0 as u32, all[0].1 as u32);
    let group = words(&[0, count, stretches.len() as u32, x, y, x, y]);
    let sections = [
        (NAMES, names_section(&[name])),
        (TZDIR, listed(0, 1)),
        (POLYDIR, listed(0, 1)),
        (RINGDIR, [words(&[0, count - 1, 1]), side.clone()].concat()),
        (RINGOPS, words(&[0])),
        (GROUPDIR, [group, side.clone()].concat()),
        (CHUNKDIR, chunks),
        (POINTS, stream),
    ];
    whole(1, &sections).0
}

/// A coast of so many chunks, from 1 on, from (0, 0) to about (1, chunks / 100) degrees. All chunks but the last lie one above
/// the other by the sea, a hundredth of a degree high each; the last goes back around the land.
pub fn coast(chunks: usize) -> Vec<Vec<Point>> {
    let step = |n: usize| 1000 * n as i32;
    let by_the_sea = |n| vec![(SIDE, step(n)), (SIDE + 50 + 37 * (n % 7) as i32, step(n) + 500)];
    let top = step(chunks);
    let around = vec![(SIDE, step(chunks - 1)), (SIDE, top), (0, top), (0, 0), (SIDE, 0)];
    (0..chunks - 1).map(by_the_sea).chain([around]).collect()
}

/// The first point, then the steps from each to the next.
fn steps(points: &[Point]) -> Vec<Point> {
    let before = [(0, 0)].iter().chain(points);
    points.iter().zip(before).map(|(to, from)| (to.0 - from.0, to.1 - from.1)).collect()
}

/// The least box.
fn box_of(points: impl Iterator<Item = Point> + Clone) -> Vec<u8> {
    let (x, y) = (points.clone().map(|p| p.0), points.map(|p| p.1));
    let sides = [x.clone().min(), y.clone().min(), x.max(), y.max()];
    sides.iter().flat_map(|side| side.unwrap().to_le_bytes()).collect()
}

/// A file of these sections, by type, and where each of them starts.
fn whole(zones: usize, sections: &[(usize, Vec<u8>)]) -> (Vec<u8>, [usize; 10]) {
    let mut bytes = header(zones as u32, sections.len() as u32);
    bytes.resize(64 + 16 * sections.len(), 0);
    let mut starts = [0; 10];
    for (place, (kind, section)) in sections.iter().enumerate() {
        bytes.resize(bytes.len().next_multiple_of(4), 0);
        starts[*kind] = bytes.len();
        let entry = words(&[*kind as u32, bytes.len() as u32, section.len() as u32, 0]);
        bytes[64 + 16 * place..][..16].copy_from_slice(&entry);
        bytes.extend_from_slice(section);
    }
    bytes.extend_from_slice(&[0; 4]);
    let size = bytes.len() as u32;
    bytes[16..20].copy_from_slice(&size.to_le_bytes());
    repair(&mut bytes);
    (bytes, starts)
}

/// Where a section starts, by the file's own table.
pub fn start_of(file: &[u8], kind: usize) -> usize {
    stretch_of(file, kind).start
}

/// Where a section starts and ends, by the file's own table.
pub fn stretch_of(file: &[u8], kind: usize) -> Range<usize> {
    let word = |at: usize| word_at(file, at);
    let entry = (64..).step_by(16).take(word(20)).find(|&entry| word(entry) == kind);
    let entry = entry.expect("the section is there");
    word(entry + 4)..word(entry + 4) + word(entry + 8)
}

/// Where the bytes of a chunk start and end in the file.
pub fn chunk_of(file: &[u8], chunk: usize) -> Range<usize> {
    let (directory, points) = (stretch_of(file, CHUNKDIR), stretch_of(file, POINTS));
    let start = |chunk| points.start + word_at(file, directory.start + 24 * chunk);
    let is_last = directory.start + 24 * (chunk + 1) == directory.end;
    start(chunk)..if is_last { points.end } else { start(chunk + 1) }
}

fn word_at(file: &[u8], at: usize) -> usize {
    u32::from_le_bytes(*file[at..].first_chunk().unwrap()) as usize
}

/// Holds an index to another at a position: its zone, all its zones, and whether these and a few more contain the point of
/// whole numbers there.
pub fn same_at(one: &Index<&[u8]>, other: &Index<&[u8]>, (lng, lat): (f64, f64)) {
    assert_eq!(one.zone(lng, lat), other.zone(lng, lat), "{lng} {lat}");
    let listed = one.zones(lng, lat);
    assert_eq!(listed, other.zones(lng, lat), "{lng} {lat}");
    let [x, y] = [lng, lat].map(|degrees| (degrees * 100_000.0).round() as i32);
    for zone in listed.unwrap_or_default().into_iter().chain([0, 1, u32::MAX]) {
        assert_eq!(one.contains(zone, x, y), other.contains(zone, x, y), "{zone} at {x} {y}");
    }
}

/// A copy with these bytes at a place of the file, and the right sum.
pub fn changed(file: &[u8], at: usize, new: &[u8]) -> Vec<u8> {
    let mut bytes = file.to_vec();
    bytes[at..at + new.len()].copy_from_slice(new);
    repair(&mut bytes);
    bytes
}

/// Writes the sum.
pub fn repair(file: &mut [u8]) {
    let (data, sum) = file.split_at_mut(file.len() - 4);
    sum.copy_from_slice(&crc32(data).to_le_bytes());
}

/// IEEE 802.3's sum, a bit at a time.
fn crc32(bytes: &[u8]) -> u32 {
    let step = |sum: u32, _| if sum & 1 == 1 { sum >> 1 ^ 0xedb8_8320 } else { sum >> 1 };
    !bytes.iter().fold(!0, |sum, &byte| (0..8).fold(sum ^ u32::from(byte), step))
}

fn header(zones: u32, sections: u32) -> Vec<u8> {
    let version = *b"2026c\0\0\0\0\0\0\0\0\0\0\0";
    let mut out = b"TZFB\x01\0\x40\0".to_vec();
    out.extend(words(&[0, 100_000, 0, sections]));
    out.extend(version);
    out.extend(words(&[zones, 256, 0, 0, 0, 0]));
    out
}

pub fn words(numbers: &[u32]) -> Vec<u8> {
    numbers.iter().flat_map(|n| n.to_le_bytes()).collect()
}

fn square_box() -> Vec<u8> {
    [0, 0, SIDE, SIDE].iter().flat_map(|n: &i32| n.to_le_bytes()).collect()
}

/// A record of a first number, a count, and the square's box.
fn listed(first: u32, count: u32) -> Vec<u8> {
    [words(&[first, count]), square_box()].concat()
}

fn names_section(names: &[&str]) -> Vec<u8> {
    let blob = names.concat();
    let mut offsets = vec![blob.len() as u32, 0];
    offsets.extend(names.iter().scan(0, |end, name| {
        *end += name.len() as u32;
        Some(*end)
    }));
    [words(&offsets), blob.into_bytes()].concat()
}

/// A chunk's bytes.
fn points(deltas: &[(i32, i32)]) -> Vec<u8> {
    deltas.iter().flat_map(|&(x, y)| [x, y]).flat_map(number).collect()
}

/// The numbers of a chunk with these points, each by its bytes.
pub fn numbers_of(points: &[Point]) -> Vec<Vec<u8>> {
    steps(points).iter().flat_map(|&(x, y)| [x, y]).map(number).collect()
}

/// A number's bytes: in zigzag form, seven bits a byte.
pub fn number(n: i32) -> Vec<u8> {
    let mut out = Vec::new();
    let mut rest = ((n << 1) ^ (n >> 31)) as u32;
    while rest >= 0x80 {
        out.push(rest as u8 | 0x80);
        rest >>= 7;
    }
    out.push(rest as u8);
    out
}
