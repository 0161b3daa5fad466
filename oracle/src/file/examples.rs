//! Fixed small files: the least that open, one of each valid kind, and those whose every damage is looked at.

use super::*;
use crate::rules::{Placed, Refusal};

/// The least file that opens: one record of each kind, the shortest name, one byte of points.
pub fn least(grid: bool) -> Draft {
    least_of(2, grid)
}

/// Its one group has this many points. With one alone the original refuses it.
fn least_of(points: usize, grid: bool) -> Draft {
    one_zone(Chunks(vec![vec![(0, 0); points]]), 1, grid)
}

/// One group of eight chunks: the original sorts them into two stripes.
fn long_group() -> Draft {
    one_zone(Chunks((0..8).map(|i| vec![(i, i % 2)]).collect()), usize::MAX, false)
}

/// Without GRID, but with so many zones, of these names.
pub fn least_with(zones: usize, all: &[&[u8]]) -> Draft {
    let mut draft = least(false);
    let part = |typ| move |part: &&mut Part| part.typ == typ;
    let tzdir = draft.parts.iter_mut().find(part(TZDIR)).unwrap();
    tzdir.bytes = tzdir.bytes.repeat(zones);
    let all: Vec<Vec<u8>> = all.iter().map(|name| name.to_vec()).collect();
    draft.parts.iter_mut().find(part(NAMES)).unwrap().bytes = names(&[], &all);
    draft.zones = zones as u32;
    draft
}

/// A zone of one ring of one group. Of the bytes of its points so many are kept.
pub fn one_zone(chunks: Chunks, kept: usize, grid: bool) -> Draft {
    let mut shape = Shape::default();
    let group = shape.add_group(chunks);
    shape.zones.push(vec![vec![vec![Op { group, turned: false }]]]);
    let mut parts = shape.parts();
    parts.iter_mut().filter(|part| part.typ == POINTS).for_each(|part| part.bytes.truncate(kept));
    if grid {
        let (words, candidates) = (vec![1 << 28], vec![0]);
        let one = Grid { lng: 0, lat: 0, columns: 1, rows: 1, words, candidates };
        parts.push(Part { typ: GRID, bytes: one.bytes(), gap: 0 });
    }
    parts.push(Part { typ: NAMES, bytes: names(&[], &[b"A".to_vec()]), gap: 0 });
    let mut draft = Draft::new(1, parts);
    draft.version = Vec::new();
    draft.chunk_target = 1;
    draft
}

/// One zone, version "a", and these sections.
pub fn plain(parts: Vec<Part>) -> Vec<u8> {
    Draft { version: vec![b'a'], ..Draft::new(1, parts) }.lay()
}

/// Small files whose every damage is looked at: without sections, with one and two, and the valid kinds.
pub fn bases() -> Vec<Vec<u8>> {
    let unknown = |bytes: &[u8]| Part { typ: 0, bytes: bytes.to_vec(), gap: 0 };
    let mut out = vec![
        plain(Vec::new()),
        plain(vec![unknown(&[])]),
        plain(vec![unknown(&[1, 2, 3, 4, 5]), unknown(&[])]),
    ];
    out.extend(kinds());
    out
}

/// Valid files, one of each kind.
pub fn kinds() -> Vec<Vec<u8>> {
    let mut out = vec![least(false).lay(), least(true).lay()];
    out.extend(with_sections());
    out.extend(laid_otherwise());
    out.push(marked(5).lay());
    out.extend(at_the_bounds());
    out.push(empty_inside());
    out.push(least_of(1, false).lay());
    out.push(long_group().lay());
    out.extend(by_chance());
    out
}

/// The least file with one more section: unknown types, FUZZY, empty ones.
fn with_sections() -> Vec<Vec<u8>> {
    let extra: [(u32, &[u8]); 6] =
        [(0, &[]), (0, &[0xff; 5]), (15, &[]), (u32::MAX, &[1]), (FUZZY, &[]), (FUZZY, &[0xff; 3])];
    let with = |(typ, bytes): (u32, &[u8])| {
        let mut draft = least(false);
        draft.order.push(draft.parts.len());
        draft.parts.push(Part { typ, bytes: bytes.to_vec(), gap: 0 });
        draft.lay()
    };
    extra.map(with).to_vec()
}

/// The least file with another order, gaps, version, flags, unread bytes, and a name that starts later.
fn laid_otherwise() -> Vec<Vec<u8>> {
    let with = |change: fn(&mut Draft)| {
        let mut draft = least(false);
        change(&mut draft);
        draft.lay()
    };
    let late = |draft: &mut Draft| {
        let part = draft.parts.iter_mut().find(|part| part.typ == NAMES).unwrap();
        part.bytes = names(&[0xff, 0], &["Å".as_bytes().to_vec()]);
    };
    let gaps = |draft: &mut Draft| {
        draft.parts.iter_mut().for_each(|part| part.gap = 1);
        draft.tail = 3;
    };
    let unread = |draft: &mut Draft| {
        draft.unread = 255;
        draft.flags = 0xffff_fffe;
        draft.version = b"sixteen bytes ok".to_vec();
        draft.chunk_target = 65_535;
    };
    vec![
        with(late),
        with(gaps),
        with(unread),
        with(|draft| draft.order.reverse()),
        with(|draft| draft.parts.reverse()),
    ]
}

/// The word 0x20000003: M15 with a total of 5, M16 with a total of 4.
pub fn marked(total: usize) -> Draft {
    let mut draft = least(true);
    let part = draft.parts.iter_mut().find(|part| part.typ == GRID).unwrap();
    let (words, candidates) = (vec![0x2000_0003], vec![0; total]);
    part.bytes = Grid { lng: -1, lat: -1, columns: 1, rows: 1, words, candidates }.bytes();
    draft
}

/// An empty section strictly inside another: the original refuses it.
fn empty_inside() -> Vec<u8> {
    let mut draft = least(false);
    draft.order.push(draft.parts.len());
    draft.parts.push(Part { typ: 0, bytes: Vec::new(), gap: 0 });
    let mut file = draft.lay();
    let entry = 64 + 16 * (draft.parts.len() - 1);
    let inside = word(&file, 68) + 4;
    put(&mut file, entry + 4, inside);
    repair(&mut file);
    file
}

/// The greatest boxes, and grids as far out as they may be. One has a candidate that no cell names.
fn at_the_bounds() -> Vec<Vec<u8>> {
    let grid = |lng, lat, columns, rows, words: &[u32], candidates: &[u16]| {
        let mut draft = least(true);
        let part = draft.parts.iter_mut().find(|part| part.typ == GRID).unwrap();
        let (words, candidates) = (words.to_vec(), candidates.to_vec());
        part.bytes = Grid { lng, lat, columns, rows, words, candidates }.bytes();
        draft.lay()
    };
    let (west, south) = (-18_000_000, -9_000_000);
    let world = Chunks(vec![vec![(west, south), (-west, -south)]]);
    vec![
        grid(-181, -91, 1, 1, &[0x1000_0000], &[0, 0xffff]),
        grid(180, 90, 2, 2, &[0, 1, 0, 1], &[0]),
        grid(180, 90, 1, 1, &[0], &[]),
        one_zone(world, usize::MAX, false).lay(),
    ]
}

/// Small ones of many made at random: several zones, rings of several groups, some turned round.
fn by_chance() -> Vec<Vec<u8>> {
    let mut random = Random::new(20);
    let mut all: Vec<Vec<u8>> = (0..200).map(|_| some(&mut random).lay()).collect();
    all.retain(|file| word(file, 40) > 1);
    all.sort_by_key(Vec::len);
    all.truncate(2);
    all
}

/// Files at which the original is known to answer otherwise than document 01, with the rule that the full check finds broken, 0 for none.
pub fn departing() -> Vec<(u32, Vec<u8>)> {
    let zone = |points: &[(i32, i32)]| one_zone(Chunks(vec![points.to_vec()]), usize::MAX, false);
    let mut left_over = zone(&[(0, 0); 4]);
    left_over.parts.iter_mut().find(|part| part.typ == POINTS).unwrap().bytes.push(0);
    // Eight chunks lie in two stripes. The box of the last, a triangle's long side, reaches below the group's.
    let mut eight = vec![vec![(0, 0)]; 7];
    eight.push(vec![(4, 0), (0, 4)]);
    let mut below = one_zone(Chunks(eight), usize::MAX, false);
    let chunks = below.parts.iter_mut().find(|part| part.typ == CHUNKDIR).unwrap();
    let last = chunks.bytes.len() - 24;
    chunks.bytes[last + 12..last + 16].copy_from_slice(&(-1i32).to_le_bytes());
    vec![
        (2, zone(&[(0, 0), (0, 0)]).lay()),
        (0, zone(&[(0, 0), (0, 4), (4, 0)]).lay()),
        (3, left_over.lay()),
        (5, below.lay()),
    ]
}

/// The bytes of a chunk of two points, with the number by which document 01 refuses it, 0 for none, and the place among these bytes that
/// document 02 has for it.
const OF_POINTS: [(u32, u64, &[u8]); 22] = [
    (0, 0, &[0, 0, 0, 0]),
    (0, 0, &[0x80, 1, 0xff, 1, 0x7f, 1]),
    (38, 1, &[0]),
    (38, 3, &[0, 0, 0]),
    (38, 2, &[0, 0, 0x80]),
    (38, 2, &[0, 0, 0xff, 0xff, 0xff, 0xff]),
    (39, 2, &[0, 0, 0x80, 0]),
    (39, 0, &[0x80, 0x80, 0x80, 0x80, 0, 0, 0, 0]),
    (40, 2, &[0, 0, 0xff, 0xff, 0xff, 0xff, 0x10]),
    (40, 2, &[0, 0, 0xff, 0xff, 0xff, 0xff, 0x80]),
    // 18,000,000 and 2,147,483,647; both numbers are read before the sum is looked at.
    (41, 5, &[0x80, 0xa2, 0x95, 0x11, 0, 0xfe, 0xff, 0xff, 0xff, 0x0f, 0]),
    (38, 10, &[0x80, 0xa2, 0x95, 0x11, 0, 0xfe, 0xff, 0xff, 0xff, 0x0f]),
    (39, 10, &[0x80, 0xa2, 0x95, 0x11, 0, 0xfe, 0xff, 0xff, 0xff, 0x0f, 0x80, 0]),
    // y alone leaves i32; x stays in i32 and leaves the domain, but y's sum comes first.
    (41, 3, &[0, 2, 0, 0xfe, 0xff, 0xff, 0xff, 0x0f]),
    (41, 6, &[2, 2, 0x80, 0xa2, 0x95, 0x11, 0xfe, 0xff, 0xff, 0xff, 0x0f]),
    (42, 4, &[0x82, 0xa2, 0x95, 0x11, 0, 0, 0]),
    (42, 1, &[0, 0x81, 0xd1, 0xca, 0x08, 0, 0]),
    (42, 6, &[2, 0, 0x80, 0xa2, 0x95, 0x11, 0]),
    (42, 3, &[0, 1, 0, 0xff, 0xd0, 0xca, 0x08]),
    (43, 4, &[0, 0, 0, 0, 0]),
    (43, 4, &[0, 0, 0, 0, 0x80]),
    // A point outside the domain comes before bytes left over.
    (42, 6, &[2, 0, 0x80, 0xa2, 0x95, 0x11, 0, 0]),
];

/// Files whose one chunk has these bytes, with what is said to decoding it.
pub fn chunks() -> Vec<(Placed<()>, Vec<u8>)> {
    let world = [(-18_000_000, -9_000_000), (18_000_000, 9_000_000)].to_vec();
    let with = |(number, place, bytes): (u32, u64, &[u8])| {
        let mut draft = one_zone(Chunks(vec![world.clone()]), usize::MAX, false);
        let points = draft.parts.iter_mut().find(|part| part.typ == POINTS).unwrap();
        points.bytes = bytes.to_vec();
        let file = draft.lay();
        let first = entries(&file).into_iter().find(|entry| entry[0] == POINTS).unwrap()[1];
        let refusal = Refusal { number, place: Some(u64::from(first) + place) };
        (if number == 0 { Ok(()) } else { Err(refusal) }, file)
    };
    OF_POINTS.into_iter().map(with).collect()
}

/// Grids of two cells with one candidate each, on either side of where the shortcut ends. The zone is a point at 0, 0.
pub fn at_the_shortcuts_ends() -> Vec<Vec<u8>> {
    let spans = [(-180, 0, 2, 1), (178, 0, 2, 1), (0, -90, 1, 2), (0, 88, 1, 2)];
    let with = |(lng, lat, columns, rows): (i16, i16, u16, u16)| {
        let mut draft = one_zone(Chunks(vec![vec![(0, 0); 4]]), usize::MAX, true);
        let part = draft.parts.iter_mut().find(|part| part.typ == GRID).unwrap();
        let (words, candidates) = (vec![1 << 28; 2], vec![0]);
        part.bytes = Grid { lng, lat, columns, rows, words, candidates }.bytes();
        draft.lay()
    };
    spans.map(with).to_vec()
}
