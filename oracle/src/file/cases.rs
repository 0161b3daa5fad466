//! Small files that break one clause of document 01's opening each, with its number: at the bound, and just past it on either side.

use super::examples::{least, least_with, plain};
use super::*;

/// A refusal, a field's place, its width, and the value that breaks the rule.
type Break = (u32, usize, usize, i64);

/// In a file without sections whose version is "a".
const HEADER: [Break; 27] = [
    (2, 0, 1, 0x53),
    (2, 3, 1, 0x62),
    (2, 4, 1, 0),
    (2, 4, 1, 2),
    (3, 48, 1, 1),
    (3, 48, 2, 0xff01),
    (4, 48, 1, 2),
    (4, 48, 1, 255),
    (5, 6, 2, 63),
    (5, 6, 2, 65),
    (5, 12, 4, 99_999),
    (5, 12, 4, 100_001),
    (5, 16, 4, 67),
    (5, 16, 4, 69),
    (6, 40, 4, 0),
    (6, 40, 4, 65_536),
    (7, 44, 4, 0),
    (7, 44, 4, 65_536),
    (8, 24, 2, 0x6100),
    (8, 26, 1, 1),
    (8, 39, 1, 1),
    (9, 24, 1, 0x80),
    (9, 24, 2, 0x80c0),
    (10, 20, 4, 1),
    (10, 20, 4, 0xffff_ffff),
    (17, 40, 4, 65_535),
    (17, 44, 4, 65_535),
];

/// In the first of two entries of a file whose sections stand at 96 (five bytes) and 104 (none). It has 108 bytes.
const ENTRY: [Break; 12] = [
    (12, 68, 4, 97),
    (12, 68, 4, 98),
    (13, 68, 4, 92),
    (13, 68, 4, 0),
    (13, 72, 4, 9),
    (13, 68, 4, 0xffff_fffc),
    (13, 72, 4, 0xffff_ffff),
    (15, 64, 4, 11),
    (15, 64, 4, 12),
    (15, 64, 4, 13),
    (15, 80, 4, 14),
    (17, 72, 4, 8),
];

/// In the second of two entries, both of four bytes, at 96 and 100.
const TWO: [Break; 5] =
    [(16, 84, 4, 96), (16, 68, 4, 100), (16, 72, 4, 5), (16, 72, 4, 8), (17, 72, 4, 0)];

/// In NAMES of two zones, "A" and "BC".
const OF_NAMES: [Break; 12] = [
    (22, 0, 4, 2),
    (22, 0, 4, 4),
    (22, 0, 4, 0xffff_ffff),
    (23, 8, 4, 4),
    (23, 12, 4, 2),
    (23, 12, 4, 4),
    (24, 8, 4, 0),
    (24, 8, 4, 3),
    (25, 16, 1, 0x80),
    (25, 18, 1, 0xc3),
    (26, 16, 1, 0),
    (26, 18, 1, 0),
];

/// In a GRID of one cell at 0, 0 with one candidate.
const OF_GRID: [Break; 17] = [
    (28, 0, 2, -182),
    (28, 0, 2, 181),
    (28, 2, 2, -92),
    (28, 2, 2, 91),
    (28, 4, 2, 0),
    (28, 6, 2, 0),
    (28, 4, 2, 183),
    (28, 6, 2, 93),
    (28, 8, 4, 0x1000_0000),
    (29, 4, 2, 182),
    (29, 6, 2, 92),
    (29, 8, 4, 0),
    (29, 8, 4, 2),
    (30, 12, 4, 0x1000_0001),
    (30, 12, 4, 2),
    (30, 12, 4, 0x2000_0000),
    (31, 16, 2, 1),
];

const OF_CHUNK: [Break; 8] = [
    (34, 8, 4, -18_000_001),
    (34, 12, 4, -9_000_001),
    (34, 16, 4, 18_000_001),
    (34, 20, 4, 9_000_001),
    (34, 8, 4, 1),
    (34, 12, 4, 1),
    (32, 4, 2, 0),
    (32, 0, 4, 1),
];

const OF_GROUP: [Break; 22] = [
    (34, 0, 4, 1),
    (34, 0, 4, 0xffff_ffff),
    (34, 8, 2, 0),
    (34, 8, 2, 2),
    (34, 12, 4, -18_000_001),
    (34, 12, 4, 18_000_001),
    (34, 16, 4, -9_000_001),
    (34, 16, 4, 9_000_001),
    (34, 20, 4, -18_000_001),
    (34, 20, 4, 18_000_001),
    (34, 24, 4, -9_000_001),
    (34, 24, 4, 9_000_001),
    (34, 28, 4, -18_000_001),
    (34, 32, 4, -9_000_001),
    (34, 36, 4, 18_000_001),
    (34, 40, 4, 9_000_001),
    (34, 28, 4, 1),
    (34, 32, 4, 1),
    (33, 4, 4, 3),
    (33, 4, 4, 1),
    (33, 4, 4, 0),
    (33, 4, 4, 0x0001_0002),
];

fn part(typ: u32, length: usize) -> Part {
    Part { typ, bytes: vec![0; length], gap: 0 }
}

/// A file with fields broken from `at` on, one in each.
fn broken(out: &mut Vec<(u32, Vec<u8>)>, file: &[u8], at: usize, breaks: &[Break]) {
    for &(number, place, width, value) in breaks {
        let mut with = file.to_vec();
        let place = at + place;
        with[place..place + width].copy_from_slice(&value.to_le_bytes()[..width]);
        repair(&mut with);
        out.push((number, with));
    }
}

/// Where a section of the draft's file stands, and its entry.
fn place(file: &[u8], typ: u32) -> (usize, usize) {
    let i = entries(file).iter().position(|entry| entry[0] == typ).unwrap();
    (entries(file)[i][1] as usize, 64 + 16 * i)
}

pub fn cases() -> Vec<(u32, Vec<u8>)> {
    let mut out = head();
    table(&mut out);
    directories(&mut out);
    names_cases(&mut out);
    grid_cases(&mut out);
    let file = least(false).lay();
    broken(&mut out, &file, place(&file, CHUNKDIR).0, &OF_CHUNK);
    broken(&mut out, &file, place(&file, GROUPDIR).0, &OF_GROUP);
    chunks_in_order(&mut out);
    out
}

fn head() -> Vec<(u32, Vec<u8>)> {
    let bare = plain(Vec::new());
    let mut out = vec![(1, Vec::new()), (1, bare[..67].to_vec())];
    broken(&mut out, &bare, 0, &HEADER);
    for (place, change) in [(5, 1), (63, 128), (64, 1), (67, 128)] {
        let mut with = bare.clone();
        with[place] ^= change;
        out.push((11, with));
    }
    out
}

fn table(out: &mut Vec<(u32, Vec<u8>)>) {
    broken(out, &plain(vec![part(0, 5), part(0, 0)]), 0, &ENTRY);
    broken(out, &plain(vec![part(0, 4), part(0, 4)]), 0, &TWO);
    // The table reaches into the sum.
    let mut short = plain(vec![part(0, 0)]);
    short.truncate(83);
    seal(&mut short);
    out.push((10, short));
    for typ in [1, 9, 10] {
        out.push((14, plain(vec![part(typ, 0), part(typ, 0)])));
    }
    out.push((15, with_type_11()));
    out.push((17, plain(vec![part(0, 0), part(15, 0), part(15, 0)])));
    // An empty section strictly inside another: the original says 16.
    let mut inside = plain(vec![part(0, 5), part(0, 0)]);
    put(&mut inside, 84, 100);
    repair(&mut inside);
    out.push((17, inside));
}

/// The original opens it.
fn with_type_11() -> Vec<u8> {
    let mut draft = least(false);
    draft.order.push(draft.parts.len());
    draft.parts.push(part(11, 0));
    draft.lay()
}

const MANDATORY: [u32; 8] = [NAMES, TZDIR, POLYDIR, RINGDIR, RINGOPS, GROUPDIR, CHUNKDIR, POINTS];

fn directories(out: &mut Vec<(u32, Vec<u8>)>) {
    let with = |lengths: &[(u32, usize)]| {
        let length = |typ| lengths.iter().find(|(t, _)| *t == typ).map_or(0, |(_, n)| *n);
        MANDATORY.map(|typ| part(typ, length(typ))).to_vec()
    };
    for typ in MANDATORY {
        let others = MANDATORY.into_iter().filter(|&other| other != typ);
        out.push((17, plain(others.map(|typ| part(typ, 0)).collect())));
    }
    let flags = |parts: Vec<Part>, flags| Draft { flags, ..Draft::new(1, parts) }.lay();
    let mut grid = with(&[]);
    grid.push(part(GRID, 0));
    out.extend([1, 0xffff_ffff].map(|n| (18, flags(with(&[]), n))));
    out.extend([0, 2].map(|n| (18, flags(grid.clone(), n))));
    out.push((19, plain(with(&[]))));
    out.push((19, plain(with(&[(TZDIR, 23)]))));
    out.push((19, plain(with(&[(TZDIR, 48)]))));
    for (typ, length) in
        [(POLYDIR, 12), (CHUNKDIR, 28), (RINGDIR, 24), (RINGOPS, 2), (GROUPDIR, 28)]
    {
        out.push((19, plain(with(&[(TZDIR, 24), (typ, length)]))));
    }
    let full = [(TZDIR, 24), (POLYDIR, 24), (RINGDIR, 28), (RINGOPS, 4), (GROUPDIR, 44)];
    let full: Vec<(u32, usize)> = full.into_iter().chain([(CHUNKDIR, 24)]).collect();
    for empty in &full[1..] {
        let others: Vec<_> = full.iter().copied().filter(|one| one != empty).collect();
        out.push((20, plain(with(&others))));
    }
    out.push((21, plain(with(&full))));
    let short = |length| with(&[&full[..], &[(NAMES, length)]].concat());
    out.push((21, plain(short(11))));
    // Both offsets are 0, and so is the blob's length.
    out.push((24, plain(short(12))));
}

fn names_cases(out: &mut Vec<(u32, Vec<u8>)>) {
    let file = least_with(2, &[b"A", b"BC"]).lay();
    let at = place(&file, NAMES).0;
    broken(out, &file, at, &OF_NAMES);
    // The first two offsets are alike, but already the first is past the blob.
    let mut past = file.clone();
    put(&mut past, at + 4, 4);
    put(&mut past, at + 8, 4);
    repair(&mut past);
    out.push((23, past));
    // The second is below the first, and the last is right.
    let mut below = file.clone();
    put(&mut below, at + 4, 2);
    repair(&mut below);
    out.push((23, below));
}

fn grid_cases(out: &mut Vec<(u32, Vec<u8>)>) {
    let file = least(true).lay();
    let (at, entry) = place(&file, GRID);
    broken(out, &file, at, &OF_GRID);
    broken(out, &file, entry + 8, &[(27, 0, 4, 0), (27, 0, 4, 11), (29, 0, 4, 12)]);
    out.push((30, marked(4).lay()));
    let mut second = marked(5).lay();
    let at = place(&second, GRID).0;
    second[at + 12 + 4 + 2 * 4] = 1;
    repair(&mut second);
    out.push((31, second));
}

/// Two chunks whose offsets are alike, or go down.
fn chunks_in_order(out: &mut Vec<(u32, Vec<u8>)>) {
    let two = Chunks(vec![vec![(0, 0)], vec![(1, 1)]]);
    let file = examples::one_zone(two, usize::MAX, false).lay();
    let at = place(&file, CHUNKDIR).0;
    broken(out, &file, at, &[(32, 0, 4, 2), (32, 0, 4, 3), (32, 24, 4, 4), (34, 32, 4, 2)]);
}
