//! The fields of a file's bytes, each with a name, so that damage can aim.

use super::*;

#[derive(Clone, Copy, Debug)]
pub struct Field {
    pub what: &'static str,
    pub at: usize,
    pub width: usize,
}

const HEADER: [(&str, usize, usize); 16] = [
    ("magic", 0, 4),
    ("major", 4, 1),
    ("minor (unread)", 5, 1),
    ("header size", 6, 2),
    ("flags", 8, 4),
    ("scale", 12, 4),
    ("size", 16, 4),
    ("section count", 20, 4),
    ("version, first byte", 24, 1),
    ("version, second byte", 25, 1),
    ("version, in the middle", 30, 1),
    ("version, last byte", 39, 1),
    ("zone count", 40, 4),
    ("chunk target", 44, 4),
    ("profile", 48, 1),
    ("reserved (unread)", 49, 1),
];

/// A record's fields: name, place in the record, width. The first entry is the record's own width.
type Record = (usize, &'static [(&'static str, usize, usize)]);

const BOX: usize = 16;

const NEXT_AND_BOX: Record = (
    8 + BOX,
    &[
        ("first or offset", 0, 4),
        ("count", 4, 2),
        ("two unread bytes", 6, 2),
        ("box, least x", 8, 4),
        ("box, least y", 12, 4),
        ("box, greatest x", 16, 4),
        ("box, greatest y", 20, 4),
    ],
);

const RING: Record = (
    12 + BOX,
    &[
        ("ring, first", 0, 4),
        ("ring, point count", 4, 4),
        ("ring, count", 8, 2),
        ("ring, box", 12, 4),
        ("ring, box", 24, 4),
    ],
);

const GROUP: Record = (
    28 + BOX,
    &[
        ("group, first", 0, 4),
        ("group, point count", 4, 4),
        ("group, count", 8, 2),
        ("group, two unread bytes", 10, 2),
        ("group, entry x", 12, 4),
        ("group, entry y", 16, 4),
        ("group, exit x", 20, 4),
        ("group, exit y", 24, 4),
        ("group, box, least x", 28, 4),
        ("group, box, least y", 32, 4),
        ("group, box, greatest x", 36, 4),
        ("group, box, greatest y", 40, 4),
    ],
);

const OP: Record = (4, &[("ring op", 0, 4)]);
const BYTE: Record = (1, &[("a byte of text or points", 0, 1)]);
const OFFSET: Record = (4, &[("NAMES, offset", 0, 4)]);
const CELL: Record = (4, &[("GRID word", 0, 4)]);
const CANDIDATE: Record = (2, &[("GRID candidate", 0, 2)]);
const NAMES_HEAD: Record = (4, &[("NAMES, blob length", 0, 4)]);

const GRID_HEAD: Record = (
    12,
    &[
        ("GRID, first longitude", 0, 2),
        ("GRID, first latitude", 2, 2),
        ("GRID, columns", 4, 2),
        ("GRID, rows", 6, 2),
        ("GRID, candidate total", 8, 4),
    ],
);

const ENTRY: Record = (
    16,
    &[
        ("section type", 0, 4),
        ("section offset", 4, 4),
        ("section length", 8, 4),
        ("section entry, unread", 12, 4),
    ],
);

/// The fields of the records that fill a part of the file, as far as they lie before the sum.
fn records(out: &mut Vec<Field>, file: &[u8], from: usize, to: usize, record: Record) {
    let (size, fields) = record;
    let to = to.min(file.len() - 4);
    for start in (from..to).step_by(size) {
        for &(what, offset, width) in fields {
            if start + offset + width <= to {
                out.push(Field { what, at: start + offset, width });
            }
        }
    }
}

/// Every field of a file that is at least a header and a sum.
pub fn all(file: &[u8]) -> Vec<Field> {
    let mut out: Vec<Field> = HEADER.map(|(what, at, width)| Field { what, at, width }).to_vec();
    let entries = entries(file);
    records(&mut out, file, 64, 64 + 16 * entries.len(), ENTRY);
    let zones = word(file, 40) as usize;
    for [typ, off, len] in entries {
        let (off, end) = (off as usize, off as usize + len as usize);
        match typ {
            NAMES => {
                let blob = off + 8 + 4 * zones.min(100);
                records(&mut out, file, off, off + 4, NAMES_HEAD);
                records(&mut out, file, off + 4, blob, OFFSET);
                records(&mut out, file, blob, end, BYTE);
            }
            TZDIR | POLYDIR | CHUNKDIR => records(&mut out, file, off, end, NEXT_AND_BOX),
            RINGDIR => records(&mut out, file, off, end, RING),
            RINGOPS => records(&mut out, file, off, end, OP),
            GROUPDIR => records(&mut out, file, off, end, GROUP),
            GRID => grid(&mut out, file, off, end),
            _ => records(&mut out, file, off, end, BYTE),
        }
    }
    out
}

fn grid(out: &mut Vec<Field>, file: &[u8], off: usize, end: usize) {
    records(out, file, off, end.min(off + 12), GRID_HEAD);
    if off + 12 > file.len() {
        return;
    }
    let [columns, rows] = [4, 6].map(|i| usize::from(file[off + i]) % 16);
    let words = off + 12 + 4 * columns * rows;
    records(out, file, off + 12, words, CELL);
    records(out, file, words, end, CANDIDATE);
}
