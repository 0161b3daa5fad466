//! Chunks whose refusals and places are read off document 02 by hand, each asked in every way that can meet it.

use crate::file::{CHUNKDIR, Chunks, Op, POINTS, Shape, entries, put, striped};
use crate::rules::{Placed, Refusal};
use crate::voice::Question;

/// A file that opens, and for each of the bytes that its record is asked with the questions, with what is said.
pub struct Case {
    pub file: Vec<u8>,
    pub with: Vec<(Vec<u8>, Vec<Told>)>,
}

/// What is refused by hand, or that nothing is.
pub type Told = (Question, Placed<()>);

/// The refusal, which of the chunk's numbers it names, where that starts among the chunk's bytes, how many points the chunk says it has,
/// and its bytes.
type Row = (u32, usize, u64, u16, &'static [u8]);

/// No byte is left for y, x and y, the last x and the last y; nor for y of a chunk of one point.
const MISSING: [Row; 6] = [
    (38, 1, 1, 3, &[2]),
    (38, 2, 2, 3, &[2, 4]),
    (38, 3, 4, 3, &[2, 4, 0x80, 1]),
    (38, 4, 4, 3, &[2, 4, 6, 8]),
    (38, 5, 7, 3, &[2, 4, 6, 8, 0x80, 0x80, 1]),
    (38, 1, 1, 1, &[0]),
];

/// The bytes end within a number, after one to four of its own.
const CUT: [Row; 8] = [
    (38, 0, 0, 3, &[0x80]),
    (38, 0, 0, 1, &[0xff, 0xff, 0xff, 0xff]),
    (38, 1, 1, 3, &[2, 0x81, 0x80]),
    (38, 2, 3, 3, &[0x80, 1, 4, 0x80, 0x80, 0x80]),
    (38, 3, 3, 3, &[2, 4, 6, 0x80, 0x80, 0x80, 0x80]),
    (38, 4, 4, 3, &[2, 4, 6, 8, 0xff]),
    (38, 5, 5, 3, &[2, 4, 6, 8, 1, 0x80, 0x80]),
    (38, 1, 2, 1, &[0xff, 1, 0xff]),
];

/// A number of two to five bytes whose last is 0, with numbers behind it or not.
const LONG: [Row; 7] = [
    (39, 0, 0, 3, &[0x80, 0, 4, 6, 8, 2, 2]),
    (39, 1, 1, 3, &[2, 0x80, 0x80, 0]),
    (39, 2, 3, 3, &[2, 0x80, 1, 0xff, 0xff, 0xff, 0, 8, 2, 2]),
    (39, 3, 3, 3, &[2, 4, 6, 0x80, 0x80, 0x80, 0x80, 0, 2, 2]),
    (39, 4, 4, 3, &[2, 4, 6, 8, 0x81, 0, 0]),
    (39, 5, 5, 3, &[2, 4, 6, 8, 2, 0x80, 0x80, 0]),
    (39, 0, 0, 1, &[0x80, 0x80, 0x80, 0x80, 0, 0]),
];

/// A fifth byte that has more than four bits.
const WIDE: [Row; 7] = [
    (40, 0, 0, 3, &[0x80, 0x80, 0x80, 0x80, 0x10, 4, 6, 8, 2, 2]),
    (40, 1, 1, 3, &[2, 0xff, 0xff, 0xff, 0xff, 0x80]),
    (40, 2, 2, 3, &[2, 4, 0xff, 0xff, 0xff, 0xff, 0xff, 8, 2, 2]),
    (40, 3, 4, 3, &[2, 4, 0x80, 1, 0x80, 0x80, 0x80, 0x80, 0x70, 2, 2]),
    (40, 4, 4, 3, &[2, 4, 6, 8, 0x80, 0x80, 0x80, 0x80, 0x1f, 2]),
    (40, 5, 5, 3, &[2, 4, 6, 8, 2, 0xff, 0xff, 0xff, 0xff, 0x8f]),
    (40, 1, 1, 1, &[0, 0x80, 0x80, 0x80, 0x80, 0xf0]),
];

/// 1 and 2,147,483,647 have no sum in i32, nor have -1 and -2,147,483,648: of x, of y, of both; of the last point. 2,147,483,647 is one: then
/// x alone is outside the domain, and y is looked at before that. Both numbers are read before either sum is looked at.
const SUM: [Row; 8] = [
    (41, 2, 2, 3, &[2, 4, 0xfe, 0xff, 0xff, 0xff, 0x0f, 8, 2, 2]),
    (41, 3, 4, 3, &[2, 2, 0x80, 1, 0xfe, 0xff, 0xff, 0xff, 0x0f, 2, 2]),
    (41, 2, 2, 3, &[1, 1, 0xff, 0xff, 0xff, 0xff, 0x0f, 0xff, 0xff, 0xff, 0xff, 0x0f]),
    (41, 4, 4, 3, &[2, 4, 0, 0, 0xfe, 0xff, 0xff, 0xff, 0x0f, 0]),
    (41, 5, 5, 3, &[1, 1, 0, 0, 0, 0xff, 0xff, 0xff, 0xff, 0x0f]),
    (41, 3, 7, 2, &[2, 2, 0xfc, 0xff, 0xff, 0xff, 0x0f, 0xfe, 0xff, 0xff, 0xff, 0x0f]),
    (38, 3, 7, 3, &[2, 4, 0xfe, 0xff, 0xff, 0xff, 0x0f]),
    (39, 3, 7, 3, &[2, 4, 0xfe, 0xff, 0xff, 0xff, 0x0f, 0x80, 0]),
];

/// 18,000,001 and 9,000,001, and with a minus: x alone, y alone and both, of the first point, a later one and the last. It is y that is named.
const OUTSIDE: [Row; 10] = [
    (42, 1, 4, 3, &[0x82, 0xa2, 0x95, 0x11, 4, 6, 8, 2, 2]),
    (42, 1, 1, 3, &[2, 0x82, 0xd1, 0xca, 0x08, 6, 8, 2, 2]),
    (42, 1, 4, 1, &[0x81, 0xa2, 0x95, 0x11, 0x81, 0xd1, 0xca, 0x08]),
    (42, 1, 4, 1, &[0x82, 0xa2, 0x95, 0x11, 0x80, 1]),
    (42, 3, 6, 3, &[2, 0, 0x80, 0xa2, 0x95, 0x11, 0, 2, 2]),
    (42, 3, 4, 3, &[0, 1, 0x80, 1, 0xff, 0xd0, 0xca, 0x08, 2, 2]),
    (42, 3, 6, 3, &[2, 2, 0x80, 0xa2, 0x95, 0x11, 0x80, 0xd1, 0xca, 0x08]),
    (42, 5, 8, 3, &[0, 0, 2, 0, 0x80, 0xa2, 0x95, 0x11, 0x80, 0x80, 1]),
    (42, 5, 5, 3, &[0, 0, 0, 1, 2, 0xff, 0xd0, 0xca, 0x08]),
    (42, 3, 7, 2, &[2, 2, 0xfc, 0xff, 0xff, 0xff, 0x0f, 0, 0]),
];

/// Bytes behind the last point: one and many, a number and none.
const OVER: [Row; 5] = [
    (43, 2, 2, 1, &[0, 0, 0]),
    (43, 2, 2, 1, &[2, 4, 0x80]),
    (43, 4, 5, 2, &[2, 4, 0x80, 1, 8, 2, 2]),
    (43, 6, 6, 3, &[2, 4, 6, 8, 2, 2, 0x80, 0]),
    (43, 6, 7, 3, &[2, 4, 6, 8, 2, 0x80, 1, 1, 2, 3, 4, 5, 6, 7, 8, 9, 10]),
];

fn rows() -> Vec<Row> {
    [&MISSING[..], &CUT, &LONG, &WIDE, &SUM, &OUTSIDE, &OVER].concat()
}

/// So many bytes all points take.
const LENGTH: usize = 32;
/// By so much every box but the chunks' is greater than it need be.
const WIDER: i32 = 40_000_000;

/// A zone of one group of these chunks, of a point each. Their boxes lie above each other, 10 wide, 10 high and 10 apart.
fn file(chunks: usize) -> Vec<u8> {
    let mut shape = Shape::with_slack(WIDER);
    let group = shape.add_group(Chunks(vec![vec![(0, 0)]; chunks]));
    shape.zones.push(vec![vec![vec![Op { group, turned: false }]]]);
    let mut draft = striped::named(&shape);
    draft.version = Vec::new();
    for part in &mut draft.parts {
        match part.typ {
            CHUNKDIR => {
                for i in 0..chunks {
                    let low = 20 * i as u32;
                    let words = [0, low, 10, low + 10];
                    (0..4).for_each(|j| put(&mut part.bytes, 24 * i + 8 + 4 * j, words[j]));
                }
            }
            POINTS => part.bytes.resize(LENGTH, 0),
            _ => {}
        }
    }
    draft.lay()
}

fn start(file: &[u8], typ: u32) -> usize {
    entries(file).into_iter().find(|entry| entry[0] == typ).unwrap()[1] as usize
}

/// The file's bytes with a chunk of a row at an offset of its points.
fn lent(file: &[u8], chunk: usize, offset: usize, row: Row) -> Vec<u8> {
    let (.., count, bytes) = row;
    let (records, points) = (start(file, CHUNKDIR), start(file, POINTS));
    let mut out = file.to_vec();
    put(&mut out, records + 24 * chunk, offset as u32);
    out[records + 24 * chunk + 4..][..2].copy_from_slice(&count.to_le_bytes());
    out[points + offset..][..bytes.len()].copy_from_slice(bytes);
    out
}

fn refusal(file: &[u8], offset: usize, (number, _, place, ..): Row) -> Placed<()> {
    Err(Refusal { number, place: Some((start(file, POINTS) + offset) as u64 + place) })
}

/// Every question of a walk at a point.
fn at((x, y): (i32, i32), said: Placed<()>) -> [Told; 3] {
    let [lng, lat] = [x, y].map(|n| f64::from(n) / 100_000.0);
    let all = [
        Question::Contains(0, x, y),
        Question::Lookup(lng, lat),
        Question::LookupInto(lng, lat, 4),
    ];
    all.map(|question| (question, said))
}

/// The chunk alone, at the end of the points: it ends where they do. Every other time no byte is lent behind them.
fn alone() -> Case {
    let file = file(1);
    let end = start(&file, POINTS) + LENGTH;
    let with = |(i, row): (usize, Row)| {
        let offset = LENGTH - row.4.len();
        let mut lent = lent(&file, 0, offset, row);
        lent.truncate(if i % 2 == 0 { end } else { lent.len() });
        let said = refusal(&file, offset, row);
        let decode = (Question::Decode(0, 64), said);
        (lent, [vec![decode], at((5, 5), said).to_vec()].concat())
    };
    let with = rows().into_iter().enumerate().map(with).collect();
    Case { file, with }
}

/// The second of three chunks. At its own height it is scanned, or its first point is read alone; at the first one's height that point is
/// read as the next chunk's, after a scan or not. A number behind the first point is met by the scan alone.
fn between() -> Case {
    let file = file(3);
    let records = start(&file, CHUNKDIR);
    let with = |row: Row| {
        let offset = 2;
        let mut lent = lent(&file, 1, offset, row);
        put(&mut lent, records + 48, (offset + row.4.len()) as u32);
        let said = refusal(&file, offset, row);
        let of_first = if row.1 < 2 { said } else { Ok(()) };
        let mut all = vec![(Question::Decode(1, 64), said)];
        all.extend(at((5, 25), said));
        all.extend([(-5, 25), (5, 5), (-5, 5)].into_iter().flat_map(|point| at(point, of_first)));
        (lent, all)
    };
    let with = rows().into_iter().map(with).collect();
    Case { file, with }
}

pub fn cases() -> [Case; 2] {
    [alone(), between()]
}
