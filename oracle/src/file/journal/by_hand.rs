//! Opened records made by hand, over bytes that no file could have: more zones than 65,535, names and zones that cannot be read. What is
//! expected of each is read off document 02.

use super::*;

pub struct ByHand {
    pub what: &'static str,
    pub record: Vec<u8>,
    pub file: Vec<u8>,
    pub expected: Entry,
}

/// The directories in the order of an opened record, with the width of what they hold.
const DIRECTORIES: [(u32, u32); 6] =
    [(TZDIR, 24), (POLYDIR, 24), (RINGDIR, 28), (RINGOPS, 4), (GROUPDIR, 44), (CHUNKDIR, 24)];

/// Where a record has the place of its names, and of its zones with their count.
const NAMES_AT: usize = 4;
const ZONES_AT: usize = 12;
const COUNT_AT: usize = 16;

/// The opened record of a file without GRID.
fn record_of(file: &[u8]) -> Vec<u8> {
    let section = |typ| entries(file).into_iter().find(|entry| entry[0] == typ).unwrap();
    let mut words = vec![word(file, 8)];
    let mut part = |typ, width| {
        let [_, off, len] = section(typ);
        words.extend([off, len / width]);
    };
    part(NAMES, 1);
    DIRECTORIES.into_iter().for_each(|(typ, width)| part(typ, width));
    part(POINTS, 1);
    let mut out: Vec<u8> = words.iter().flat_map(|n| n.to_le_bytes()).collect();
    out.resize(84, 0);
    out
}

/// A record and its bytes: first a file whose one zone is a square round 0, 0, then names of a letter each, then the zones.
struct Hand {
    record: Vec<u8>,
    file: Vec<u8>,
}

/// What is wrong with a zone: its own record cannot be read, its name goes backwards, its name ends past the bytes.
type Wrong = fn(&mut Hand, usize);

impl Hand {
    /// So many zones. Those that are `there` are the square, the others a point far away. Letters go from z down and start anew.
    fn new(count: usize, there: &[usize]) -> Self {
        let corners = [(-9, -9), (9, -9), (9, 9), (-9, 9), (-9, -9)];
        let mut file = one_zone(Chunks(vec![corners.to_vec()]), usize::MAX, false).lay();
        let mut record = record_of(&file);
        let own = word(&record, ZONES_AT) as usize;
        let square = file[own..own + 24].to_vec();
        let mut away = square.clone();
        [17, 8, 17, 8]
            .iter()
            .enumerate()
            .for_each(|(i, n)| put(&mut away, 8 + 4 * i, n * 1_000_000));
        file.resize(file.len().next_multiple_of(4), 0);
        put(&mut record, NAMES_AT, file.len() as u32);
        let letters: Vec<Vec<u8>> = (0..count).map(|i| vec![b'z' - (i % 26) as u8]).collect();
        file.extend(names(&[], &letters));
        put(&mut record, ZONES_AT, file.len() as u32);
        put(&mut record, COUNT_AT, count as u32);
        (0..count).for_each(|i| file.extend(if there.contains(&i) { &square } else { &away }));
        Self { record, file }
    }

    /// Where a zone's name starts is told here, and behind it where it ends.
    fn name_at(&self, zone: usize) -> usize {
        word(&self.record, NAMES_AT) as usize + 4 + 4 * zone
    }

    fn zone_without_polygons(&mut self, zone: usize) {
        let at = word(&self.record, ZONES_AT) as usize + 24 * zone;
        self.file[at + 4..at + 6].fill(0);
    }

    fn name_backwards(&mut self, zone: usize) {
        let at = self.name_at(zone) + 4;
        put(&mut self.file, at, 0);
    }

    fn name_past_the_bytes(&mut self, zone: usize) {
        let at = self.name_at(zone) + 4;
        put(&mut self.file, at, u32::MAX);
    }

    /// Every name is the same letter.
    fn alike(&mut self, _: usize) {
        let (start, end) = (word(&self.record, NAMES_AT), word(&self.record, ZONES_AT));
        let count = word(&self.record, COUNT_AT);
        self.file[(start + 8 + 4 * count) as usize..end as usize].fill(b'a');
    }

    /// The record tells of more zones than stand in the bytes.
    fn one_zone_more(&mut self, _: usize) {
        let count = word(&self.record, COUNT_AT);
        put(&mut self.record, COUNT_AT, count + 1);
    }

    fn most_zones(&mut self, _: usize) {
        put(&mut self.record, COUNT_AT, u32::MAX);
    }
}

const BARE: Wrong = Hand::zone_without_polygons;
const BACK: Wrong = Hand::name_backwards;
const PAST: Wrong = Hand::name_past_the_bytes;

/// What it is, which zones are there, what is wrong with which, and what is expected at 0, 0.
type Case =
    (&'static str, &'static [usize], &'static [(Wrong, usize)], Result<&'static [u32], u32>);

/// Of five zones.
const FIVE: [Case; 21] = [
    ("no zone", &[], &[], Ok(&[])),
    ("by their names", &[1, 3, 4], &[], Ok(&[4, 3, 1])),
    ("equal names", &[1, 3, 4], &[(Hand::alike, 0)], Ok(&[1, 3, 4])),
    ("four zones", &[0, 1, 2, 3], &[], Err(46)),
    ("every zone", &[0, 1, 2, 3, 4], &[], Err(46)),
    ("a name backwards", &[1, 3], &[(BACK, 3)], Err(23)),
    ("a name past the bytes", &[1, 3], &[(PAST, 1)], Err(44)),
    ("of two such names the first zone's", &[1, 3], &[(BACK, 3), (PAST, 1)], Err(44)),
    (
        "of two such names the first zone's, the other way",
        &[1, 3],
        &[(PAST, 3), (BACK, 1)],
        Err(23),
    ),
    ("such a name of a zone that is not there", &[0, 4], &[(BACK, 2)], Ok(&[4, 0])),
    ("such a name of a fourth zone", &[0, 1, 2, 4], &[(BACK, 4)], Err(23)),
    ("such a name of the first of four", &[1, 2, 3, 4], &[(PAST, 1)], Err(44)),
    ("the first zone cannot be read", &[1, 3], &[(BARE, 0)], Err(34)),
    ("the last zone cannot be read", &[1, 3], &[(BARE, 4)], Err(34)),
    ("the last of four cannot be read", &[0, 1, 2, 4], &[(BARE, 4)], Err(34)),
    ("a test before a name", &[1, 3], &[(BACK, 1), (BARE, 4)], Err(34)),
    ("a zone past the bytes", &[1, 3], &[(Hand::one_zone_more, 0)], Err(44)),
    ("a zone past the bytes, and none there", &[], &[(Hand::most_zones, 0)], Err(44)),
    ("a zone past the bytes, four there", &[0, 1, 2, 3], &[(Hand::most_zones, 0)], Err(44)),
    (
        "a zone past the bytes, behind one of no polygons",
        &[],
        &[(Hand::most_zones, 0), (BARE, 2)],
        Err(34),
    ),
    ("a zone past the bytes, before a name", &[1], &[(BACK, 1), (Hand::one_zone_more, 0)], Err(44)),
];

/// Of 65,540 zones: more than a file can have.
const MANY: [Case; 12] = [
    ("the greatest zone that an entry holds", &[65_534], &[], Ok(&[65_534])),
    ("three, by their names", &[0, 65_533, 65_534], &[], Ok(&[65_534, 65_533, 0])),
    ("the least zone that none holds", &[65_535], &[], Err(45)),
    ("such a zone beside another", &[0, 65_536], &[], Err(45)),
    ("such a zone beside two", &[0, 1, 65_539], &[], Err(45)),
    ("four, one of them such a zone", &[0, 1, 2, 65_535], &[], Err(46)),
    ("four such zones", &[65_535, 65_536, 65_537, 65_539], &[], Err(46)),
    ("such a zone, its name backwards", &[65_535], &[(BACK, 65_535)], Err(23)),
    ("such a zone, its name past the bytes", &[65_539], &[(PAST, 65_539)], Err(44)),
    ("such a zone, the last cannot be read", &[65_535], &[(BARE, 65_539)], Err(34)),
    ("such a zone, one more past the bytes", &[65_535], &[(Hand::one_zone_more, 0)], Err(44)),
    ("none, and a name backwards", &[], &[(BACK, 65_535)], Ok(&[])),
];

/// Each at 0, 0, and at a point outside the domain, which has no zones whatever the record says.
pub fn by_hand() -> Vec<ByHand> {
    let mut out = Vec::new();
    for (count, cases) in [(5, &FIVE[..]), (65_540, &MANY)] {
        for &(what, there, wrong, expected) in cases {
            let mut hand = Hand::new(count, there);
            wrong.iter().for_each(|&(change, zone)| change(&mut hand, zone));
            let Hand { record, file } = hand;
            let outside = if count == 5 { (EAST + 1, 0) } else { (0, i32::MIN) };
            for expected in [super::expected((0, 0), expected), super::expected(outside, Ok(&[]))] {
                let (record, file) = (record.clone(), file.clone());
                out.push(ByHand { what, record, file, expected });
            }
        }
    }
    out
}
