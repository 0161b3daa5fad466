//! The inputs of a run. Each is made from the seed and its number alone.

use crate::bytes::{self, hex};
use crate::file::damage::{Aim, TELLING};
use crate::file::striped::{self, numbers};
use crate::file::{self, put, repair, seal, word};
use crate::port;
use crate::random::Random;
use crate::rules;
use crate::scene::{self, Scene};
use std::fmt;
use std::ops::Range;

/// The kinds of lent files, in the order of `Kind`.
pub const KINDS: [&str; 8] = [
    "random bytes",
    "random bytes behind a right head",
    "a right head and table, random sections",
    "a valid file, damaged in one to five places, its sum repaired",
    "a valid file, damaged in one to five places, its sum not",
    "a valid file, damaged in its head and in up to four places more",
    "a valid file, cut",
    "a valid file as it is",
];

#[derive(Clone, Copy, PartialEq)]
pub enum Kind {
    Random,
    Head,
    Table,
    Repaired,
    Damaged,
    Beheaded,
    Cut,
    Valid,
}

/// Of a thousand inputs. Where opening gets as far as the sum it makes its table first, and a run would take too long if all did.
/// Questions with a record do not look at the sum: there every kind goes as far as the record and the bytes let it.
const MIX: [(usize, Kind); 8] = [
    (250, Kind::Random),
    (20, Kind::Head),
    (20, Kind::Table),
    (60, Kind::Repaired),
    (20, Kind::Damaged),
    (400, Kind::Beheaded),
    (220, Kind::Cut),
    (10, Kind::Valid),
];

fn some_kind(random: &mut Random) -> Kind {
    let mut left = random.below(1000);
    for (count, kind) in MIX {
        if left < count {
            return kind;
        }
        left -= count;
    }
    unreachable!("the mix is a thousand")
}

/// Everything that the exports are called with.
pub struct Input {
    pub kind: Kind,
    pub file: Vec<u8>,
    /// The record that questions are asked with. None: the one that opening writes, if it does.
    pub record: Option<Vec<u8>>,
    /// The numbers of stripes that questions are asked with. None: those that building writes, if it does.
    pub numbers: Option<Vec<u32>>,
    /// Bytes for a number, a sum and a text, and a place there.
    pub part: Vec<u8>,
    pub at: usize,
    pub zone: u32,
    pub chunk: u32,
    pub place: u32,
    /// A position in degrees.
    pub lng: f64,
    pub lat: f64,
    /// A point of whole numbers.
    pub x: i32,
    pub y: i32,
    pub scene: Scene,
    pub journal: Journal,
    /// How much is lent for a record, in bytes; for points and zones, in numbers.
    pub rooms: [usize; 3],
    /// Of the file, the record, the part, the three rooms and the numbers: whether it ends where its pages end. Else it starts where they
    /// start.
    pub at_end: [bool; 7],
    /// What lent memory holds before a call.
    pub guard: u64,
}

/// What a journal's exports are called with.
#[derive(Debug)]
pub struct Journal {
    pub places: u32,
    /// The zones that are to be written, and the reason.
    pub zones: Vec<u32>,
    pub reason: u32,
    /// The bytes that are to be read. None: the entry that was written last, if one was.
    pub bytes: Option<Vec<u8>>,
    /// How much is lent for an entry, in bytes; for a position and for zones, in numbers.
    pub rooms: [usize; 3],
}

impl fmt::Debug for Input {
    fn fmt(&self, f: &mut fmt::Formatter<'_>) -> fmt::Result {
        let Self { zone, chunk, place, lng, lat, x, y, scene, rooms, at_end, guard, at, .. } = self;
        writeln!(f, "{}, {} bytes", KINDS[self.kind as usize], self.file.len())?;
        match &self.record {
            Some(record) => writeln!(f, "asked with the record {}", hex(record))?,
            None => writeln!(f, "asked with the record that opening writes")?,
        }
        match &self.numbers {
            Some(numbers) => writeln!(f, "and with the numbers {numbers:?}")?,
            None => writeln!(f, "and with the numbers that building writes")?,
        }
        writeln!(f, "bytes {}, place {at}", hex(&self.part))?;
        writeln!(f, "zone {zone}, chunk {chunk}, place {place}, point {x} {y}")?;
        let bits = [lng.to_bits(), lat.to_bits()];
        writeln!(f, "position {lng:?} {lat:?}, its bits {bits:016x?}")?;
        writeln!(f, "scene {scene:?}")?;
        writeln!(f, "{:?}", self.journal)?;
        write!(f, "rooms {rooms:?}, at the end {at_end:?}, guard {guard:016x}")
    }
}

/// A valid file with its record, its stripes' numbers, the fields to damage, points of it, and where they stand.
struct Made {
    file: Vec<u8>,
    record: Vec<u8>,
    numbers: Vec<u32>,
    groups: u64,
    aim: Aim,
    points: Vec<(i32, i32)>,
    stored: Range<usize>,
}

/// So many inputs in a row are made from the same valid files, and so many files these are.
const BLOCK: u64 = 50_000;
const FILES: usize = 100;
/// The longest file, and the longest record and part.
pub const LONGEST: usize = 8192;
pub const SHORT: usize = 4096;
/// So many numbers are lent at the most.
pub const NUMBERS: usize = 4096;

pub struct Inputs {
    seed: u64,
    block: Option<u64>,
    files: Vec<Made>,
}

/// A stream of its own for each number.
fn stream(seed: u64, number: u64) -> Random {
    let start = Random::new(seed).bits() ^ number.wrapping_mul(0xd134_2543_de82_ef95);
    Random::new(Random::new(start).bits())
}

impl Made {
    fn some(random: &mut Random) -> Self {
        let draft = match random.below(3) {
            0 => file::some(random),
            1 => striped::some(random),
            _ => file::mostly_with_room(random),
        };
        let file = draft.lay();
        let opened = rules::open(&file, &[]).ok().expect("a file of the builder");
        let numbers = opened.stripes(NUMBERS as u64).unwrap_or_default();
        let groups = opened.groups();
        let whole = |(x, y): (i64, i64)| (x as i32, y as i32);
        let chunks = opened.chunks().min(8);
        let points = (0..chunks).flat_map(|i| opened.readable(i)).map(whole).collect();
        let record = port::opening::open_into(&file, port::opening::SIZE);
        let record = record.expect("a file of the builder");
        let section = file::entries(&file).into_iter().find(|entry| entry[0] == file::POINTS);
        let [_, off, len] = section.unwrap().map(|n| n as usize);
        Self { aim: Aim::at(&file), file, record, numbers, groups, points, stored: off..off + len }
    }
}

impl Inputs {
    pub fn new(seed: u64) -> Self {
        Self { seed, block: None, files: Vec::new() }
    }

    pub fn input(&mut self, number: u64) -> Input {
        let block = number / BLOCK;
        if self.block != Some(block) {
            let mut random = stream(!self.seed, block);
            let fits = |made: &Made| made.file.len() <= LONGEST;
            self.files = (0..FILES).map(|_| Made::some(&mut random)).filter(fits).collect();
            self.block = Some(block);
        }
        let mut random = stream(self.seed, number);
        let made = &self.files[random.below(self.files.len())];
        self.around(&mut random, made)
    }

    fn around(&self, random: &mut Random, made: &Made) -> Input {
        let kind = some_kind(random);
        let file = lent_file(random, kind, made);
        let record = self.record(random, kind, made, file.len());
        let numbers = self.numbers(random, made);
        let part = part(random);
        let bits = random.bits();
        let (x, y) = point(random, &made.points);
        Input {
            kind,
            at: if random.below(16) == 0 {
                extreme(random) as usize
            } else {
                random.below(part.len() + 2)
            },
            zone: number(random),
            chunk: number(random),
            place: number(random),
            lng: degrees(random, x, 180.0),
            lat: degrees(random, y, 90.0),
            x,
            y,
            scene: any_scene(random, x, y),
            rooms: [
                random.pick(&[0, 1, 83, 84, 84, 84, 85, 200, SHORT]),
                random.pick(&[0, 1, 2, 3, 4, 7, 8, 12, 16, 33, 66, 1024]),
                random.pick(&[0, 0, 1, 1, 2, 3, 15, 16, 1024]),
            ],
            at_end: [0, 1, 2, 3, 4, 5, 6].map(|i| bits >> i & 1 == 1),
            guard: random.bits(),
            file,
            record,
            numbers,
            part,
            journal: some_journal(random, x, y),
        }
    }

    /// Those that building writes, most of the time; else of any kind.
    fn numbers(&self, random: &mut Random, made: &Made) -> Option<Vec<u32>> {
        if random.below(3) > 0 {
            return None;
        }
        let other = &self.files[random.below(self.files.len())].numbers;
        let kind = random.below(numbers::KINDS.len());
        let mut out = numbers::some(random, kind, &made.numbers, other, made.groups);
        out.truncate(NUMBERS);
        Some(out)
    }

    /// From the file, from what opening writes, of another file, with fields set to anything, of random bytes, of another length.
    fn record(&self, random: &mut Random, kind: Kind, made: &Made, size: usize) -> Option<Vec<u8>> {
        let other = &self.files[random.below(self.files.len())].record;
        let mut record = match random.below(20) {
            0..4 if kind != Kind::Random => return None,
            0..8 => return Some(made.record.clone()),
            8..14 => made.record.clone(),
            14..16 => return Some(other.clone()),
            16 => other.clone(),
            17 => return Some(anything(random, 84)),
            18 => {
                let length = random.pick(&[0, 1, 83, 85, 168, 500]);
                return Some(anything(random, length));
            }
            _ => {
                let mut record = made.record.clone();
                record.resize(random.pick(&[0, 4, 68, 83, 85, 100]), 0);
                return Some(record);
            }
        };
        for _ in 0..1 + random.below(3) {
            set_field(random, &mut record, size);
        }
        Some(record)
    }
}

/// A field of a record: 18 words but for two pairs of two bytes, the grid's place and size.
fn set_field(random: &mut Random, record: &mut [u8], size: usize) {
    let at = 4 * random.below(21);
    let now = word(record, at);
    let size = size as u32;
    let value = match random.below(8) {
        0..4 => extreme(random) as u32,
        4 => now.wrapping_add(random.pick(&[1, 2, 4, 24])),
        5 => now.wrapping_sub(random.pick(&[1, 2, 4, 24])),
        6 => {
            random.pick(&[size, size.wrapping_sub(1), size.wrapping_sub(4), size.wrapping_sub(24)])
        }
        _ => random.bits() as u32,
    };
    match at {
        72 | 76 => {
            let at = at + 2 * random.below(2);
            record[at..at + 2].copy_from_slice(&(value as u16).to_le_bytes());
        }
        _ => put(record, at, value),
    }
}

/// Bytes of one kind: any, words that tell, few that are not zero.
fn anything(random: &mut Random, length: usize) -> Vec<u8> {
    let mut out = Vec::with_capacity(length + 8);
    let sort = random.below(4);
    while out.len() < length {
        match sort {
            0 => out.extend_from_slice(&random.pick(&TELLING).to_le_bytes()),
            1 => out
                .extend_from_slice(&(random.bits() & random.bits() & random.bits()).to_le_bytes()),
            _ => out.extend_from_slice(&random.bits().to_le_bytes()),
        }
    }
    out.truncate(length);
    out
}

fn lent_file(random: &mut Random, kind: Kind, made: &Made) -> Vec<u8> {
    let mut file = made.file.clone();
    match kind {
        Kind::Random => {
            let length = random.below(2001);
            return anything(random, length);
        }
        Kind::Head => {
            headed(random, &mut file);
            if random.below(2) == 0 {
                repair(&mut file);
            }
        }
        Kind::Table => {
            headed(random, &mut file);
            table(random, &mut file);
            repair(&mut file);
        }
        Kind::Repaired => {
            damage(random, made, &mut file);
            repair(&mut file);
        }
        Kind::Damaged => damage(random, made, &mut file),
        Kind::Beheaded => {
            damage(random, made, &mut file);
            file[random.pick(&DECIDING)] ^= 1 << random.below(8);
        }
        Kind::Cut => {
            file.truncate(random.below(file.len()));
            if random.below(16) == 0 {
                seal(&mut file);
            }
        }
        Kind::Valid => {}
    }
    file
}

/// Bytes of the head of which opening knows each: magic, major, header size, scale, size, profile.
const DECIDING: [usize; 16] = [0, 1, 2, 3, 4, 6, 7, 12, 13, 14, 15, 16, 17, 18, 19, 48];

/// A file's first 64 bytes with another length, and anything behind them. The table has room.
fn headed(random: &mut Random, file: &mut Vec<u8>) {
    let length = 68 + random.below(1933);
    file.truncate(64);
    file.extend(anything(random, length - 64));
    put(file, 16, length as u32);
    let most = (length - 68) / 16;
    put(file, 20, random.below(most.min(12) + 1) as u32);
}

/// Entries whose types follow each other, one behind the other or anywhere in the file.
fn table(random: &mut Random, file: &mut [u8]) {
    let count = word(file, 20) as usize;
    let mut at = 64 + 16 * count;
    for i in 0..count {
        let room = (file.len() - 4).saturating_sub(at);
        let length = random.below(room.min(100) + 1);
        let typ = if random.below(8) == 0 { random.below(16) } else { i + 1 };
        let off = if random.below(8) == 0 { random.below(file.len()) } else { at };
        put(file, 64 + 16 * i, typ as u32);
        put(file, 68 + 16 * i, off as u32);
        put(file, 72 + 16 * i, length as u32);
        at = (at + length).next_multiple_of(4);
    }
}

/// One to five fields, bytes, or runs of the bytes at which numbers turn among the points.
fn damage(random: &mut Random, made: &Made, file: &mut [u8]) {
    for _ in 0..1 + random.below(5) {
        match random.below(6) {
            0 => {
                let at = random.below(file.len());
                file[at] = random.byte();
            }
            1 => {
                let at = made.stored.start + random.below(made.stored.len());
                let end = made.stored.end.min(at + 1 + random.below(8));
                file[at..end].iter_mut().for_each(|b| *b = random.pick(&bytes::OF_NUMBERS));
            }
            _ => made.aim.hit(random, file),
        }
    }
}

/// Numbers one behind the other, text, anything; mostly few bytes.
fn part(random: &mut Random) -> Vec<u8> {
    let count = random.below(4);
    let mut out = match random.below(4) {
        0 => bytes::numbers(random, count, true),
        1 => bytes::text(random, count, true),
        _ => {
            let length = if random.below(8) == 0 { random.below(2001) } else { random.below(24) };
            anything(random, length)
        }
    };
    out.truncate(SHORT);
    out
}

/// What is of a form, or nearly of one; now and then anything.
fn some_journal(random: &mut Random, x: i32, y: i32) -> Journal {
    let zone = |random: &mut Random| match random.below(8) {
        0 => extreme(random) as u32,
        1 => random.below(3) as u32,
        _ => random.below(65_535) as u32,
    };
    let count = random.pick(&[0, 0, 1, 1, 2, 3, 3, 4, 200]);
    let zones: Vec<u32> = (0..count).map(|_| zone(random)).collect();
    let reason = match random.below(8) {
        0 => extreme(random) as u32,
        1 | 2 => random.below(60) as u32,
        _ => 0,
    };
    let places = if random.below(8) == 0 { extreme(random) as u32 } else { 3 };
    let bytes = match random.below(4) {
        0 => None,
        1 => {
            let length = random.pick(&[0, 1, 15, 16, 16, 16, 17, 24, 100]);
            Some(anything(random, length))
        }
        _ => Some(nearly_an_entry(random, x, y, &zones, reason)),
    };
    let rooms = [
        random.pick(&[0, 1, 15, 16, 16, 16, 17, 100]),
        random.pick(&[0, 1, 2, 2, 2, 3, 9]),
        random.pick(&[0, 1, 2, 3, 3, 3, 4, 9]),
    ];
    Journal { places, zones, reason, bytes, rooms }
}

fn nearly_an_entry(random: &mut Random, x: i32, y: i32, zones: &[u32], reason: u32) -> Vec<u8> {
    let mut out = [x.to_le_bytes(), y.to_le_bytes()].concat();
    for place in 0..3 {
        let zone = zones.get(place).map_or(u16::MAX, |&zone| zone as u16);
        out.extend(zone.to_le_bytes());
    }
    out.extend([zones.len() as u8, reason as u8]);
    if random.below(4) == 0 {
        out[random.below(16)] = random.byte();
    }
    out
}

/// A number of the full range, at its ends most of the time.
fn extreme(random: &mut Random) -> u64 {
    match random.below(4) {
        0 => random.bits(),
        1 => u64::MAX - random.bits() % 4,
        2 => random.pick(&TELLING).into(),
        _ => u64::from(random.pick(&TELLING)).wrapping_neg(),
    }
}

/// The number of a zone, a chunk or a place: a small one most of the time.
fn number(random: &mut Random) -> u32 {
    if random.below(8) < 5 { random.below(4) as u32 } else { extreme(random) as u32 }
}

/// A point of the file or beside one, or anywhere.
fn point(random: &mut Random, points: &[(i32, i32)]) -> (i32, i32) {
    let (x, y) = random.pick(points);
    let beside = random.pick(&[0, 0, 1, 1, 5, 100_000]);
    let move_by = |random: &mut Random, n: i32| n.wrapping_add(random.from_to(-beside, beside));
    match random.below(8) {
        0 => (random.bits() as i32, random.bits() as i32),
        1 => (extreme(random) as i32, extreme(random) as i32),
        2 => (random.from_to(-18_000_001, 18_000_001), random.from_to(-9_000_001, 9_000_001)),
        _ => (move_by(random, x), move_by(random, y)),
    }
}

/// The degrees of a whole number or beside it, the ends of the world and of the shortcut, any float.
fn degrees(random: &mut Random, n: i32, end: f64) -> f64 {
    let x = f64::from(n) / 100_000.0;
    let border = random.pick(&[end, -end, end - 1.0, 1.0 - end, 0.0, -1.0]);
    match random.below(16) {
        0 => f64::from_bits(random.bits()),
        1 => special(random),
        2 => random.pick(&[border, border.next_up(), border.next_down()]),
        3 => (random.part() * 2.0 - 1.0) * (end + 1.0),
        4 => x.next_up(),
        5 => x.next_down(),
        6 => x.round(),
        _ => x,
    }
}

/// NaNs, infinities, zeros, subnormals, the greatest.
fn special(random: &mut Random) -> f64 {
    let sign = random.bits() << 63;
    let any = random.bits() >> 12;
    let exponent = random.pick(&[0, 0, 0x7ff, 0x7fe]) << 52;
    let part = random.pick(&[0, 1, any, any, (1 << 52) - 1]);
    f64::from_bits(sign | exponent | part)
}

fn any_scene(random: &mut Random, x: i32, y: i32) -> Scene {
    if random.below(2) == 0 {
        let (_, make) = random.pick(&scene::KINDS);
        return make(random);
    }
    let [ax, ay, bx, by] = [(); 4].map(|()| extreme(random) as i32);
    Scene { ax, ay, bx, by, x: degrees(random, x, 180.0), y: degrees(random, y, 90.0) }
}
