//! The kept journal (document 02, 2026-04): an index with positions and their entries, which the program `journal` is run on, and
//! entries.list, entries to read and to write. README.md has the layout of its rows.

use crate::file::journal::{ANSWERS, expected, kept};
use crate::file::{put, word};
use crate::random::Random;
use crate::rules::Said;
use crate::rules::journal::{self as rule, Entry, PLACES, of_file};
use std::fs;
use std::path::Path;

/// Where the lists are written if nothing else is said.
pub const FOLDER: &str = "target/journal";

pub fn write(folder: &Path) {
    fs::create_dir_all(folder).expect("the folder for the lists");
    let (positions, entries) = journal();
    let rows = rows();
    let list: Vec<u8> = rows.iter().flat_map(bytes).collect();
    let index = kept();
    for (name, bytes) in [
        ("index.tzb", &index[..]),
        ("args", b"index.tzb\n"),
        ("stdin", &positions),
        ("stdout", &entries),
        ("entries.list", &list),
    ] {
        fs::write(folder.join(name), bytes).expect("a list");
        println!("{}: {} bytes", folder.join(name).display(), bytes.len());
    }
    println!("{} positions, {} rows:", ANSWERS.len(), rows.len());
    for kind in [READ, WRITE] {
        for number in [0, 46, 50] {
            let of_kind = |row: &&Row| row.kind() == kind && row.number() == number;
            let rooms: Vec<usize> = rows.iter().filter(of_kind).map(|row| row.room).collect();
            let (count, roomless) = (rooms.len(), rooms.iter().filter(|&&room| room == 0).count());
            let what = if kind == READ { "read" } else { "write" };
            println!("  {count} to {what}, {number}; {roomless} of them into no room");
            assert!(count >= 20, "too few rows");
            // 50 comes before 46.
            assert!(number != 50 || roomless >= 20, "too few rows without room");
        }
    }
}

/// The kept positions, and their entries. What is expected by hand is what the rules say.
fn journal() -> (Vec<u8>, Vec<u8>) {
    let index = kept();
    let (mut positions, mut entries) = (Vec::new(), Vec::new());
    for ((x, y), said) in ANSWERS {
        let by_hand = expected((x, y), said);
        assert_eq!(of_file(&index, PLACES, x, y), by_hand);
        positions.extend([x.to_le_bytes(), y.to_le_bytes()].concat());
        entries.extend(by_hand.write(PLACES).expect("an entry"));
    }
    (positions, entries)
}

#[derive(Debug)]
enum What {
    Read(Vec<u8>),
    Write(Entry),
}

/// An entry, and how much is lent for the answer: places for its zones, or bytes.
#[derive(Debug)]
struct Row {
    what: What,
    room: usize,
}

/// More than any answer needs.
const OF_ZONES: usize = PLACES + 1;
const OF_BYTES: usize = 24;

impl Row {
    fn read(bytes: Vec<u8>) -> Self {
        Self { what: What::Read(bytes), room: OF_ZONES }
    }

    fn write(entry: Entry) -> Self {
        Self { what: What::Write(entry), room: OF_BYTES }
    }

    fn into(self, room: usize) -> Self {
        Self { room, ..self }
    }

    fn kind(&self) -> u8 {
        bytes(self)[0]
    }

    /// 0 if answered, else the refusal.
    fn number(&self) -> u32 {
        word(&bytes(self), ANSWER)
    }

    /// The number is read off document 02 by hand.
    fn that_says(self, number: u32) -> Self {
        assert_eq!(self.number(), number, "{self:?}");
        self
    }
}

const READ: u8 = 0;
const WRITE: u8 = 1;
/// How long a row is, and where it has what else is expected, and the answer.
const ROW: usize = 64;
const ELSE: usize = 36;
const ANSWER: usize = 48;

fn bytes(row: &Row) -> Vec<u8> {
    let mut out = vec![0; ROW];
    out[2] = row.room as u8;
    match &row.what {
        What::Read(bytes) => {
            (out[0], out[1]) = (READ, bytes.len() as u8);
            out[4..4 + bytes.len()].copy_from_slice(bytes);
            let said = rule::read(bytes, PLACES as u32, [2, row.room]);
            answer(&mut out, said.as_ref().map(numbers));
            let zones = said.map_or(Vec::new(), |entry| entry.zones);
            zones.iter().enumerate().for_each(|(i, &zone)| put(&mut out, ELSE + 4 * i, zone));
        }
        What::Write(entry) => {
            (out[0], out[1]) = (WRITE, entry.zones.len() as u8);
            let lent = [entry.x as u32, entry.y as u32, entry.reason];
            let lent = lent.iter().chain(&entry.zones).enumerate();
            lent.for_each(|(i, &n)| put(&mut out, 4 + 4 * i, n));
            let said: Said<Vec<u8>> = rule::written(entry, PLACES as u32, row.room);
            answer(&mut out, said.as_ref().map(|bytes| [0, 4, 8].map(|at| word(bytes, at))));
            put(&mut out, ELSE, said.map_or(0, |bytes| word(&bytes, 12)));
        }
    }
    out
}

/// What reading says: count and reason, and the position.
fn numbers(entry: &Entry) -> [u32; 3] {
    [256 * entry.zones.len() as u32 + entry.reason, entry.x as u32, entry.y as u32]
}

/// The refusal or 0, and three numbers.
fn answer(row: &mut [u8], said: Result<[u32; 3], &u32>) {
    put(row, ANSWER, said.err().copied().unwrap_or(0));
    let numbers = said.unwrap_or_default();
    numbers.iter().enumerate().for_each(|(i, &n)| put(row, ANSWER + 4 + 4 * i, n));
}

fn laid((x, y): (i32, i32), places: &[u16], count: u8, reason: u8) -> Vec<u8> {
    let mut out = [x.to_le_bytes(), y.to_le_bytes()].concat();
    places.iter().for_each(|zone| out.extend(zone.to_le_bytes()));
    out.extend([count, reason]);
    out
}

/// The domain's ends and past them, and those of i32.
const POSITIONS: [(i32, i32); 12] = [
    (18_000_000, 9_000_000),
    (-18_000_000, -9_000_000),
    (18_000_000, -9_000_000),
    (18_000_001, 0),
    (-18_000_001, 0),
    (0, 9_000_001),
    (0, -9_000_001),
    (18_000_001, 9_000_001),
    (i32::MAX, 0),
    (0, i32::MAX),
    (i32::MIN, 0),
    (i32::MIN, i32::MIN),
];

/// A position, what stands in the places, a count and a reason, and whether these are of a form: read off document 02 by hand.
const BY_HAND: [([u16; 3], u8, u8, bool); 44] = [
    ([5, 65_535, 65_535], 1, 0, true),
    ([65_535; 3], 0, 0, true),
    ([0, 65_535, 65_535], 1, 0, true),
    ([65_534, 65_535, 65_535], 1, 0, true),
    ([0, 1, 65_535], 2, 0, true),
    ([65_534, 65_533, 65_535], 2, 0, true),
    ([0, 1, 2], 3, 0, true),
    ([65_534, 0, 65_533], 3, 0, true),
    ([256, 1, 0], 3, 0, true),
    // A reason without zones.
    ([65_535; 3], 0, 1, true),
    ([65_535; 3], 0, 45, true),
    ([65_535; 3], 0, 46, true),
    ([65_535; 3], 0, 47, false),
    ([65_535; 3], 0, 48, false),
    ([65_535; 3], 0, 50, false),
    ([65_535; 3], 0, 128, false),
    ([65_535; 3], 0, 255, false),
    // A reason with zones, or with a count.
    ([5, 65_535, 65_535], 1, 1, false),
    ([5, 65_535, 65_535], 1, 46, false),
    ([5, 65_535, 65_535], 0, 1, false),
    ([0, 1, 2], 3, 46, false),
    ([65_535; 3], 1, 46, false),
    // A count that is not that of the places.
    ([65_535; 3], 1, 0, false),
    ([65_535; 3], 3, 0, false),
    ([5, 65_535, 65_535], 0, 0, false),
    ([5, 65_535, 65_535], 2, 0, false),
    ([5, 6, 65_535], 1, 0, false),
    ([5, 6, 65_535], 3, 0, false),
    ([5, 6, 7], 2, 0, false),
    ([5, 6, 7], 0, 0, false),
    ([5, 6, 7], 4, 0, false),
    ([5, 6, 7], 7, 0, false),
    ([5, 6, 7], 255, 0, false),
    ([65_535; 3], 255, 255, false),
    // An unused place before a used one.
    ([65_535, 5, 65_535], 1, 0, false),
    ([65_535, 5, 65_535], 2, 0, false),
    ([5, 65_535, 6], 2, 0, false),
    ([65_535, 65_535, 5], 1, 0, false),
    ([5, 65_535, 6], 3, 0, false),
    // A zone twice.
    ([5, 5, 65_535], 2, 0, false),
    ([5, 5, 6], 3, 0, false),
    ([5, 6, 5], 3, 0, false),
    ([6, 5, 5], 3, 0, false),
    ([0, 0, 0], 3, 0, false),
];

fn rows() -> Vec<Row> {
    let mut out = Vec::new();
    for (places, count, reason, of_a_form) in BY_HAND {
        let bytes = laid((1, -1), &places, count, reason);
        assert_eq!(Entry::read(&bytes, PLACES).is_ok(), of_a_form, "{places:?} {count} {reason}");
        out.push(Row::read(bytes));
    }
    out.extend(at_the_ends());
    out.extend((0..=24).map(|length| Row::read(of_length(length))));
    out.extend(to_write());
    out.extend(by_chance());
    out.extend(read_into_rooms());
    out.extend(written_into_rooms());
    out
}

/// What is of no form is 50, also where no place is lent. Else 46 is said exactly where fewer places are lent than there are zones.
fn read_into_rooms() -> Vec<Row> {
    let mut out = Vec::new();
    for (places, count, reason, of_a_form) in BY_HAND {
        let bytes = laid((1, -1), &places, count, reason);
        for room in 0..=if of_a_form { PLACES } else { 0 } {
            let short = room < count.into();
            let number = if !of_a_form { 50 } else { 46 * u32::from(short) };
            out.push(Row::read(bytes.clone()).into(room).that_says(number));
        }
    }
    let outside = laid((0, 9_000_001), &[5, 65_535, 65_535], 1, 0);
    let others = [0, 15, 17, 24].map(of_length).into_iter().chain([outside]);
    out.extend(others.map(|bytes| Row::read(bytes).into(0).that_says(50)));
    out
}

/// What is of no form is 50, also where no byte is lent. Else 46 is said exactly where fewer are lent than an entry has.
fn written_into_rooms() -> Vec<Row> {
    let mut out = Vec::new();
    for (zones, reason, of_a_form) in TO_WRITE {
        let entry = Entry { x: 1, y: -1, zones: zones.to_vec(), reason };
        let rooms: &[(usize, u32)] =
            if of_a_form { &[(0, 46), (15, 46), (16, 0)] } else { &[(0, 50), (15, 50)] };
        let row = |&(room, number)| Row::write(entry.clone()).into(room).that_says(number);
        out.extend(rooms.iter().map(row));
    }
    let outside = Entry { x: 18_000_001, y: 0, zones: vec![5], reason: 0 };
    out.push(Row::write(outside).into(0).that_says(50));
    out
}

/// Zones stand in the domain alone; no zone and a reason stand anywhere.
fn at_the_ends() -> Vec<Row> {
    let mut out = Vec::new();
    for (i, at) in POSITIONS.into_iter().enumerate() {
        let inside = i < 3;
        for (zones, reason) in [(&[5][..], 0), (&[7, 6, 5], 0), (&[], 0), (&[], 34)] {
            let entry = Entry { x: at.0, y: at.1, zones: zones.to_vec(), reason };
            let mut places: Vec<u16> = zones.iter().map(|&zone| zone as u16).collect();
            places.resize(PLACES, 65_535);
            let bytes = laid(at, &places, zones.len() as u8, reason as u8);
            assert_eq!(Entry::read(&bytes, PLACES).is_ok(), inside || zones.is_empty());
            out.extend([Row::read(bytes), Row::write(entry)]);
        }
    }
    out
}

/// So many bytes of an entry; where there are more than one has, of the next.
fn of_length(length: usize) -> Vec<u8> {
    let whole = laid((1, -1), &[5, 65_535, 65_535], 1, 0);
    whole.iter().copied().cycle().take(length).collect()
}

/// Zones and a reason, and whether these are of a form.
const TO_WRITE: [(&[u32], u32, bool); 42] = [
    (&[], 0, true),
    (&[5], 0, true),
    (&[0], 0, true),
    (&[65_534], 0, true),
    (&[1, 0], 0, true),
    (&[0, 65_534], 0, true),
    (&[0, 1, 2], 0, true),
    (&[65_534, 65_533, 0], 0, true),
    (&[258, 1, 513], 0, true),
    (&[], 1, true),
    (&[], 23, true),
    (&[], 45, true),
    (&[], 46, true),
    (&[], 47, false),
    (&[], 49, false),
    (&[], 50, false),
    (&[], 255, false),
    (&[], 256, false),
    (&[], 302, false),
    (&[], 65_536, false),
    (&[], 65_582, false),
    (&[], 0x8000_0001, false),
    (&[], u32::MAX, false),
    (&[5], 1, false),
    (&[5], 46, false),
    (&[5], 256, false),
    (&[0, 1, 2], 46, false),
    // More zones than places.
    (&[0, 1, 2, 3], 0, false),
    (&[0, 1, 2, 3, 4], 0, false),
    (&[0, 1, 2, 65_535], 0, false),
    (&[0, 1, 2, 3], 46, false),
    // A number that no place holds, and one that a place would hold in part.
    (&[65_535], 0, false),
    (&[65_536], 0, false),
    (&[65_541], 0, false),
    (&[u32::MAX], 0, false),
    (&[5, 65_535], 0, false),
    (&[5, 6, 65_535], 0, false),
    (&[5, 65_535, 65_535], 0, false),
    // A zone twice.
    (&[5, 5], 0, false),
    (&[5, 5, 6], 0, false),
    (&[5, 6, 5], 0, false),
    (&[6, 5, 5], 0, false),
];

fn to_write() -> Vec<Row> {
    let row = |(zones, reason, of_a_form): (&[u32], u32, bool)| {
        let entry = Entry { x: 1, y: -1, zones: zones.to_vec(), reason };
        assert_eq!(entry.write(PLACES).is_ok(), of_a_form, "{zones:?} {reason}");
        Row::write(entry)
    };
    TO_WRITE.map(row).into()
}

/// Entries of both forms to write, to read, to read with a byte changed, and to read with a place too few for their zones.
fn by_chance() -> Vec<Row> {
    let mut random = Random::new(26);
    let mut out = Vec::new();
    for i in 0..32 {
        let (x, y) =
            (random.from_to(-18_000_000, 18_000_000), random.from_to(-9_000_000, 9_000_000));
        let reason = if i % 4 == 3 { 1 + random.below(46) as u32 } else { 0 };
        let zones =
            (0..if i % 4 == 3 { 0 } else { 1 + i % 4 }).map(|_| random.below(65_535) as u32);
        let entry = Entry { x, y, zones: zones.collect(), reason };
        let bytes = entry.write(PLACES).expect("an entry");
        let mut changed = bytes.clone();
        changed[random.below(bytes.len())] ^= 1 << random.below(8);
        let zones = entry.zones.len();
        out.extend([Row::write(entry), Row::read(bytes.clone()), Row::read(changed)]);
        out.extend(zones.checked_sub(1).map(|room| Row::read(bytes).into(room).that_says(46)));
    }
    out
}

#[cfg(test)]
mod tests {
    use super::*;

    /// A row is read as README.md says, and says what the rules say.
    #[test]
    fn the_rows_read_back() {
        for row in rows().iter().map(bytes) {
            assert_eq!((row.len(), row[3]), (64, 0));
            let (count, room) = (usize::from(row[1]), usize::from(row[2]));
            let (refusal, rest) = (word(&row, 48), [52, 56, 60].map(|at| word(&row, at)));
            let nothing = |number| assert_eq!((refusal, rest, word(&row, 36)), (number, [0; 3], 0));
            match row[0] {
                0 => match rule::read(&row[4..4 + count], 3, [2, room]) {
                    Ok(entry) => {
                        assert_eq!((refusal, rest), (0, numbers(&entry)));
                        let zones: Vec<u32> = (0..3).map(|i| word(&row, 36 + 4 * i)).collect();
                        assert_eq!(zones[..entry.zones.len()], entry.zones);
                    }
                    Err(number) => nothing(number),
                },
                _ => {
                    let zones = (0..count).map(|i| word(&row, 16 + 4 * i)).collect();
                    let [x, y] = [4, 8].map(|at| word(&row, at) as i32);
                    let entry = Entry { x, y, zones, reason: word(&row, 12) };
                    match rule::written(&entry, 3, room) {
                        Ok(bytes) => {
                            let words = [0, 4, 8].map(|at| word(&bytes, at));
                            assert_eq!((refusal, rest), (0, words));
                            assert_eq!(word(&row, 36), word(&bytes, 12));
                        }
                        Err(number) => nothing(number),
                    }
                }
            }
        }
    }

    /// The gate's list is the one that is written.
    #[test]
    fn the_kept_list_is_this_one() {
        let folder = concat!(env!("CARGO_MANIFEST_DIR"), "/../crates/run_entries");
        let list: Vec<u8> = rows().iter().flat_map(bytes).collect();
        let kept = fs::read(Path::new(folder).join("stdin")).unwrap();
        assert!(kept == list, "stdin of run_entries is another list");
        let says = format!("{} entries read or written as document 02 says\n", rows().len());
        assert_eq!(fs::read_to_string(Path::new(folder).join("stdout")).unwrap(), says);
    }
}
