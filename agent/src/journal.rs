//! A journal of answers: why a position got its zone, kept as bytes.
//!
//! A journal is [entries](Entry) one behind the other, [`ENTRY`] bytes each, and nothing else. An entry has the position
//! that was asked, in whole hundred-thousandths of a degree, and what was answered: the zones in the order of their
//! names' bytes, or the refusal. Journals can be cut and joined between entries like any files of lines.
//!
//! Every zone is asked in turn, as [`Index::contains`](crate::Index::contains) asks it, and the grid is not looked at. So an
//! entry can have a zone that the grid does not list there, and that [`Index::zones`](crate::Index::zones) leaves out.
//!
//! ```
//! # fn main() -> Result<(), Box<dyn std::error::Error>> {
//! use tzb::journal;
//!
//! let index = tzb::Index::open_checked(tzb::read("../sample/real-ne.tzb")?)?;
//! let bytes = index.journal_bytes(&[[868_000, 5_011_000], [868_000, 5_011_001]])?;
//! assert_eq!(bytes.len(), 2 * journal::ENTRY);
//!
//! for entry in journal::entries(&bytes) {
//!     let zones = entry?.answer?;
//!     let names: Vec<&str> = zones.iter().map(|&zone| index.name(zone)).collect::<Result<_, _>>()?;
//!     assert_eq!(names, ["Etc/GMT-1", "Germany"]);
//! }
//! # Ok(())
//! # }
//! ```
//!
//! # A file that does not open
//!
//! Then opening's refusal is the answer of every question:
//!
//! ```
//! # fn main() -> Result<(), Box<dyn std::error::Error>> {
//! use tzb::Index;
//! use tzb::journal::Entry;
//!
//! let opened = Index::open(b"not an index");
//! let ask = |x, y| match &opened {
//!     Ok(index) => index.journal(x, y),
//!     Err(refusal) => Entry::refused(x, y, *refusal),
//! };
//! let bytes = ask(868_000, 5_011_000).to_bytes()?;
//! assert_eq!(Entry::read(&bytes)?.reason().map(|refusal| refusal.number()), Some(1));
//! # Ok(())
//! # }
//! ```
//!
//! # What is proved
//!
//! Entries are written and read by the proved code alone: this module lends it bytes and hands on what it says. Reading
//! back gives what was written.

use std::iter::FusedIterator;

use crate::{Refusal, sys};

/// How many zones an entry has places for. A position in more is answered by refusal 46.
///
/// Nothing in an entry tells how many places it has, so whoever reads a journal has to know it.
pub const PLACES: u32 = 3;

/// The size of an entry, in bytes.
pub const ENTRY: usize = size_with(PLACES);

/// The size of an entry with so many places: the position, the places, a count and a reason.
const fn size_with(places: u32) -> usize {
    10 + 2 * places as usize
}

/// What was answered at a position.
///
/// ```
/// # fn main() -> Result<(), tzb::Refusal> {
/// use tzb::journal::Entry;
///
/// let entry = Entry { x: 1, y: -1, answer: Ok(vec![5]) };
/// let bytes = entry.to_bytes()?;
/// assert_eq!(bytes, *b"\x01\0\0\0\xff\xff\xff\xff\x05\0\xff\xff\xff\xff\x01\0");
/// assert_eq!(Entry::read(&bytes)?, entry);
/// # Ok(())
/// # }
/// ```
///
/// Not every entry can be written. One that can has up to [`PLACES`] different zones, each below 65,535, and for a position
/// outside ±18,000,000 and ±9,000,000 none; or it has a refusal from 1 to 46.
#[derive(Clone, Debug, PartialEq, Eq, Hash)]
pub struct Entry {
    /// 100,000 times the longitude.
    pub x: i32,
    /// 100,000 times the latitude.
    pub y: i32,
    /// The zones that contain the position, in the order of their names' bytes, or why there is no answer. A position in
    /// no zone has an empty list; one in more zones than there are places has refusal 46. The bytes keep the refusal's number
    /// alone, so what is read back has no [`place`](Refusal::place).
    pub answer: Result<Vec<u32>, Refusal>,
}

impl Entry {
    /// The entry of a question that was refused, as every question to a file that does not open. It has the refusal's number
    /// alone, as its bytes have: a [`place`](Refusal::place) is left out.
    #[must_use]
    pub fn refused(x: i32, y: i32, refusal: Refusal) -> Self {
        Self { x, y, answer: Err(Refusal::new(refusal.number())) }
    }

    /// Reads the bytes of one entry. [`entries`] reads a whole journal.
    ///
    /// ```
    /// use tzb::journal::{ENTRY, Entry};
    ///
    /// let refusal = Entry::read(&[0; ENTRY]).unwrap_err(); // an unused place is 65,535
    /// assert_eq!(refusal.number(), 50);
    /// ```
    ///
    /// # Errors
    /// Refusal 50 where they are no entry; so are more than [`ENTRY`] bytes, or fewer.
    pub fn read(bytes: &[u8]) -> Result<Self, Refusal> {
        let mut position = [0; 2];
        let mut zones = [0; PLACES as usize];
        let code = sys::journal_read(PLACES, bytes, &mut position, &mut zones);
        let said = Refusal::of_code(code.into())?;
        let (count, reason) = (said / 256, said % 256);
        let answer = match reason {
            0 => Ok(zones.into_iter().take(count).collect()),
            number => Err(Refusal::new(number as u32)),
        };
        Ok(Self { x: position[0], y: position[1], answer })
    }

    /// Writes the entry into the first [`ENTRY`] bytes. What lies behind stays, and a refusal changes nothing.
    ///
    /// # Errors
    /// Refusal 50 for what no entry can be, as one with too many zones; then 46 where there is no room.
    pub fn write(&self, out: &mut [u8]) -> Result<(), Refusal> {
        let reason = self.reason().map_or(0, |refusal| refusal.number());
        let code = sys::journal_write(PLACES, self.x, self.y, self.zones(), reason, out);
        Refusal::of_code(code.into()).map(|_| ())
    }

    /// The entry's bytes.
    ///
    /// # Errors
    /// Refusal 50 for what no entry can be, as for [`write`](Self::write).
    pub fn to_bytes(&self) -> Result<[u8; ENTRY], Refusal> {
        let mut bytes = [0; ENTRY];
        self.write(&mut bytes)?;
        Ok(bytes)
    }

    /// The zones that contain the position. None for a refusal too: [`reason`](Self::reason) tells them apart.
    #[must_use]
    pub fn zones(&self) -> &[u32] {
        self.answer.as_deref().unwrap_or_default()
    }

    /// Why there is no answer. None where there is one, which may be that the position is in no zone.
    #[must_use]
    pub fn reason(&self) -> Option<Refusal> {
        self.answer.as_ref().err().copied()
    }

    /// Longitude and latitude in degrees: the floats next to them.
    ///
    /// ```
    /// use tzb::journal::Entry;
    ///
    /// let entry = Entry { x: 868_000, y: 5_011_000, answer: Ok(vec![]) };
    /// assert_eq!(entry.degrees(), (8.68, 50.11));
    /// ```
    #[must_use]
    pub fn degrees(&self) -> (f64, f64) {
        (f64::from(self.x) / 100_000.0, f64::from(self.y) / 100_000.0)
    }
}

/// The entries of a journal, in turn. One that cannot be read is refusal 50, and those behind it are read all the same.
///
/// Where the bytes end within an entry, what is left over is refusal 50 too, and the last.
///
/// ```
/// # fn main() -> Result<(), tzb::Refusal> {
/// use tzb::journal::{Entry, entries};
///
/// let first = Entry { x: 1, y: -1, answer: Ok(vec![5]) };
/// let second = Entry { x: 2, y: -2, answer: Ok(vec![]) };
/// let mut journal = [first.to_bytes()?, second.to_bytes()?].concat();
/// journal.push(7);
///
/// let mut read = entries(&journal);
/// assert_eq!(read.next(), Some(Ok(first)));
/// assert_eq!(read.next(), Some(Ok(second)));
/// assert_eq!(read.next().map(|entry| entry.unwrap_err().number()), Some(50));
/// assert_eq!(read.next(), None);
/// # Ok(())
/// # }
/// ```
#[must_use]
pub fn entries(bytes: &[u8]) -> Entries<'_> {
    Entries { rest: bytes }
}

/// What [`entries`] gives.
#[derive(Clone, Debug)]
pub struct Entries<'a> {
    rest: &'a [u8],
}

impl Iterator for Entries<'_> {
    type Item = Result<Entry, Refusal>;

    fn next(&mut self) -> Option<Self::Item> {
        if self.rest.is_empty() {
            return None;
        }
        // What is left over at the end goes to the reader as it is: it is of another length, and refused for that.
        let (bytes, rest) = self.rest.split_at_checked(ENTRY).unwrap_or((self.rest, &[]));
        self.rest = rest;
        Some(Entry::read(bytes))
    }

    fn size_hint(&self) -> (usize, Option<usize>) {
        let left = self.rest.len().div_ceil(ENTRY);
        (left, Some(left))
    }
}

impl ExactSizeIterator for Entries<'_> {}
impl FusedIterator for Entries<'_> {}

#[cfg(test)]
mod tests {
    use super::*;

    const BYTE: u8 = 0xee;
    const NUMBER: u32 = 0xeeee_eeee;

    /// Document 02's own: position (1, -1) in zone 5 alone.
    const EXAMPLE: [u8; ENTRY] = [1, 0, 0, 0, 255, 255, 255, 255, 5, 0, 255, 255, 255, 255, 1, 0];

    /// The sample, opened.
    fn sample() -> (Vec<u8>, sys::Record) {
        let file = std::fs::read("../sample/real-ne.tzb").unwrap();
        let mut record = [0; sys::RECORD];
        assert_eq!(sys::open(&file, &mut record), 0);
        (file, record)
    }

    #[test]
    fn what_lies_behind_an_entry_stays() {
        let (file, record) = sample();
        for more in [0, 1, 100] {
            let mut room = vec![BYTE; ENTRY + more];
            assert_eq!(sys::journal_write(PLACES, 1, -1, &[5], 0, &mut room), 0);
            assert_eq!(room[..ENTRY], EXAMPLE);
            assert!(room[ENTRY..].iter().all(|&byte| byte == BYTE), "{more}");
            let mut room = vec![BYTE; ENTRY + more];
            assert_eq!(sys::journal_ask(&record, &file, PLACES, 868_000, 5_011_000, &mut room), 0);
            assert_eq!(room[8..], [&[213, 1, 126, 0, 255, 255, 2, 0], &room[ENTRY..]].concat());
            assert!(room[ENTRY..].iter().all(|&byte| byte == BYTE), "{more}");
        }
    }

    #[test]
    fn what_lies_behind_the_numbers_read_stays() {
        let mut position = [-7; 4];
        let mut zones = [NUMBER; 5];
        assert_eq!(sys::journal_read(PLACES, &EXAMPLE, &mut position, &mut zones), 256);
        assert_eq!(position, [1, -1, -7, -7]);
        assert_eq!(zones, [5, NUMBER, NUMBER, NUMBER, NUMBER]);
    }

    /// 50 goes before 46, and neither changes anything.
    #[test]
    fn a_refused_writing_changes_nothing() {
        let many: Vec<u32> = (0..=PLACES).collect();
        let formless: [(i32, &[u32], u32); 9] = [
            (1, &many, 0),
            (1, &[5, 5], 0),
            (1, &[0, 5, 0], 0),
            (1, &[65_535], 0),
            (1, &[65_536 + 5], 0),
            (18_000_001, &[5], 0),
            (1, &[5], 1),
            (1, &[], 47),
            (1, &[], 256),
        ];
        for length in [0, 1, ENTRY - 1, ENTRY, 100] {
            let mut room = vec![BYTE; length];
            for (x, zones, reason) in formless {
                let code = sys::journal_write(PLACES, x, 0, zones, reason, &mut room);
                assert_eq!(code, -1050, "{x} {zones:?} {reason}");
            }
            for places in [0, PLACES - 1, PLACES + 1, 7, u32::MAX] {
                assert_eq!(sys::journal_write(places, 1, 0, &[], 0, &mut room), -1050, "{places}");
            }
            if length < ENTRY {
                assert_eq!(sys::journal_write(PLACES, 1, 0, &[], 0, &mut room), -1046);
            }
            assert!(room.iter().all(|&byte| byte == BYTE), "{length}");
        }
    }

    #[test]
    fn a_refused_reading_changes_nothing() {
        let mut formless = EXAMPLE;
        formless[ENTRY - 1] = 1;
        for (numbers, places) in [(0, 0), (1, 5), (2, 0), (9, 9)] {
            let (mut position, mut zones) = (vec![-7; numbers], vec![NUMBER; places]);
            let mut read =
                |with, bytes: &[u8]| sys::journal_read(with, bytes, &mut position, &mut zones);
            assert_eq!(read(PLACES, &formless), -1050);
            assert_eq!(read(PLACES, &EXAMPLE[1..]), -1050);
            assert_eq!(read(PLACES + 1, &EXAMPLE), -1050);
            if numbers < 2 || places < 1 {
                assert_eq!(read(PLACES, &EXAMPLE), -1046);
            }
            assert!(position.iter().all(|&number| number == -7), "{numbers} {places}");
            assert!(zones.iter().all(|&number| number == NUMBER), "{numbers} {places}");
        }
        // An entry without zones wants no place for one.
        let mut position = [0; 2];
        let none = Entry { x: 3, y: 4, answer: Ok(vec![]) }.to_bytes().unwrap();
        assert_eq!(sys::journal_read(PLACES, &none, &mut position, &mut []), 0);
        assert_eq!(position, [3, 4]);
    }

    #[test]
    fn a_refused_question_changes_nothing() {
        let (file, record) = sample();
        let mut room = [BYTE; 100];
        for places in [0, PLACES - 1, PLACES + 1, 7, u32::MAX] {
            for length in [0, ENTRY, 100] {
                let out = &mut room[..length];
                assert_eq!(sys::journal_ask(&record, &file, places, 0, 0, out), -1050, "{places}");
            }
        }
        for length in [0, 1, ENTRY - 1] {
            let out = &mut room[..length];
            assert_eq!(sys::journal_ask(&record, &file, PLACES, 0, 0, out), -1046, "{length}");
        }
        assert_eq!(room, [BYTE; 100]);
    }

    /// A record that is asked with other bytes: the refusal of the question is the entry's, and none of the call.
    #[test]
    fn a_record_of_other_bytes() {
        let (file, record) = sample();
        for bytes in [&[], &file[..file.len() / 8]] {
            let mut room = [BYTE; ENTRY];
            assert_eq!(sys::journal_ask(&record, bytes, PLACES, 868_000, 5_011_000, &mut room), 0);
            let entry = Entry::read(&room).unwrap();
            assert_eq!((entry.x, entry.y, entry.zones()), (868_000, 5_011_000, &[][..]));
            assert_eq!(entry.reason(), Some(Refusal::new(44)));
            // Outside the domain there is nothing to ask.
            assert_eq!(sys::journal_ask(&record, bytes, PLACES, 18_000_001, 0, &mut room), 0);
            assert_eq!(Entry::read(&room).unwrap().answer, Ok(vec![]));
        }
    }
}
