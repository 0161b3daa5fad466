//! The original's opening, names and candidates, with its errors as document 01's numbers.

use crate::rules::{Candidates, Said};
use crate::tzb::{Error, Reader};
use std::borrow::Cow;
use std::panic::{AssertUnwindSafe, catch_unwind};

/// Stands where a refusal's number would: the original panicked.
pub const PANIC: u32 = 1_000_000;

/// Document 01's number of each text of the original. `... record` and `directory index` are 34.
const NUMBERS: [(&str, u32); 48] = [
    ("invalid file size", 1),
    ("magic or format major", 2),
    ("unsupported profile", 4),
    ("header fields", 5),
    ("header counts", 6),
    ("header chunk target", 7),
    ("data version padding", 8),
    ("data version UTF-8", 9),
    ("section table bounds", 10),
    ("CRC32", 11),
    ("unaligned section", 12),
    ("section bounds", 13),
    ("duplicate known section", 14),
    ("section not valid in profile", 15),
    ("overlapping sections", 16),
    ("missing mandatory section", 17),
    ("GRID flag mismatch", 18),
    ("directory section length", 19),
    ("empty directory", 20),
    ("NAMES length", 21),
    ("NAMES blob length", 22),
    ("NAMES offsets", 23),
    ("empty timezone name", 24),
    ("invalid name UTF-8", 25),
    ("NUL in name", 26),
    ("GRID length", 27),
    ("GRID dimensions", 28),
    ("GRID section size", 29),
    ("GRID candidate range", 30),
    ("candidate offset", 30),
    // Without a GRID the total of candidates is 0, so every place is past it.
    ("no grid", 30),
    ("GRID candidate index", 31),
    ("candidate index", 31),
    ("chunk offset or count", 32),
    ("group point count", 33),
    ("directory index", 34),
    ("RINGOPS group index", 35),
    ("ring point count", 36),
    ("chunk byte range", 37),
    ("truncated varint", 38),
    ("nonminimal varint", 39),
    ("varint exceeds 32 bits", 40),
    ("coordinate overflow", 41),
    ("point domain", 42),
    ("chunk coordinate domain", 42),
    ("chunk termination", 43),
    ("trailing chunk bytes", 43),
    ("read bounds", 44),
];

fn number(e: Error) -> u32 {
    match e {
        Error::Profile => 3,
        Error::Index => 45,
        Error::Malformed(text) if text.ends_with(" record") => 34,
        Error::Malformed(text) => match NUMBERS.iter().find(|(known, _)| *known == text) {
            Some((_, n)) => *n,
            None => panic!("no number for the original's {text:?}"),
        },
        other => panic!("no number for the original's {other:?}"),
    }
}

pub(super) fn said<T>(ask: impl FnOnce() -> Result<T, Error>) -> Said<T> {
    match catch_unwind(AssertUnwindSafe(ask)) {
        Ok(answer) => answer.map_err(number),
        Err(_) => Err(PANIC),
    }
}

pub struct Opened<'a> {
    file: &'a [u8],
    pub(super) reader: Reader<'a>,
}

pub fn open(file: &[u8]) -> Said<Opened<'_>> {
    let reader = said(|| Reader::open(Cow::Borrowed(file)))?;
    Ok(Opened { file, reader })
}

impl<'a> Opened<'a> {
    /// The same record, asked with other bytes.
    pub fn asked_with(self, lent: &'a [u8]) -> Self {
        Self { file: lent, reader: self.reader.with_bytes(lent) }
    }
}

impl Opened<'_> {
    /// The part of the file that the original lends: where it starts, and its length.
    pub fn name(&self, zone: u32) -> Said<(u64, u64)> {
        let name = said(|| self.reader.name_bytes(zone))?;
        let start = name.as_ptr() as usize - self.file.as_ptr() as usize;
        Ok((start as u64, name.len() as u64))
    }

    pub fn candidates(&self, lng: f64, lat: f64) -> Said<Candidates> {
        Ok(match said(|| self.reader.ask_candidates(lng, lat))? {
            (0, _, _) => Candidates::Nothing,
            (count, offset, true) => {
                Candidates::Cell { count: count.into(), offset: offset.into() }
            }
            (count, _, false) => {
                assert_eq!(count, self.reader.timezone_count());
                Candidates::EveryZone
            }
        })
    }

    pub fn candidate(&self, place: u32) -> Said<u64> {
        said(|| self.reader.ask_candidate(place)).map(u64::from)
    }
}
