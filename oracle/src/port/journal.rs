//! A journal's entries by the port (document 02, 2026-04). The three exports stand in a table, so that a test can put others in their place.

use super::exports::{tzb_journal_ask, tzb_journal_read, tzb_journal_write};
use super::opening::{AT_ODDS, CHANGED, said};
use crate::rules::Said;
use crate::rules::journal::{Entry, PLACES, length};

type Bytes = *const u8;
pub type Ask =
    unsafe extern "C" fn(Bytes, usize, Bytes, usize, u32, i32, i32, *mut u8, usize) -> i32;
type Write = unsafe extern "C" fn(u32, i32, i32, *const u32, usize, u32, *mut u8, usize) -> i32;
type Read = unsafe extern "C" fn(u32, Bytes, usize, *mut i32, usize, *mut u32, usize) -> i32;

#[derive(Clone, Copy)]
pub struct Journals {
    pub ask: Ask,
    pub write: Write,
    pub read: Read,
}

pub const PORT: Journals =
    Journals { ask: tzb_journal_ask, write: tzb_journal_write, read: tzb_journal_read };

/// What lent bytes hold before, and lent numbers.
const GUARD: u8 = 0xa5;
const GUARDS: u32 = 0xa5a5_a5a5;
/// So much lies before the room, and as much behind it.
const AROUND: usize = 16;

/// Memory that is lent for writing, between more of it that is not.
struct Lent<T> {
    all: Vec<T>,
    room: usize,
    guard: T,
}

impl<T: Copy + PartialEq> Lent<T> {
    fn new(room: usize, guard: T) -> Self {
        Self { all: vec![guard; AROUND + room + AROUND], room, guard }
    }

    fn start(&mut self) -> *mut T {
        self.all[AROUND..].as_mut_ptr()
    }

    /// The first so many, if there is room for them, and nothing else has changed.
    fn first(&self, written: usize) -> Said<Vec<T>> {
        let is_guard = |part: &[T]| part.iter().all(|&one| one == self.guard);
        let (before, rest) = self.all.split_at(AROUND);
        if written > self.room || !is_guard(before) || !is_guard(&rest[written..]) {
            return Err(CHANGED);
        }
        Ok(rest[..written].to_vec())
    }
}

/// The bytes of an entry after a code of 0; after a refusal nothing may be written.
fn entry(code: i32, lent: &Lent<u8>) -> Said<Vec<u8>> {
    let written = if code < 0 { 0 } else { length(PLACES) };
    let bytes = lent.first(written)?;
    match said(code.into())? {
        0 => Ok(bytes),
        _ => Err(AT_ODDS),
    }
}

impl Journals {
    /// The entry of a position, into so many bytes.
    pub fn ask(
        &self,
        record: &[u8],
        file: &[u8],
        places: u32,
        (x, y): (i32, i32),
        room: usize,
    ) -> Said<Vec<u8>> {
        let (r, size, f, length) = (record.as_ptr(), record.len(), file.as_ptr(), file.len());
        let mut lent = Lent::new(room, GUARD);
        let code = unsafe { (self.ask)(r, size, f, length, places, x, y, lent.start(), room) };
        entry(code, &lent)
    }

    /// An entry's bytes, into so many.
    pub fn write(&self, said: &Entry, places: u32, room: usize) -> Said<Vec<u8>> {
        let Entry { x, y, ref zones, reason } = *said;
        let (z, count) = (zones.as_ptr(), zones.len());
        let mut lent = Lent::new(room, GUARD);
        let code = unsafe { (self.write)(places, x, y, z, count, reason, lent.start(), room) };
        entry(code, &lent)
    }

    /// What an entry's bytes say, into so many numbers for the position, and so many for the zones.
    pub fn read(&self, bytes: &[u8], places: u32, rooms: [usize; 2]) -> Said<Entry> {
        let (b, length) = (bytes.as_ptr(), bytes.len());
        let mut position = Lent::new(rooms[0], GUARDS as i32);
        let mut zones = Lent::new(rooms[1], GUARDS);
        let (p, z) = (position.start(), zones.start());
        let code = unsafe { (self.read)(places, b, length, p, rooms[0], z, rooms[1]) };
        let answers = code >= 0;
        let (count, reason) = (code.max(0) as usize / 256, code.max(0) as u32 % 256);
        let position = position.first(if answers { 2 } else { 0 })?;
        let zones = zones.first(count)?;
        said(code.into())?;
        Ok(Entry { x: position[0], y: position[1], zones, reason })
    }
}
