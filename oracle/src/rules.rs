//! Document 01's opening and questions, written straight from its words and in its order: plain and slow. A third voice beside the original and the port.
//! With `Departure`s it judges as the original is known to; without any it is document 01.

mod asking;
mod bytes;
mod chunk;
mod full;
pub mod journal;
mod kept;
pub mod map;
mod questions;
mod ray;
mod records;
pub mod stripes;
mod walk;

pub use asking::Judge;
pub use bytes::crc32;
pub use chunk::reading;
pub use full::{Broken, full_check};
pub use questions::Candidates;
pub use records::Bounds;
pub use stripes::Way;

use bytes::{i16_at, i32_at, u16_at, u32_at, utf8};

/// An answer, or the number of the refusal.
pub type Said<T> = Result<T, u32>;

/// A refusal with document 02's place (2026-06), counted from the file's first byte: of 38 to 43 and of no other.
#[derive(Debug, Clone, Copy, PartialEq, Eq)]
pub struct Refusal {
    pub number: u32,
    pub place: Option<u64>,
}

/// An answer, or the refusal. What reads a chunk's bytes answers so, and all that asks it.
pub type Placed<T> = Result<T, Refusal>;

/// Without a place.
impl From<u32> for Refusal {
    fn from(number: u32) -> Self {
        Self { number, place: None }
    }
}

/// The number alone.
impl From<Refusal> for u32 {
    fn from(refusal: Refusal) -> Self {
        refusal.number
    }
}

/// The places at which the original is known to judge otherwise. `known.rs` tells of each.
#[derive(Debug, Clone, Copy, PartialEq, Eq)]
pub enum Departure {
    Type11,
    EmptyInside,
    ChunkRecord,
    ShortGroup,
    ShortRing,
    ReadsOn,
    Stripes,
}

#[derive(Debug, Clone, Copy)]
pub struct Section {
    pub off: u64,
    pub len: u64,
}

impl Section {
    fn end(self) -> u64 {
        self.off + self.len
    }
}

#[derive(Debug, Clone, Copy)]
pub struct Grid {
    pub lng: i64,
    pub lat: i64,
    pub columns: u64,
    pub rows: u64,
    pub total: u64,
    pub words: u64,
}

impl Grid {
    fn cells(self) -> u64 {
        self.columns * self.rows
    }

    fn candidates(self) -> u64 {
        self.words + 4 * self.cells()
    }
}

/// A file that opens.
#[derive(Clone, Copy)]
pub struct Opened<'a> {
    file: &'a [u8],
    sections: [Option<Section>; 15],
    flags: u64,
    pub zones: u64,
    pub grid: Option<Grid>,
}

fn need(number: u32, holds: bool) -> Said<()> {
    if holds { Ok(()) } else { Err(number) }
}

pub fn open<'a>(file: &'a [u8], original: &[Departure]) -> Said<Opened<'a>> {
    header(file)?;
    behind_header(file, original)
}

/// Without departures, and with these. None of them has to do with the header, so that is judged once.
pub fn open_both<'a>(file: &'a [u8], original: &[Departure]) -> [Said<Opened<'a>>; 2] {
    match header(file) {
        Ok(()) => [behind_header(file, &[]), behind_header(file, original)],
        Err(number) => [Err(number), Err(number)],
    }
}

fn behind_header<'a>(file: &'a [u8], original: &[Departure]) -> Said<Opened<'a>> {
    let sections = table(file, original)?;
    let (flags, zones) = (u32_at(file, 8), u32_at(file, 40));
    let mut opened = Opened { file, sections, flags, zones, grid: None };
    directories(&opened)?;
    names(&opened)?;
    if sections[8].is_some() {
        opened.grid = Some(grid(&opened)?);
    }
    chunks(&opened, original)?;
    groups(&opened, original)?;
    Ok(opened)
}

fn header(file: &[u8]) -> Said<()> {
    let size = file.len() as u64;
    let counts = 1..=65_535;
    need(1, (68..=4_294_967_295).contains(&size))?;
    need(2, file[0..4] == *b"TZFB" && file[4] == 1)?;
    match file[48] {
        0 => {}
        1 => return Err(3),
        _ => return Err(4),
    }
    need(5, u16_at(file, 6) == 64 && u32_at(file, 12) == 100_000 && u32_at(file, 16) == size)?;
    need(6, counts.contains(&u32_at(file, 40)))?;
    need(7, counts.contains(&u32_at(file, 44)))?;
    let version = &file[24..40];
    let first_zero = version.iter().position(|&b| b == 0).unwrap_or(16);
    need(8, version[first_zero..].iter().all(|&b| b == 0))?;
    need(9, utf8(&version[..first_zero]))?;
    need(10, table_end(file) <= size - 4)?;
    need(11, crc32(&file[..file.len() - 4]) as u64 == u32_at(file, size - 4))
}

fn table_end(file: &[u8]) -> u64 {
    64 + 16 * u32_at(file, 20)
}

fn table(file: &[u8], original: &[Departure]) -> Said<[Option<Section>; 15]> {
    let mut sections = [None; 15];
    let mut earlier = Vec::new();
    for at in (64..table_end(file)).step_by(16) {
        let typ = u32_at(file, at);
        let entry = Section { off: u32_at(file, at + 4), len: u32_at(file, at + 8) };
        need(12, entry.off % 4 == 0)?;
        need(13, entry.off >= table_end(file) && entry.end() <= file.len() as u64 - 4)?;
        if (1..=14).contains(&typ) {
            need(14, sections[typ as usize].is_none())?;
            need(15, allowed(typ, original))?;
            sections[typ as usize] = Some(entry);
        }
        need(16, earlier.iter().all(|&other| !share(entry, other, original)))?;
        earlier.push(entry);
    }
    Ok(sections)
}

fn allowed(typ: u64, original: &[Departure]) -> bool {
    (1..=10).contains(&typ) || typ == 11 && original.contains(&Departure::Type11)
}

/// Whether there is a byte in both.
fn share(a: Section, b: Section, original: &[Departure]) -> bool {
    if original.contains(&Departure::EmptyInside) {
        return a.off < b.end() && b.off < a.end();
    }
    a.off.max(b.off) < a.end().min(b.end())
}

const TZDIR: usize = 2;
const POLYDIR: usize = 3;
const RINGDIR: usize = 4;
const RINGOPS: usize = 5;
const GROUPDIR: usize = 6;
const CHUNKDIR: usize = 7;
const POINTS: usize = 9;

fn directories(o: &Opened) -> Said<()> {
    need(17, [1, 2, 3, 4, 5, 6, 7, 9].iter().all(|&typ: &usize| o.sections[typ].is_some()))?;
    need(18, (o.flags % 2 == 1) == o.sections[8].is_some())?;
    let len = |typ| o.section(typ).len;
    let whole = |typ, width| len(typ) % width == 0;
    need(
        19,
        len(TZDIR) == 24 * o.zones
            && whole(POLYDIR, 24)
            && whole(CHUNKDIR, 24)
            && whole(RINGDIR, 28)
            && whole(RINGOPS, 4)
            && whole(GROUPDIR, 44),
    )?;
    need(20, [POLYDIR, RINGDIR, RINGOPS, GROUPDIR, CHUNKDIR].iter().all(|&typ| len(typ) > 0))
}

impl Opened<'_> {
    /// Only of a section that is known to be there.
    fn section(&self, typ: usize) -> Section {
        self.sections[typ].unwrap()
    }

    /// Where a name's offsets stand.
    fn name_offset(&self, i: u64) -> u64 {
        u32_at(self.file, self.section(1).off + 4 + 4 * i)
    }

    /// A name's place in the file: where it starts and where it ends.
    fn name_place(&self, zone: u64) -> (u64, u64) {
        let blob = self.section(1).off + 4 + 4 * (self.zones + 1);
        (blob + self.name_offset(zone), blob + self.name_offset(zone + 1))
    }
}

fn names(o: &Opened) -> Said<()> {
    let section = o.section(1);
    need(21, section.len >= 8 + 4 * o.zones)?;
    let blob = u32_at(o.file, section.off);
    need(22, 4 + 4 * (o.zones + 1) + blob == section.len)?;
    for i in 0..=o.zones {
        let before = if i == 0 { 0 } else { o.name_offset(i - 1) };
        let offset = o.name_offset(i);
        need(23, offset >= before && offset <= blob && (i < o.zones || offset == blob))?;
        need(24, i == 0 || offset != before)?;
    }
    for zone in 0..o.zones {
        let (start, end) = o.name_place(zone);
        let name = &o.file[start as usize..end as usize];
        need(25, utf8(name))?;
        need(26, !name.contains(&0))?;
    }
    Ok(())
}

fn grid(o: &Opened) -> Said<Grid> {
    let Section { off, len } = o.section(8);
    need(27, len >= 12)?;
    let g = Grid {
        lng: i16_at(o.file, off),
        lat: i16_at(o.file, off + 2),
        columns: u16_at(o.file, off + 4),
        rows: u16_at(o.file, off + 6),
        total: u32_at(o.file, off + 8),
        words: off + 12,
    };
    need(
        28,
        g.columns > 0
            && g.rows > 0
            && (-181..=180).contains(&g.lng)
            && (-91..=90).contains(&g.lat)
            && g.lng + g.columns as i64 - 1 <= 181
            && g.lat + g.rows as i64 - 1 <= 91
            && g.total < 1 << 28,
    )?;
    need(29, 12 + 4 * g.cells() + 2 * g.total == len)?;
    for cell in 0..g.cells() {
        let (count, offset) = o.word(g, cell);
        need(30, offset + count <= g.total)?;
        for place in offset..offset + count {
            need(31, u16_at(o.file, g.candidates() + 2 * place) < o.zones)?;
        }
    }
    Ok(g)
}

fn box_in_domain(file: &[u8], at: u64) -> bool {
    let [minx, miny, maxx, maxy] = [0, 4, 8, 12].map(|i| i32_at(file, at + i));
    minx <= maxx
        && miny <= maxy
        && minx >= -18_000_000
        && maxx <= 18_000_000
        && miny >= -9_000_000
        && maxy <= 9_000_000
}

fn point_in_domain(file: &[u8], at: u64) -> bool {
    let (x, y) = (i32_at(file, at), i32_at(file, at + 4));
    (-18_000_000..=18_000_000).contains(&x) && (-9_000_000..=9_000_000).contains(&y)
}

/// A chunk's record: offset, count, two unread bytes, box.
fn chunks(o: &Opened, original: &[Departure]) -> Said<()> {
    let directory = o.section(CHUNKDIR);
    let mut before = None;
    for at in (directory.off..directory.end()).step_by(24) {
        let (offset, count) = (u32_at(o.file, at), u16_at(o.file, at + 4));
        let placed = count > 0 && offset < o.section(POINTS).len;
        need(34, box_in_domain(o.file, at + 8))?;
        need(if original.contains(&Departure::ChunkRecord) { 34 } else { 32 }, placed)?;
        need(32, before.is_none_or(|b| offset > b))?;
        before = Some(offset);
    }
    Ok(())
}

/// A group's record: first chunk, point count, chunk count, two unread bytes, entry, exit, box.
fn groups(o: &Opened, original: &[Departure]) -> Said<()> {
    let directory = o.section(GROUPDIR);
    let chunk_dir = o.section(CHUNKDIR);
    for at in (directory.off..directory.end()).step_by(44) {
        let (first, points) = (u32_at(o.file, at), u32_at(o.file, at + 4));
        let count = u16_at(o.file, at + 8);
        need(34, count >= 1 && first + count <= chunk_dir.len / 24)?;
        need(34, point_in_domain(o.file, at + 12) && point_in_domain(o.file, at + 20))?;
        need(34, box_in_domain(o.file, at + 28))?;
        need(34, points >= 2 || !original.contains(&Departure::ShortGroup))?;
        let counts = (first..first + count).map(|i| u16_at(o.file, chunk_dir.off + 24 * i + 4));
        need(33, counts.sum::<u64>() == points)?;
    }
    Ok(())
}
