//! What an opened file says of itself: its version, its sections, its grid. Plain reads of the header and the section
//! table, which opening has looked at.

use crate::Index;

/// A section of the file, as the section table has it.
#[derive(Clone, Copy, Debug, PartialEq, Eq)]
pub struct Section {
    /// The type: 1 to 10 are known, others are passed over by the reader.
    pub kind: u32,
    /// Where it starts in the file.
    pub offset: u32,
    /// How many bytes it has.
    pub length: u32,
}

impl Section {
    /// The name of a known type.
    #[must_use]
    pub fn name(&self) -> Option<&'static str> {
        self.known().map(|(name, _)| name)
    }

    /// How many records a directory has. None for a section that is no directory.
    #[must_use]
    pub fn records(&self) -> Option<u32> {
        self.known().and_then(|(_, size)| self.length.checked_div(size))
    }

    fn known(&self) -> Option<(&'static str, u32)> {
        let place = (self.kind as usize).checked_sub(1)?;
        KNOWN.get(place).copied()
    }
}

/// The known types from 1 on: name, and the size of a record of a directory, else 0.
const KNOWN: [(&str, u32); 10] = [
    ("NAMES", 0),
    ("TZDIR", 24),
    ("POLYDIR", 24),
    ("RINGDIR", 28),
    ("RINGOPS", 4),
    ("GROUPDIR", 44),
    ("CHUNKDIR", 24),
    ("GRID", 0),
    ("POINTS", 0),
    ("FUZZY", 0),
];

/// The cells of a GRID, one degree each way.
#[derive(Clone, Copy, Debug, PartialEq, Eq)]
pub struct Grid {
    /// The longitude at which the first column starts.
    pub lng: i16,
    /// The latitude at which the first row starts.
    pub lat: i16,
    /// How many columns.
    pub columns: u16,
    /// How many rows.
    pub rows: u16,
    /// How many candidates all cells share.
    pub candidates: u32,
}

impl<B: AsRef<[u8]>> Index<B> {
    /// The version that the file says its data has, as `2026c`; it may be empty.
    #[must_use]
    pub fn data_version(&self) -> &str {
        let field = self.file().get(24..40).unwrap_or_default();
        let text = field.split(|&byte| byte == 0).next().unwrap_or_default();
        std::str::from_utf8(text).unwrap_or_default()
    }

    /// The sections, in the order of the section table.
    pub fn sections(&self) -> impl Iterator<Item = Section> {
        let count = word(self.file(), 20).unwrap_or(0) as usize;
        let table = self.file().get(64..).unwrap_or_default();
        table.chunks_exact(16).take(count).filter_map(|entry| {
            Some(Section {
                kind: word(entry, 0)?,
                offset: word(entry, 4)?,
                length: word(entry, 8)?,
            })
        })
    }

    /// How many chunks of points there are. Chunk numbers are those below: [`decode`](Self::decode) takes one.
    ///
    /// ```
    /// # fn main() -> Result<(), Box<dyn std::error::Error>> {
    /// # let file = std::fs::read("../sample/real-ne.tzb")?;
    /// let index = tzb::Index::open(&file)?;
    /// let broken = (0..index.chunk_count()).find(|&chunk| index.decode(chunk).is_err());
    /// assert_eq!((index.chunk_count(), broken), (5408, None));
    /// # Ok(())
    /// # }
    /// ```
    #[must_use]
    pub fn chunk_count(&self) -> u32 {
        let section = self.sections().find(|section| section.name() == Some("CHUNKDIR"));
        section.and_then(|section| section.records()).unwrap_or(0)
    }

    /// The grid, where the file has one.
    #[must_use]
    pub fn grid(&self) -> Option<Grid> {
        let section = self.sections().find(|section| section.name() == Some("GRID"))?;
        let bytes = self.file().get(section.offset as usize..)?;
        Some(Grid {
            lng: i16::from_le_bytes(array(bytes, 0)?),
            lat: i16::from_le_bytes(array(bytes, 2)?),
            columns: u16::from_le_bytes(array(bytes, 4)?),
            rows: u16::from_le_bytes(array(bytes, 6)?),
            candidates: word(bytes, 8)?,
        })
    }

    /// The checksum that stands in the file's last four bytes. Opening has held it against the CRC-32 of all before them.
    #[must_use]
    pub fn checksum(&self) -> u32 {
        self.file().last_chunk().map_or(0, |bytes| u32::from_le_bytes(*bytes))
    }
}

fn array<const N: usize>(bytes: &[u8], at: usize) -> Option<[u8; N]> {
    bytes.get(at..)?.first_chunk().copied()
}

fn word(bytes: &[u8], at: usize) -> Option<u32> {
    array(bytes, at).map(u32::from_le_bytes)
}
