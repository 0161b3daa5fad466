//! An opened index, and the questions that it answers.

use std::fmt;

use crate::journal::{self, Entry};
use crate::refusal::{NAME_NOT_UTF8, PAST_THE_END};
use crate::room::{into_room, room};
use crate::walk::{self, Stripes, Walk, WhyPlain};
use crate::{Refusal, sys};

/// An index file that was opened: opened once, asked often.
///
/// It holds the file's bytes as they are handed to it: its own (`Index<Vec<u8>>`, which `Index` alone stands for),
/// borrowed (`Index<&[u8]>`), shared (`Index<Arc<[u8]>>`) or mapped into memory. Beside them it holds a record of 84 bytes,
/// and [stripes](Walk), which make questions by long coastlines faster and are never longer than the file. No question
/// changes it, so threads may share it. A clone has its own record, and shares the stripes.
///
/// Positions are longitude first, then latitude, in degrees, as in tzf-rs. Any float may be asked: a position that is
/// not finite, or outside ±180 and ±90, lies in no zone.
///
/// ```
/// # fn main() -> Result<(), Box<dyn std::error::Error>> {
/// let file = std::fs::read("../sample/real-ne.tzb")?;
/// let index = tzb::Index::open(&file)?;
/// assert_eq!(index.name_at(8.68, 50.11)?, Some("Germany"));
/// # Ok(())
/// # }
/// ```
///
/// One that owns its bytes can be a field, and be replaced while the program runs. Where the new file is refused, the old
/// index stays:
///
/// ```
/// use std::error::Error;
///
/// struct Places {
///     index: tzb::Index,
/// }
///
/// impl Places {
///     fn load(path: &str) -> Result<Self, Box<dyn Error>> {
///         Ok(Self { index: tzb::Index::open_checked(tzb::read(path)?)? })
///     }
///
///     fn reload(&mut self, path: &str) -> Result<(), Box<dyn Error>> {
///         self.index = tzb::Index::open_checked(tzb::read(path)?)?;
///         Ok(())
///     }
/// }
///
/// # fn main() -> Result<(), Box<dyn Error>> {
/// let mut places = Places::load("../sample/real-ne.tzb")?;
/// assert!(places.reload("Cargo.toml").is_err());
/// assert_eq!(places.index.name_at(8.68, 50.11)?, Some("Germany"));
/// # Ok(())
/// # }
/// ```
///
/// # Bytes that change
///
/// The record and the stripes are made of the bytes that [`as_ref`](AsRef::as_ref) gives at opening, and every question
/// asks for the bytes again. What the standard library has gives the same each time. A type of one's own may give others:
/// then a question is answered for the record, the stripes and the bytes of that moment. It gets a zone, none or a refusal
/// as ever, since the reader is proved for any record, any stripes and any bytes; what opening or the full check said of
/// the first bytes no longer counts.
#[derive(Clone)]
pub struct Index<B = Vec<u8>> {
    file: B,
    record: sys::Record,
    stripes: Stripes,
}

/// The most points that a chunk can have: its record counts them in 16 bits.
const POINTS_OF_A_CHUNK: usize = 65_535;

impl<B: AsRef<[u8]>> Index<B> {
    /// Opens a file: looks at its header, sections, names, grid, chunks and groups, and at its checksum.
    ///
    /// Opening does not look at every record, point and box. [`open_checked`](Self::open_checked) does. Of a file that was
    /// only opened every question gets a zone, none or a refusal; but where its boxes do not cover what lies in them, it
    /// can be the wrong zone, or none.
    ///
    /// Stripes are built where they can be, and [`walk`](Self::walk) tells whether they were. A file that has none is
    /// opened all the same.
    ///
    /// # Errors
    /// Refusals 1 to 34, the first that applies.
    pub fn open(file: B) -> Result<Self, Refusal> {
        // One slice for both, whatever `as_ref` gives the next time.
        let bytes = file.as_ref();
        let record = opened(bytes)?;
        let stripes = walk::stripes(&record, bytes);
        Ok(Self { file, record, stripes })
    }

    /// Opens a file as [`open`](Self::open) does, and builds no stripes. Every answer is the same.
    ///
    /// For a few positions, which are answered sooner than stripes are built, or where memory is short. A file from outside
    /// is given to the [full check](crate::full_check) first.
    ///
    /// ```
    /// # fn main() -> Result<(), Box<dyn std::error::Error>> {
    /// use tzb::{Index, Walk, WhyPlain};
    ///
    /// let index = Index::open_plain(tzb::read("../sample/real-ne.tzb")?)?;
    /// assert_eq!(index.name_at(8.68, 50.11)?, Some("Germany"));
    /// assert_eq!(index.walk(), Walk::Plain(WhyPlain::Chosen));
    /// # Ok(())
    /// # }
    /// ```
    ///
    /// # Errors
    /// Refusals 1 to 34, as [`open`](Self::open) has them.
    pub fn open_plain(file: B) -> Result<Self, Refusal> {
        let record = opened(file.as_ref())?;
        Ok(Self { file, record, stripes: Err(WhyPlain::Chosen) })
    }

    /// Opens a file that the [full check](crate::full_check) accepts, and no other.
    ///
    /// Then no question is refused but for a number that is too large, and containment at points of whole
    /// hundred-thousandths of a degree is that of exact geometry. Both are proved. Stripes are built as for
    /// [`open`](Self::open).
    ///
    /// ```
    /// # fn main() -> Result<(), Box<dyn std::error::Error>> {
    /// let index = tzb::Index::open_checked(tzb::read("../sample/real-ne.tzb")?)?;
    /// assert_eq!(index.name_at(8.68, 50.11)?, Some("Germany"));
    /// # Ok(())
    /// # }
    /// ```
    ///
    /// # Errors
    /// Refusals 1 to 34, as [`open`](Self::open) has them; or 47, with the lowest broken [`rule`](Refusal::rule).
    pub fn open_checked(file: B) -> Result<Self, Refusal> {
        // One slice for all three, whatever `as_ref` gives the next time.
        let bytes = file.as_ref();
        crate::full_check(bytes)?;
        let record = opened(bytes)?;
        let stripes = walk::stripes(&record, bytes);
        Ok(Self { file, record, stripes })
    }

    /// Whether questions go by stripes; if not, why not. It changes no answer, only the time that one takes.
    #[must_use]
    pub fn walk(&self) -> Walk {
        match &self.stripes {
            Ok(numbers) => Walk::Striped { numbers: numbers.len() },
            Err(why) => Walk::Plain(*why),
        }
    }

    /// The zone that a position lies in, or none. Where several contain it, the first that the file lists.
    ///
    /// # Errors
    /// A refusal where the file's records or points are broken: never on a file that the full check accepts. Where the bytes
    /// of a chunk are broken, 38 to 43, it has their [`place`](Refusal::place).
    pub fn zone(&self, lng: f64, lat: f64) -> Result<Option<u32>, Refusal> {
        let (record, file) = (&self.record, self.file());
        let code = match &self.stripes {
            Ok(numbers) => sys::ask_striped(record, numbers, file, lng, lat),
            Err(_) => sys::ask(record, file, lng, lat),
        };
        let place = || match &self.stripes {
            Ok(numbers) => sys::ask_striped_place(record, numbers, file, lng, lat),
            Err(_) => sys::ask_place(record, file, lng, lat),
        };
        match code {
            -1 => Ok(None),
            code => answered(code, place).map(|zone| Some(zone as u32)),
        }
    }

    /// All zones that a position lies in, in the order of their names' bytes.
    ///
    /// Every candidate is tested, so a zone that [`zone`](Self::zone) answers from the grid alone is listed here only
    /// where it does contain the position.
    ///
    /// ```
    /// # fn main() -> Result<(), Box<dyn std::error::Error>> {
    /// # let file = std::fs::read("../sample/real-ne.tzb")?;
    /// let index = tzb::Index::open(&file)?;
    /// let zones = index.zones(8.68, 50.11)?;
    /// assert_eq!(zones.len(), 1);
    /// assert_eq!(index.name(zones[0])?, "Germany");
    /// # Ok(())
    /// # }
    /// ```
    ///
    /// # Errors
    /// As for [`zone`](Self::zone).
    pub fn zones(&self, lng: f64, lat: f64) -> Result<Vec<u32>, Refusal> {
        // A cell of a GRID has at most 15 candidates; without one, all zones can be asked for.
        let (few, most) = (15, self.zone_count() as usize);
        let (record, file) = (&self.record, self.file());
        let ask = |room: &mut [u32]| match &self.stripes {
            Ok(numbers) => sys::ask_all_striped(record, numbers, file, lng, lat, room),
            Err(_) => sys::ask_all(record, file, lng, lat, room),
        };
        let place = |room: &[u32]| match &self.stripes {
            Ok(numbers) => sys::ask_all_striped_place(record, numbers, file, lng, lat, room),
            Err(_) => sys::ask_all_place(record, file, lng, lat, room),
        };
        into_room(few, most, ask, place)
    }

    /// The name of the zone that a position lies in, or none: [`zone`](Self::zone), then [`name`](Self::name).
    ///
    /// # Errors
    /// As for [`zone`](Self::zone).
    pub fn name_at(&self, lng: f64, lat: f64) -> Result<Option<&str>, Refusal> {
        self.zone(lng, lat)?.map(|zone| self.name(zone)).transpose()
    }

    /// The names of all zones that a position lies in, in the order of their bytes.
    ///
    /// # Errors
    /// As for [`zone`](Self::zone).
    pub fn names_at(&self, lng: f64, lat: f64) -> Result<Vec<&str>, Refusal> {
        self.zones(lng, lat)?.into_iter().map(|zone| self.name(zone)).collect()
    }

    /// How many zones there are, 1 to 65,535. Zone numbers are those below.
    #[must_use]
    pub fn zone_count(&self) -> u32 {
        // The export refuses only a record of another length.
        sys::zone_count(&self.record).try_into().unwrap_or(0)
    }

    /// A zone's name, as it stands in the file.
    ///
    /// # Errors
    /// Refusal 45 for a zone number that is too large.
    pub fn name(&self, zone: u32) -> Result<&str, Refusal> {
        let mut ends = [0; 2];
        let file = self.file();
        Refusal::of_code(sys::name(&self.record, file, zone, &mut ends).into())?;
        // Opening has looked at both already. Looking again is cheap, and needs no `unsafe`.
        let name = file.get(ends[0] as usize..ends[1] as usize);
        let name = name.ok_or(Refusal::new(PAST_THE_END))?;
        std::str::from_utf8(name).map_err(|_| Refusal::new(NAME_NOT_UTF8))
    }

    /// The names of all zones, by zone number. [`Result::ok`] or `collect::<Result<Vec<_>, _>>()` makes them plain.
    ///
    /// ```
    /// # fn main() -> Result<(), Box<dyn std::error::Error>> {
    /// # let file = std::fs::read("../sample/real-ne.tzb")?;
    /// let index = tzb::Index::open(&file)?;
    /// let names: Vec<&str> = index.names().collect::<Result<_, _>>()?;
    /// assert_eq!(names.len(), 481);
    /// # Ok(())
    /// # }
    /// ```
    pub fn names(&self) -> impl ExactSizeIterator<Item = Result<&str, Refusal>> {
        // Zone numbers have 16 bits, and a range of them knows its length.
        let count = u16::try_from(self.zone_count()).unwrap_or(u16::MAX);
        (0..count).map(|zone| self.name(zone.into()))
    }

    /// Whether a zone contains a point of whole numbers, in hundred-thousandths of a degree: `x` is 100,000 times the
    /// longitude, `y` the latitude.
    ///
    /// On a file that the full check accepts the answer is that of exact geometry, edges included. A point outside
    /// ±18,000,000 and ±9,000,000 is in no zone.
    ///
    /// # Errors
    /// Refusal 45 for a zone number that is too large; else as for [`zone`](Self::zone).
    pub fn contains(&self, zone: u32, x: i32, y: i32) -> Result<bool, Refusal> {
        let (record, file) = (&self.record, self.file());
        let code = match &self.stripes {
            Ok(numbers) => sys::contains_striped(record, numbers, file, zone, x, y),
            Err(_) => sys::contains(record, file, zone, x, y),
        };
        let place = || match &self.stripes {
            Ok(numbers) => sys::contains_striped_place(record, numbers, file, zone, x, y),
            Err(_) => sys::contains_place(record, file, zone, x, y),
        };
        answered(code.into(), place).map(|inside| inside == 1)
    }

    /// The points of a chunk, `[x, y]` each, in hundred-thousandths of a degree. Chunk numbers are those below
    /// [`chunk_count`](Self::chunk_count).
    ///
    /// # Errors
    /// Refusal 34 for a chunk number that is too large; else a refusal where the chunk's bytes are broken, 38 to 43, with
    /// their [`place`](Refusal::place).
    pub fn decode(&self, chunk: u32) -> Result<Vec<[i32; 2]>, Refusal> {
        let (record, file) = (&self.record, self.file());
        let decode =
            |room: &mut [[i32; 2]]| sys::decode(record, file, chunk, room.as_flattened_mut());
        let place = |room: &[[i32; 2]]| sys::decode_place(record, file, chunk, room.as_flattened());
        into_room(256, POINTS_OF_A_CHUNK, decode, place)
    }

    /// A zone as GeoJSON, to be drawn on a map: [`map`](crate::map) of the file's bytes, the full check included.
    ///
    /// ```
    /// # fn main() -> Result<(), Box<dyn std::error::Error>> {
    /// # let file = std::fs::read("../sample/real-ne.tzb")?;
    /// let index = tzb::Index::open(&file)?;
    /// let zone = index.zone(8.68, 50.11)?.ok_or("no zone")?;
    /// assert!(index.map(zone)?.starts_with(r#"{"type":"MultiPolygon","#));
    /// # Ok(())
    /// # }
    /// ```
    ///
    /// # Errors
    /// As for [`map`](crate::map): the full check's refusal, 45, 48 or 46.
    pub fn map(&self, zone: u32) -> Result<String, Refusal> {
        crate::map(self.file(), zone)
    }

    /// What is answered at a point of whole numbers, in hundred-thousandths of a degree, as an entry of a
    /// [journal](crate::journal): all zones that contain it, in the order of their names' bytes, or the refusal.
    ///
    /// Every zone is asked in turn, as [`contains`](Self::contains) asks it. The grid is not looked at, so there can be
    /// more zones than [`zones`](Self::zones) lists. A point outside ±18,000,000 and ±9,000,000 is in no zone.
    ///
    /// ```
    /// # fn main() -> Result<(), Box<dyn std::error::Error>> {
    /// # let file = std::fs::read("../sample/real-ne.tzb")?;
    /// let index = tzb::Index::open(&file)?;
    /// let entry = index.journal(868_000, 5_011_000);
    /// let names = entry.zones().iter().map(|&zone| index.name(zone));
    /// assert_eq!(names.collect::<Result<Vec<_>, _>>()?, ["Etc/GMT-1", "Germany"]);
    /// # Ok(())
    /// # }
    /// ```
    #[must_use]
    pub fn journal(&self, x: i32, y: i32) -> Entry {
        let mut bytes = [0; journal::ENTRY];
        let asked = self.write_entry(x, y, &mut bytes).and_then(|()| Entry::read(&bytes));
        // The export refuses no such call, and what it writes is read. A refusal would be no answer, and is told as that.
        asked.unwrap_or_else(|refusal| Entry::refused(x, y, refusal))
    }

    /// The bytes of a [journal](crate::journal): an entry for each of the points, `[x, y]` each, as
    /// [`journal`](Self::journal) has it. They can be written behind those of an older journal.
    ///
    /// # Errors
    /// Refusal 46 where there is no memory for them. What is refused at a point stands in its entry.
    pub fn journal_bytes(&self, points: &[[i32; 2]]) -> Result<Vec<u8>, Refusal> {
        let mut bytes = room(points.len().saturating_mul(journal::ENTRY))?;
        for (&[x, y], entry) in points.iter().zip(bytes.chunks_exact_mut(journal::ENTRY)) {
            self.write_entry(x, y, entry)?;
        }
        Ok(bytes)
    }

    fn write_entry(&self, x: i32, y: i32, out: &mut [u8]) -> Result<(), Refusal> {
        let code = sys::journal_ask(&self.record, self.file(), journal::PLACES, x, y, out);
        Refusal::of_code(code.into()).map(|_| ())
    }

    /// The file's bytes.
    #[must_use]
    pub fn file(&self) -> &[u8] {
        self.file.as_ref()
    }

    /// The file's bytes, as they were handed in.
    #[must_use]
    pub fn into_file(self) -> B {
        self.file
    }
}

/// What a code of a question says, where the second export tells the place of its refusal.
fn answered(code: i64, place: impl FnOnce() -> i64) -> Result<usize, Refusal> {
    Refusal::of_code(code).map_err(|refusal| refusal.with_place(place))
}

/// The record of a file, 84 bytes.
fn opened(file: &[u8]) -> Result<sys::Record, Refusal> {
    let mut record = [0; sys::RECORD];
    Refusal::of_code(sys::open(file, &mut record).into())?;
    Ok(record)
}

impl<B: AsRef<[u8]>> fmt::Debug for Index<B> {
    fn fmt(&self, f: &mut fmt::Formatter<'_>) -> fmt::Result {
        f.debug_struct("Index")
            .field("bytes", &self.file().len())
            .field("zones", &self.zone_count())
            .field("walk", &self.walk())
            .finish()
    }
}
