//! A journal of answers: document 02's request 2026-04, written straight from its words. All is over the number of places that an entry has
//! for zones; `asked`, `written` and `read` are what is said to a caller, who may say three alone.

use super::bytes::{i32_at, u16_at};
use super::{Judge, Opened, Said, need, open};

/// How many places an entry has.
pub const PLACES: usize = 3;

/// Stands in a place without a zone.
const UNUSED: u16 = 65_535;
/// The last refusal that an entry tells.
const LAST: u32 = 46;

/// What an entry says of a position: its zones in their order, or the reason why none are told.
#[derive(Debug, Clone, PartialEq, Eq)]
pub struct Entry {
    pub x: i32,
    pub y: i32,
    pub zones: Vec<u32>,
    pub reason: u32,
}

/// x and y, two bytes a place, a count and a reason.
pub const fn length(places: usize) -> usize {
    10 + 2 * places
}

fn in_domain(x: i32, y: i32) -> bool {
    x.unsigned_abs() <= 18_000_000 && y.unsigned_abs() <= 9_000_000
}

impl Entry {
    /// Reason 0 with up to as many different zone numbers below 65535 as there are places, and with none outside the domain; or no zones
    /// and reason 1 to 46.
    fn is_of_a_form(&self, places: usize) -> bool {
        let zones = &self.zones;
        let differ = || (0..zones.len()).all(|i| !zones[..i].contains(&zones[i]));
        match self.reason {
            0 => {
                zones.len() <= places
                    && zones.iter().all(|&zone| zone < UNUSED.into())
                    && differ()
                    && (zones.is_empty() || in_domain(self.x, self.y))
            }
            1..=LAST => zones.is_empty(),
            _ => false,
        }
    }

    /// Its bytes, or 50 where it is of no form.
    pub fn write(&self, places: usize) -> Said<Vec<u8>> {
        need(50, self.is_of_a_form(places))?;
        let mut out = [self.x.to_le_bytes(), self.y.to_le_bytes()].concat();
        for place in 0..places {
            let zone = self.zones.get(place).map_or(UNUSED, |&zone| zone as u16);
            out.extend(zone.to_le_bytes());
        }
        out.extend([self.zones.len() as u8, self.reason as u8]);
        Ok(out)
    }

    /// What the bytes say, or 50 where they are of another length or of no form.
    pub fn read(bytes: &[u8], places: usize) -> Said<Self> {
        need(50, bytes.len() == length(places))?;
        let (x, y) = (i32_at(bytes, 0) as i32, i32_at(bytes, 4) as i32);
        let all: Vec<u32> = (0..places).map(|i| u16_at(bytes, 8 + 2 * i as u64) as u32).collect();
        let (count, reason) = (bytes[8 + 2 * places].into(), bytes[9 + 2 * places].into());
        need(50, count <= places)?;
        let (zones, unused) = all.split_at(count);
        need(50, unused.iter().all(|&zone| zone == UNUSED.into()))?;
        let entry = Self { x, y, zones: zones.to_vec(), reason };
        need(50, entry.is_of_a_form(places))?;
        Ok(entry)
    }

    /// What is written where the file does not open, or a list is refused.
    fn refused(x: i32, y: i32, reason: u32) -> Self {
        Self { x, y, zones: Vec::new(), reason }
    }
}

impl Opened<'_> {
    /// The whole-number list: every zone in turn, without GRID, then the names of those that hold the point, each up to the first refusal.
    /// Then 46 for more zones than places, and 45 for a number that no place holds. By name bytes, and equal names in zone order.
    fn whole_number_list(&self, places: usize, x: i32, y: i32) -> Said<Vec<u32>> {
        // No zone holds the point, and none is looked at: a record may say that there are billions.
        if !in_domain(x, y) {
            return Ok(Vec::new());
        }
        let judge = Judge::plain(*self, &[]);
        let mut found = Vec::new();
        for zone in 0..self.zones {
            if judge.contains(zone, x, y)? {
                found.push(zone);
            }
        }
        let mut named = Vec::new();
        for zone in found {
            let (start, length) = self.name(zone)?;
            named.push((&self.file[start as usize..(start + length) as usize], zone));
        }
        need(46, named.len() <= places)?;
        need(45, named.iter().all(|&(_, zone)| zone < UNUSED.into()))?;
        named.sort();
        Ok(named.into_iter().map(|(_, zone)| zone as u32).collect())
    }

    /// The answer rule: what an entry says of a question.
    pub fn entry(&self, places: usize, x: i32, y: i32) -> Entry {
        match self.whole_number_list(places, x, y) {
            Ok(zones) => Entry { x, y, zones, reason: 0 },
            Err(number) => Entry::refused(x, y, number),
        }
    }
}

/// The entry of a file: opening's refusal stands in every one.
pub fn of_file(file: &[u8], places: usize, x: i32, y: i32) -> Entry {
    match open(file, &[]) {
        Ok(opened) => opened.entry(places, x, y),
        Err(number) => Entry::refused(x, y, number),
    }
}

/// As many places as a caller may say; others are 50.
fn allowed(places: u32) -> Said<usize> {
    need(50, places == PLACES as u32)?;
    Ok(PLACES)
}

/// The entry of an opened record, into so many bytes: 44 for a record of another length, 50, then 46. A refused question is no refused call.
pub fn asked(
    record: &[u8],
    file: &[u8],
    places: u32,
    (x, y): (i32, i32),
    room: usize,
) -> Said<Vec<u8>> {
    let opened = Opened::of_record(record, file)?;
    let places = allowed(places)?;
    need(46, room >= length(places))?;
    Ok(opened.entry(places, x, y).write(places).expect("an answer is of a form"))
}

/// An entry into so many bytes: 50, then 46.
pub fn written(entry: &Entry, places: u32, room: usize) -> Said<Vec<u8>> {
    let places = allowed(places)?;
    let bytes = entry.write(places)?;
    need(46, room >= length(places))?;
    Ok(bytes)
}

/// An entry into so many numbers for the position, and so many for the zones: 50, then 46.
pub fn read(bytes: &[u8], places: u32, rooms: [usize; 2]) -> Said<Entry> {
    let entry = Entry::read(bytes, allowed(places)?)?;
    need(46, rooms[0] >= 2 && rooms[1] >= entry.zones.len())?;
    Ok(entry)
}

#[cfg(test)]
mod tests;
