//! The port's opening, names and candidates. Opening writes the opened record into lent bytes, and every question takes it beside the file.

use super::exports::*;
use crate::rules::{Candidates, Said};

pub const SIZE: usize = 84;
/// What lent memory holds before, and where nothing may be written.
const GUARD: u8 = 0xa5;

/// Stands where a refusal's number would: the port wrote where it may not.
pub const CHANGED: u32 = 1_000_001;
/// Stands there too: asked in two ways, the port says two things.
pub const AT_ODDS: u32 = 1_000_002;

/// The code's answer, if nothing but the first so many of what was lent has changed.
pub(super) fn unless_changed<T: PartialEq + Copy>(
    code: i64,
    lent: &[T],
    written: usize,
    guard: T,
) -> Said<i64> {
    // Slices of numbers are compared quicker than number by number, and much may be lent.
    let alike = |rest: &[T]| rest.chunks(64).all(|some| some == &[guard; 64][..some.len()]);
    let stays = lent.get(written..).is_some_and(alike);
    if stays { said(code) } else { Err(CHANGED) }
}

/// A number, or -1000 - n for refusal n.
pub fn said(code: i64) -> Said<i64> {
    if code < 0 { Err((-1000 - code) as u32) } else { Ok(code) }
}

/// Opens into lent memory of that size. Nothing is written behind the record, and nothing at all on a refusal.
pub fn open_into(file: &[u8], room: usize) -> Said<Vec<u8>> {
    let mut lent = vec![GUARD; room + 16];
    let code = unsafe { tzb_open(file.as_ptr(), file.len(), lent.as_mut_ptr(), room) };
    let kept = if code < 0 { 0 } else { SIZE };
    unless_changed(code.into(), &lent, kept, GUARD)?;
    lent.truncate(SIZE);
    Ok(lent)
}

/// Opens into more room than it takes, and into a byte too few.
pub fn open(file: &[u8]) -> Said<Opened<'_>> {
    let record = open_into(file, SIZE + 8);
    let short = open_into(file, SIZE - 1).err();
    if short != Some(record.as_ref().err().copied().unwrap_or(46)) {
        return Err(if short == Some(CHANGED) { CHANGED } else { AT_ODDS });
    }
    let record = record?;
    let zones = said(unsafe { tzb_zone_count(record.as_ptr(), record.len()) })?;
    let count = u32::from_le_bytes(file[40..44].try_into().unwrap());
    if zones == count.into() { Ok(Opened { record, lent: file }) } else { Err(AT_ODDS) }
}

/// Opens the file: the number of its refusal, or 0.
pub unsafe extern "C" fn refusal(file: *const u8, length: usize) -> u32 {
    let mut lent = [0; SIZE];
    let code = unsafe { tzb_open(file, length, lent.as_mut_ptr(), lent.len()) };
    said(code.into()).err().unwrap_or(0)
}

/// A file that the port has opened: its record, as the port's bytes, and the bytes that it is asked with.
pub struct Opened<'a> {
    record: Vec<u8>,
    lent: &'a [u8],
}

impl<'a> Opened<'a> {
    /// A record that may be made by hand, and any bytes.
    pub fn with(record: &[u8], lent: &'a [u8]) -> Self {
        Self { record: record.to_vec(), lent }
    }
}

impl Opened<'_> {
    /// The same record, asked with other bytes.
    pub fn asked_with<'b>(&self, lent: &'b [u8]) -> Opened<'b> {
        Opened { record: self.record.clone(), lent }
    }

    /// A pointer and a length of each, for the calls.
    pub fn parts(&self) -> (*const u8, usize, *const u8, usize) {
        (self.record.as_ptr(), self.record.len(), self.lent.as_ptr(), self.lent.len())
    }

    /// Where a name starts and how long it is. Both ends at once are as each alone, and 46 with one number lent.
    pub fn name(&self, zone: u32) -> Said<(u64, u64)> {
        let (r, size, f, length) = self.parts();
        let start = said(unsafe { tzb_name_start(r, size, f, length, zone) });
        let end = said(unsafe { tzb_name_end(r, size, f, length, zone) });
        let apart = start.and_then(|start| Ok((start as u64, end? as u64)));
        for (room, alike) in [(3, apart), (1, apart.and(Err(46)))] {
            let ends = self.ends(zone, room);
            if ends != alike {
                return Err(if ends == Err(CHANGED) { CHANGED } else { AT_ODDS });
            }
        }
        let (start, end) = apart?;
        end.checked_sub(start).map(|length| (start, length)).ok_or(AT_ODDS)
    }

    /// Both ends of a name, into so many lent numbers. Nothing is written behind them, and nothing at all on a refusal.
    fn ends(&self, zone: u32, room: usize) -> Said<(u64, u64)> {
        let (r, size, f, length) = self.parts();
        let mut ends = [u64::from(GUARD); 4];
        let code = unsafe { tzb_name(r, size, f, length, zone, ends.as_mut_ptr(), room) };
        let written = if code < 0 { 0 } else { 2 };
        unless_changed(code.into(), &ends, written, u64::from(GUARD))?;
        Ok((ends[0], ends[1]))
    }

    pub fn candidates(&self, lng: f64, lat: f64) -> Said<Candidates> {
        let (r, size, f, length) = self.parts();
        let kind = said(unsafe { tzb_choice(r, size, f, length, lng, lat) }.into())?;
        let listed = unsafe { tzb_listed(r, size, f, length, lng, lat) };
        let (count, offset) = (listed >> 32, listed & 0xffff_ffff);
        match kind {
            0 => Ok(Candidates::Nothing),
            1 => Ok(Candidates::EveryZone),
            _ if count == 0 => Ok(Candidates::Nothing),
            _ => Ok(Candidates::Cell { count, offset }),
        }
    }

    pub fn candidate(&self, place: u32) -> Said<u64> {
        let (r, size, f, length) = self.parts();
        said(unsafe { tzb_candidate(r, size, f, length, place) }).map(|zone| zone as u64)
    }
}

#[cfg(test)]
mod tests {
    use super::{CHANGED, unless_changed};

    /// Written where it may not be, or said to be written where nothing was lent.
    #[test]
    fn changed_memory_is_found_out() {
        let lent = [7, 7, 0, 0];
        assert_eq!(unless_changed(2, &lent, 2, 0), Ok(2));
        assert_eq!(unless_changed(-1042, &lent, 0, 0), Err(CHANGED));
        assert_eq!(unless_changed(1, &lent, 1, 0), Err(CHANGED));
        assert_eq!(unless_changed(9, &lent, 9, 0), Err(CHANGED));
        assert_eq!(unless_changed(-1042, &lent, 2, 0), Err(42));
    }
}
