//! The port's decoding, containment and lookups, as a voice. Lent memory is held to what was promised, to its last number.

use super::exports::*;
use super::opening::{Opened, said, unless_changed};
use crate::rules::Said;
use crate::voice::{Answer, Question, Voice};

/// What lent numbers hold before, and where nothing may be written.
const GUARD: u32 = 0xa5a5_a5a5;
/// So many numbers are lent behind the room, to see that they stay.
const BEHIND: usize = 8;

impl Opened<'_> {
    fn decode(&self, chunk: u32, room: usize) -> Said<Vec<i64>> {
        let (r, size, f, length) = self.parts();
        let mut out = vec![GUARD as i32; room + BEHIND];
        let code = unsafe { tzb_decode(r, size, f, length, chunk, out.as_mut_ptr(), room) };
        let written = 2 * code.max(0) as usize;
        unless_changed(code, &out, written, GUARD as i32)?;
        Ok(out[..written].iter().map(|&n| n.into()).collect())
    }

    pub fn contains(&self, zone: u32, x: i32, y: i32) -> Said<bool> {
        let (r, size, f, length) = self.parts();
        said(unsafe { tzb_contains(r, size, f, length, zone, x, y) }.into()).map(|is| is == 1)
    }

    fn lookup(&self, lng: f64, lat: f64) -> Said<Option<u64>> {
        let (r, size, f, length) = self.parts();
        match unsafe { tzb_ask(r, size, f, length, lng, lat) } {
            -1 => Ok(None),
            code => said(code).map(|zone| Some(zone as u64)),
        }
    }

    pub fn lookup_into(&self, lng: f64, lat: f64, places: usize) -> Said<Vec<u64>> {
        let (r, size, f, length) = self.parts();
        let mut zones = vec![GUARD; places + BEHIND];
        let (to, room) = (zones.as_mut_ptr(), places);
        let code = unsafe { tzb_ask_all(r, size, f, length, lng, lat, to, room) };
        let written = code.max(0) as usize;
        unless_changed(code, &zones, written, GUARD)?;
        Ok(zones[..written].iter().map(|&zone| zone.into()).collect())
    }
}

/// More than a chunk has numbers, or a small file zones.
fn at_most(room: u64, most: usize) -> usize {
    room.min(most as u64) as usize
}

impl Voice for Opened<'_> {
    fn ask(&self, question: Question) -> Option<Said<Answer>> {
        Some(match question {
            Question::Name(zone) => {
                self.name(zone).map(|(start, length)| Answer::Name(start, length))
            }
            Question::Candidates(lng, lat) => self.candidates(lng, lat).map(Answer::Candidates),
            Question::Candidate(place) => self.candidate(place).map(Answer::Candidate),
            Question::Decode(chunk, room) => {
                self.decode(chunk, at_most(room, 131_072)).map(Answer::Points)
            }
            Question::Contains(zone, x, y) => self.contains(zone, x, y).map(Answer::Is),
            Question::ContainsAt(..) => return None,
            Question::Lookup(lng, lat) => self.lookup(lng, lat).map(Answer::Zone),
            Question::LookupInto(lng, lat, places) => {
                self.lookup_into(lng, lat, at_most(places, 1024)).map(Answer::Zones)
            }
        })
    }
}

/// 0, opening's number, or 47 with the lowest broken rule.
pub fn full_check(file: &[u8]) -> (u32, u32) {
    let (data, length) = (file.as_ptr(), file.len());
    let code = unsafe { tzb_full_check(data, length) };
    let rule = unsafe { tzb_full_check_rule(data, length) };
    (said(code.into()).err().unwrap_or(0), rule)
}
