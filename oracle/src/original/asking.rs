//! The original's decoding, containment and lookups, as a voice.

use super::Points;
use super::opening::{Opened, said};
use crate::rules::Said;
use crate::voice::{Answer, Question, Voice};

impl Opened<'_> {
    /// The original's list grows; document 01's room is looked at here, in its order.
    fn decode(&self, chunk: u32, room: u64) -> Said<Vec<i64>> {
        let record = said(|| self.reader.chunk_at(chunk))?;
        if 2 * u64::from(record.count) > room {
            return Err(46);
        }
        let mut points = Vec::new();
        said(|| self.reader.decode_chunk_points(chunk, record, &mut points))?;
        Ok(points.into_iter().flat_map(|p| [p.x.into(), p.y.into()]).collect())
    }

    /// Added for scanners by document 01, over the original's walk.
    fn contains(&self, zone: u32, x: i32, y: i32) -> Said<bool> {
        if zone >= self.reader.timezone_count() {
            return Err(45);
        }
        if x.unsigned_abs() > 18_000_000 || y.unsigned_abs() > 9_000_000 {
            return Ok(false);
        }
        said(|| self.reader.ask_contains(zone, x.into(), y.into()))
    }

    fn lookup_into(&self, lng: f64, lat: f64, places: u64) -> Said<Vec<u64>> {
        let mut found = Vec::new();
        said(|| self.reader.lookup_into(lng, lat, &mut found))?;
        if found.len() as u64 > places {
            return Err(46);
        }
        Ok(found.into_iter().map(u64::from).collect())
    }
}

/// For measuring: nothing is caught, and a refusal is -2.
impl Opened<'_> {
    pub fn zone(&self, lng: f64, lat: f64) -> i64 {
        match self.reader.lookup(lng, lat) {
            Ok(zone) => zone.map_or(-1, i64::from),
            Err(_) => -2,
        }
    }

    pub fn zones(&self, lng: f64, lat: f64, zones: &mut Vec<u32>) -> i64 {
        self.reader.lookup_into(lng, lat, zones).map_or(-2, |()| zones.len() as i64)
    }

    pub fn is_in(&self, zone: u32, x: i32, y: i32) -> i32 {
        self.reader.ask_contains(zone, x.into(), y.into()).map_or(-2, i32::from)
    }

    pub fn points(&self, chunk: u32, points: &mut Points) -> i64 {
        points.clear();
        let decoded = self
            .reader
            .chunk_at(chunk)
            .and_then(|record| self.reader.decode_chunk_points(chunk, record, points));
        decoded.map_or(-2, |()| points.len() as i64)
    }

    pub fn zone_count(&self) -> u32 {
        self.reader.timezone_count()
    }

    pub fn name_bytes(&self, zone: u32) -> Option<&[u8]> {
        self.reader.name_bytes(zone).ok()
    }

    pub fn name_length(&self, zone: u32) -> i64 {
        self.reader.name_bytes(zone).map_or(-2, |name| name.len() as i64)
    }
}

impl Voice for Opened<'_> {
    fn ask(&self, question: Question) -> Option<Said<Answer>> {
        Some(match question {
            Question::Name(zone) => {
                self.name(zone).map(|(start, length)| Answer::Name(start, length))
            }
            Question::Candidates(lng, lat) => self.candidates(lng, lat).map(Answer::Candidates),
            Question::Candidate(place) => self.candidate(place).map(Answer::Candidate),
            Question::Decode(chunk, room) => self.decode(chunk, room).map(Answer::Points),
            Question::Contains(zone, x, y) => self.contains(zone, x, y).map(Answer::Is),
            Question::ContainsAt(zone, x, y) => {
                said(|| self.reader.ask_contains(zone, x, y)).map(Answer::Is)
            }
            Question::Lookup(lng, lat) => {
                let zone = said(|| self.reader.lookup(lng, lat));
                zone.map(|zone| Answer::Zone(zone.map(u64::from)))
            }
            Question::LookupInto(lng, lat, places) => {
                self.lookup_into(lng, lat, places).map(Answer::Zones)
            }
        })
    }
}
