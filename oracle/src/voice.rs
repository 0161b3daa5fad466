//! Who can be asked of an opened file, and what. The rules, the original and the port are voices.

use crate::rules::{Candidates, Judge, Placed, Said};

#[derive(Debug, Clone, Copy)]
pub enum Question {
    /// A zone.
    Name(u32),
    Candidates(f64, f64),
    /// A place of the candidates.
    Candidate(u32),
    /// A chunk, and how many numbers there is room for.
    Decode(u32, u64),
    /// A zone and a whole-number point.
    Contains(u32, i32, i32),
    /// A zone and any float point, not scaled.
    ContainsAt(u32, f64, f64),
    Lookup(f64, f64),
    /// How many places are lent for the zones.
    LookupInto(f64, f64, u64),
}

#[derive(Debug, Clone, PartialEq, Eq)]
pub enum Answer {
    /// Where it starts in the lent bytes, and its length.
    Name(u64, u64),
    Candidates(Candidates),
    Candidate(u64),
    Points(Vec<i64>),
    Is(bool),
    Zone(Option<u64>),
    Zones(Vec<u64>),
}

pub trait Voice {
    /// None where the voice has no way to be asked this.
    fn ask(&self, question: Question) -> Option<Said<Answer>>;
}

impl Judge<'_> {
    /// The rules can be asked all. A refusal comes with its place.
    pub fn answer(&self, question: Question) -> Placed<Answer> {
        let opened = &self.opened;
        Ok(match question {
            Question::Name(zone) => {
                let (start, length) = opened.name(zone.into())?;
                Answer::Name(start, length)
            }
            Question::Candidates(lng, lat) => Answer::Candidates(opened.candidates(lng, lat)?),
            Question::Candidate(place) => Answer::Candidate(opened.candidate(place.into())?),
            Question::Decode(chunk, room) => Answer::Points(opened.decode(chunk.into(), room)?),
            Question::Contains(zone, x, y) => Answer::Is(self.contains(zone.into(), x, y)?),
            Question::ContainsAt(zone, x, y) => Answer::Is(self.contains_at(zone.into(), x, y)?),
            Question::Lookup(lng, lat) => Answer::Zone(self.lookup(lng, lat)?),
            Question::LookupInto(lng, lat, places) => {
                Answer::Zones(self.lookup_into(lng, lat, places)?)
            }
        })
    }
}

impl Voice for Judge<'_> {
    fn ask(&self, question: Question) -> Option<Said<Answer>> {
        Some(self.answer(question).map_err(u32::from))
    }
}
