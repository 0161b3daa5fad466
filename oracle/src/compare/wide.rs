//! Many files and few questions to each: random ones, valid and damaged, through opening, names, candidates, decoding, containment, lookups and, now and then, the full check.
//! A file's record is also asked with other bytes. Two runs with different seeds see different files.

use super::asking::{self, met::Met as Asked, questions};
use super::files::met::Met as Openings;
use super::panel::{Difference, Panel};
use super::sides::{Record, Sides};
use super::{Tally, stop};
use crate::bytes::hex;
use crate::file::damage::Aim;
use crate::file::{self, seal, tables};
use crate::random::Random;
use crate::voice::Question;
use std::time::{Duration, Instant};

/// How often each damage is done to one valid file.
const MIX: [(Kind, u64); 7] = [
    (Kind::Damaged(1), 40),
    (Kind::Damaged(2), 40),
    (Kind::Damaged(3), 16),
    (Kind::Unrepaired(1), 4),
    (Kind::Unrepaired(2), 4),
    (Kind::Cut, 4),
    (Kind::Sealed, 4),
];

/// Of these fewer are damaged: the original and the rules look at every pair of sections.
const MANY_SECTIONS: &str = "valid files with more than 64 sections";

#[derive(Clone, Copy)]
enum Kind {
    /// In so many places; the sum is repaired but for one time in 50.
    Damaged(usize),
    Unrepaired(usize),
    Cut,
    /// Cut, and its size and sum repaired.
    Sealed,
}

impl Kind {
    fn name(self) -> &'static str {
        match self {
            Kind::Damaged(1) => "files with one damage",
            Kind::Damaged(2) => "files with two damages",
            Kind::Damaged(_) => "files with three damages",
            Kind::Unrepaired(_) => "files with one or two damages, the sum not repaired",
            Kind::Cut => "files cut",
            Kind::Sealed => "files cut, size and sum repaired",
        }
    }

    fn of(self, file: &[u8], aim: &Aim, random: &mut Random) -> Vec<u8> {
        match self {
            Kind::Damaged(count) => aim.damage(random, file, count),
            Kind::Unrepaired(count) => aim.unrepaired(random, file, count),
            Kind::Cut => file[..random.below(file.len())].to_vec(),
            Kind::Sealed => {
                let mut out = file[..random.below(file.len())].to_vec();
                seal(&mut out);
                out
            }
        }
    }
}

/// A difference: the file, the bytes that its record was asked with where they are others, and what was asked.
struct Found {
    file: Vec<u8>,
    lent: Option<Vec<u8>>,
    question: Option<Question>,
    why: String,
}

impl Found {
    fn of(file: &[u8], lent: Option<&[u8]>, difference: Difference) -> Box<Self> {
        let (question, why) = (Some(difference.question), difference.to_string());
        Box::new(Self { file: file.to_vec(), lent: lent.map(<[u8]>::to_vec), question, why })
    }

    fn at_opening(file: &[u8], why: String) -> Box<Self> {
        Box::new(Self { file: file.to_vec(), lent: None, question: None, why })
    }

    /// What differs where the panel is asked the same.
    fn again(&self, panel: &Panel) -> Option<String> {
        Some(panel.ask_all(self.question).err()?.to_string())
    }

    /// What differs in this file, of the same kind.
    fn anew(&self, file: &[u8]) -> Option<String> {
        let sides = Sides::open(file);
        match self.question {
            None => sides.agree().err().or_else(|| asking::checks_differ(file)),
            Some(_) => self.again(&Panel::of(sides).checked()),
        }
    }

    /// Makes the file small, or the bytes that its record is asked with, keeps it and ends the run.
    fn tell(&self, seed: u64) -> ! {
        println!("seed {seed}");
        let Some(lent) = &self.lent else { stop(&self.file, &self.why, |file| self.anew(file)) };
        println!("asked with other bytes than those of the file {}", hex(&self.file));
        let sides = Sides::open(&self.file);
        let record = sides.record(&self.file).expect("a file that opens");
        stop(lent, &self.why, |lent| self.again(&Panel::with_other_bytes(&record, lent)))
    }
}

/// Joins each panel before it is asked.
type Joins = Box<dyn for<'a> Fn(&mut Panel<'a>)>;

struct Run {
    random: Random,
    joins: Joins,
    tally: Tally,
    openings: Openings,
    asked: Asked,
}

type Held = Result<(), Box<Found>>;

impl Run {
    fn new(seed: u64, joins: Joins) -> Self {
        let (tally, openings, asked) = (Tally::default(), Openings::default(), Asked::default());
        Self { random: Random::new(seed), joins, tally, openings, asked }
    }

    /// True one time in so many.
    fn one_in(&mut self, count: usize) -> bool {
        self.random.below(count) == 0
    }

    fn for_seconds(seconds: u64, seed: u64) -> Self {
        let mut run = Self::new(seed, Box::new(|_| {}));
        let start = Instant::now();
        let mut before = file::least(true).lay();
        while start.elapsed() < Duration::from_secs(seconds) {
            before = run.some(&before).unwrap_or_else(|found| found.tell(seed));
        }
        run
    }

    /// A valid file and many damaged ones. Gives the valid one; another is lent to it.
    fn some(&mut self, before: &[u8]) -> Result<Vec<u8>, Box<Found>> {
        let (name, share, file) = match self.random.below(64) {
            0 => (MANY_SECTIONS, 8, tables::valid(&mut self.random)),
            1..24 => ("valid files", 1, file::some(&mut self.random).lay()),
            _ => ("valid files", 1, file::mostly_with_room(&mut self.random).lay()),
        };
        self.tally.add(name, 1);
        let sides = Sides::open(&file);
        let record = sides.record(&file);
        self.put(&file, sides, None)?;
        let record = record.expect("a file of the builder");
        self.otherwise(&record, before)?;
        let aims = [Aim::at(&file), Aim::at_geometry(&file)];
        for (kind, count) in MIX.map(|(kind, count)| (kind, count.div_ceil(share))) {
            for i in 0..count {
                let damaged = kind.of(&file, &aims[i as usize % 2], &mut self.random);
                self.put(&damaged, Sides::open(&damaged), Some(&record))?;
            }
            self.tally.add(kind.name(), count);
        }
        Ok(file)
    }

    /// Holds the sides against each other: opening, the full check one time in 8, questions where someone opens it, and records with other bytes.
    fn put(&mut self, file: &[u8], sides: Sides, valid: Option<&Record>) -> Held {
        sides.agree().map_err(|why| Found::at_opening(file, why))?;
        self.openings.add(file, sides.numbers(), 0);
        if let Some(valid) = valid {
            match sides.record(file) {
                Some(own) if self.one_in(4) => self.otherwise(&own, valid.file)?,
                None if self.one_in(4) => self.otherwise(valid, file)?,
                _ => {}
            }
        }
        let checked = self.one_in(8);
        if checked && let Some(why) = asking::checks_differ(file) {
            return Err(Found::at_opening(file, why));
        }
        let mut panel = Panel::of(sides);
        let Some(opened) = panel.opened() else { return Ok(()) };
        if checked {
            panel = panel.checked();
            self.asked.add_file(panel.broken);
        }
        (self.joins)(&mut panel);
        let outcome = panel
            .ask_all(questions::few(&opened, &mut self.random))
            .map_err(|difference| Found::of(file, None, difference))?;
        self.asked.add(file, outcome);
        Ok(())
    }

    /// A record asked with other bytes, or with a part of them.
    fn otherwise(&mut self, record: &Record, lent: &[u8]) -> Held {
        let cut = self.random.below(lent.len() + 1);
        let lent = if self.one_in(4) { &lent[..cut] } else { lent };
        let mut panel = Panel::with_other_bytes(record, lent);
        (self.joins)(&mut panel);
        let Some(opened) = panel.opened() else { return Ok(()) };
        let outcome = panel
            .ask_all(questions::few(&opened, &mut self.random))
            .map_err(|difference| Found::of(record.file, Some(lent), difference))?;
        self.asked.add_otherwise(outcome);
        Ok(())
    }
}

pub fn run(seconds: u64, seed: u64) {
    println!("seed {seed}, random files for {seconds} s");
    let run = Run::for_seconds(seconds, seed);
    run.tally.print();
    println!("{:>12}  files in all", run.tally.total());
    run.openings.print_opening(false);
    run.asked.print(false);
    println!("seed {seed}: 0 differences but the known ones");
}

/// All that is told of a run is told in one line.
pub fn short(seconds: u64, seed: u64) {
    let run = Run::for_seconds(seconds, seed);
    let (files, asked) = (run.tally.total(), run.asked.in_short());
    println!("compare wide: {files} files, {asked}, no difference but the known ones");
}

#[cfg(test)]
mod tests {
    use super::*;
    use crate::compare::panel::tests::{CHANGES, Change, join};

    /// What some files show with one voice more, that says document 01's answers, changed.
    fn found(change: Change) -> Option<Box<Found>> {
        let mut run = Run::new(5, Box::new(move |panel| join(panel, change)));
        let mut before = file::least(true).lay();
        for _ in 0..6 {
            match run.some(&before) {
                Ok(file) => before = file,
                Err(found) => return Some(found),
            }
        }
        None
    }

    #[test]
    fn the_sides_are_not_found_fault_with() {
        assert!(found(|answer| answer).is_none());
    }

    /// And what was found shows again, as it must where the file is made small.
    #[test]
    fn a_voice_that_says_something_else_is_found_out() {
        for (i, change) in CHANGES.into_iter().enumerate() {
            let found = found(change).unwrap_or_else(|| panic!("change {i} is not found out"));
            let sides = Sides::open(&found.file);
            let record = sides.record(&found.file);
            let mut panel = match &found.lent {
                Some(lent) => Panel::with_other_bytes(record.as_ref().unwrap(), lent),
                None => Panel::of(sides),
            };
            assert!(found.again(&panel).is_none(), "change {i}: without the changed voice");
            join(&mut panel, change);
            assert!(found.again(&panel).is_some(), "change {i}");
        }
    }
}
