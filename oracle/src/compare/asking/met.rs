//! What a run met: how often each answer was given, and each known difference with the smallest file for it.

use super::{FEW, questions};
use crate::bytes::hex;
use crate::compare::panel::{Known, Outcome, Panel};
use crate::compare::{keep, smallest};
use crate::file::smaller;
use crate::known::OF_ASKING;
use crate::rules::Said;
use std::collections::BTreeMap;
use std::time::{Duration, Instant};

/// So many seconds are spent on making one file small.
const SHRINKING: u64 = 10;

#[derive(Default)]
pub struct Met {
    pub passed_over: u64,
    /// By the lowest broken rule, 0 where the full check accepts.
    files: BTreeMap<u32, u64>,
    questions: u64,
    /// Those put to a record with other bytes.
    pub otherwise: u64,
    exact: u64,
    answers: BTreeMap<(&'static str, Said<&'static str>), u64>,
    known: [Smallest; OF_ASKING.len()],
}

/// Of one known difference: how often it was met, and the smallest files; any, and one that the full check accepts.
#[derive(Default)]
struct Smallest {
    met: u64,
    met_in_accepted: u64,
    any: Option<Vec<u8>>,
    accepted: Option<Vec<u8>>,
}

/// Whether only this difference was met, and where document 01 has an answer.
fn tells(known: &[Known], which: usize) -> bool {
    known.iter().all(|k| k.which == which) && known.iter().any(|k| k.document.is_ok())
}

/// The first question of the file that shows this difference, where it shows no other.
fn shown(file: &[u8], which: usize, accepted: bool) -> Option<Known> {
    let panel = Panel::of_file(file)?;
    if accepted && panel.broken.is_some() {
        return None;
    }
    let known = panel.ask_all(questions::of(&panel.opened()?, FEW)).ok()?.known;
    if !tells(&known, which) {
        return None;
    }
    known.into_iter().find(|k| k.document.is_ok())
}

impl Met {
    pub fn add_file(&mut self, broken: Option<u32>) {
        *self.files.entry(broken.unwrap_or(0)).or_default() += 1;
    }

    /// Those put to a record with other bytes.
    pub fn add_otherwise(&mut self, outcome: Outcome) {
        self.otherwise += outcome.questions;
        self.count(outcome.answers);
    }

    fn count(&mut self, answers: Vec<(&'static str, Said<&'static str>)>) {
        for answer in answers {
            *self.answers.entry(answer).or_default() += 1;
        }
    }

    /// The questions of one file, or some of them.
    pub fn add(&mut self, file: &[u8], outcome: Outcome) {
        self.questions += outcome.questions;
        self.exact += outcome.exact;
        for known in &outcome.known {
            let of = &mut self.known[known.which];
            let accepted = outcome.accepted;
            of.met += 1;
            of.met_in_accepted += u64::from(accepted);
            if tells(&outcome.known, known.which) {
                keep(&mut of.any, file);
                if accepted {
                    keep(&mut of.accepted, file);
                }
            }
        }
        self.count(outcome.answers);
    }

    /// Makes the smallest files smaller still, as far as there is time.
    pub fn make_small(&mut self) {
        for (which, of) in self.known.iter_mut().enumerate() {
            for (place, accepted) in [(&mut of.any, false), (&mut of.accepted, true)] {
                if let Some(file) = place.take() {
                    let end = Instant::now() + Duration::from_secs(SHRINKING);
                    let shows =
                        |f: &Vec<u8>| Instant::now() < end && shown(f, which, accepted).is_some();
                    *place = Some(smallest(file, |f| smaller::files(f), shows));
                }
            }
        }
    }

    pub fn files(&self) -> u64 {
        self.files.values().sum()
    }

    pub fn in_short(&self) -> String {
        format!("{} questions, {} more with other bytes", self.questions, self.otherwise)
    }

    /// With the smallest files for the known differences, or without.
    pub fn print(&self, files: bool) {
        for (rule, count) in &self.files {
            match rule {
                0 => println!("{count:>12}  files that the full check accepts"),
                _ => println!("{count:>12}  files that it refuses, lowest broken rule {rule}"),
            }
        }
        if self.passed_over > 0 {
            println!("{:>12}  files passed over: a side does not open them", self.passed_over);
        }
        println!("{:>12}  questions", self.questions);
        println!("{:>12}  more, put to a record with other bytes", self.otherwise);
        println!("{:>12}  of the first held against exact geometry", self.exact);
        for ((kind, answer), count) in &self.answers {
            match answer {
                Ok(answer) => println!("{count:>12}  {kind}: {answer}"),
                Err(number) => println!("{count:>12}  {kind}: refusal {number}"),
            }
        }
        for (which, (known, of)) in OF_ASKING.iter().zip(&self.known).enumerate() {
            println!("known: {}, met {} times", known.name, of.met);
            println!("  in files that the full check accepts: {} times", of.met_in_accepted);
            println!("  document 01: {}\n  original: {}", known.document, known.original);
            for (what, file, accepted) in [
                ("smallest", &of.any, false),
                ("smallest that the full check accepts", &of.accepted, true),
            ] {
                if let Some(file) = file.as_ref().filter(|_| files) {
                    println!("  {what}: {} bytes", file.len());
                    if let Some(Known { question, document, original, .. }) =
                        shown(file, which, accepted)
                    {
                        println!(
                            "    {question:?}: document 01 {document:?}, original {original:?}"
                        );
                    }
                    println!("    {}", hex(file));
                }
            }
        }
    }
}
