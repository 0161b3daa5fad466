//! Decoding, containment and lookups: each voice against the rules with its departures, and the rules against exact geometry.

pub mod met;
pub mod questions;

use super::panel::Panel;
use super::sides::{Record, Sides};
use super::stop;
use crate::file;
use crate::file::damage::Aim;
use crate::port;
use crate::random::Random;
use crate::rules::{self, full_check};
use crate::voice::Question;
use met::Met;
use std::path::Path;
use std::time::{Duration, Instant};

/// How many questions of each kind are put: to a valid file, and to a damaged one.
const MANY: usize = 1000;
const FEW: usize = 60;

/// Fixed files first, then random ones until the time is over.
pub fn run(seconds: u64, seed: u64) {
    println!("seed {seed}, random files for {seconds} s");
    let mut met = Met::default();
    fixed(&mut met);
    let mut random = Random::new(seed);
    let start = Instant::now();
    while start.elapsed() < Duration::from_secs(seconds) {
        some(&mut met, &mut random, MANY, 40);
    }
    met.make_small();
    met.print(true);
    println!("no difference but the known ones");
}

/// Those that show a known difference, then random ones, with fewer questions and less damage to each, until the time is over.
pub fn short(seconds: u64, seed: u64) {
    let (mut met, mut random) = (Met::default(), Random::new(seed));
    file::departing().iter().for_each(|(_, file)| judge(&mut met, file, FEW));
    let start = Instant::now();
    while start.elapsed() < Duration::from_secs(seconds) {
        some(&mut met, &mut random, FEW, 4);
    }
    let (files, asked) = (met.files(), met.in_short());
    println!("compare asking: {files} files, {asked}, no difference but the known ones");
}

/// A valid file, and as many damaged ones that may still open.
fn some(met: &mut Met, random: &mut Random, most: usize, count: usize) {
    let draft = match random.below(4) {
        0 => file::some(random),
        _ => file::mostly_with_room(random),
    };
    let file = draft.lay();
    let said = full_check(&file).map_err(|broken| broken.rule);
    let expected = if draft.has_room() { Ok(()) } else { Err(2) };
    assert_eq!(said, expected, "a file of the builder");
    judge(met, &file, most);
    let cut = random.below(file.len());
    let record = Sides::open(&file).record(&file).expect("a file that opens");
    judge_otherwise(met, &record, &file[..cut]);
    let aim = Aim::at_geometry(&file);
    for _ in 0..count {
        let damages = 1 + random.below(2);
        let damaged = aim.damage(random, &file, damages);
        judge(met, &damaged, FEW);
        judge_otherwise(met, &record, &damaged);
    }
}

/// Files whose answers are read off document 01 by hand: the rules must say the same.
fn fixed(met: &mut Met) {
    for (rule, file) in file::departing() {
        assert_eq!(rules::open(&file, &[]).ok().unwrap().lowest_broken().unwrap_or(0), rule);
        judge(met, &file, MANY);
    }
    for (i, (said, file)) in file::chunks().into_iter().enumerate() {
        let decoded = rules::open(&file, &[]).ok().unwrap().decode(0, u64::MAX);
        assert_eq!(decoded.map(|_| ()), said, "chunk {i}");
        judge(met, &file, MANY);
    }
    for (i, (rule, file)) in file::broken::files().into_iter().enumerate() {
        let broken = full_check(&file).err().map_or(0, |broken| broken.rule);
        assert_eq!(broken, rule, "file {i} that breaks a rule");
        judge(met, &file, MANY);
    }
    for case in file::small_rings::cases() {
        let broken = full_check(&case.file).err().map_or(0, |broken| broken.rule);
        assert_eq!(broken, case.rule, "{}", case.what);
        judge(met, &case.file, FEW);
    }
    file::at_the_shortcuts_ends().iter().for_each(|file| judge(met, file, MANY));
    file::kinds().iter().for_each(|file| judge(met, file, MANY));
}

/// Holds the port's full check against the rules, then puts all questions to a file that all voices open.
fn judge(met: &mut Met, file: &[u8], most: usize) {
    if let Some(difference) = checks_differ(file) {
        stop(file, &difference, checks_differ);
    }
    let Some(panel) = Panel::of_file(file) else {
        met.passed_over += 1;
        return;
    };
    met.add_file(panel.broken);
    match panel.ask_all(small(&panel, most)) {
        Ok(outcome) => met.add(file, outcome),
        Err(difference) => {
            stop(file, &difference.to_string(), |file| differs(&Panel::of_file(file)?, most))
        }
    }
}

/// Puts questions to the file's record with other bytes.
fn judge_otherwise(met: &mut Met, record: &Record, lent: &[u8]) {
    let panel = Panel::with_other_bytes(record, lent);
    match panel.ask_all(small(&panel, FEW)) {
        Ok(outcome) => met.otherwise += outcome.questions,
        Err(difference) => stop(lent, &difference.to_string(), |lent| {
            differs(&Panel::with_other_bytes(record, lent), FEW)
        }),
    }
}

/// The questions of a small file, at most so many of each kind.
fn small(panel: &Panel, most: usize) -> Vec<Question> {
    panel.opened().map_or(Vec::new(), |opened| questions::of(&opened, most))
}

fn differs(panel: &Panel, most: usize) -> Option<String> {
    let difference = panel.ask_all(small(panel, most)).err()?;
    Some(difference.to_string())
}

/// What the port's full check says and what the rules say, where that differs.
pub fn checks_differ(file: &[u8]) -> Option<String> {
    let port = port::asking::full_check(file);
    let rules = full_check(file).err().map_or((0, 0), |broken| (broken.number, broken.rule));
    (port != rules).then(|| format!("full check: the port says {port:?}, the rules {rules:?}"))
}

/// One large file: every chunk, then positions on and beside its borders and anywhere.
pub fn one(path: &Path, seconds: u64, seed: u64) {
    println!("seed {seed}, {} for {seconds} s", path.display());
    let file = std::fs::read(path).expect("the file");
    println!("the full check says {:?}", full_check(&file));
    if let Some(difference) = checks_differ(&file) {
        stop(&file, &difference, |_| None);
    }
    let panel = Panel::of_file(&file).expect("a file that opens");
    let opened = panel.opened().expect("a file that opens");
    let mut met = Met::default();
    met.add_file(panel.broken);
    let mut ask = |all: Vec<Question>| match panel.ask_all(all) {
        Ok(outcome) => met.add(&file, outcome),
        Err(difference) => stop(&file, &difference.to_string(), |_| None),
    };
    ask((0..opened.chunks() as u32 + 1).map(|i| Question::Decode(i, u64::MAX)).collect());
    let judge = rules::Judge::plain(opened, &[]);
    let mut random = Random::new(seed);
    let chunks = opened.chunks();
    let (first, mut swept) = (random.below(chunks as usize) as u64, 0);
    let start = Instant::now();
    while start.elapsed() < Duration::from_secs(seconds) {
        ask((0..100).flat_map(|_| questions::at_random(&judge, &mut random)).collect());
        if swept < chunks {
            ask(questions::along(&judge, (first + swept) % chunks));
            swept += 1;
        }
    }
    println!("{swept:>12}  of {chunks} chunks: on and beside every point and edge");
    met.print(true);
    println!("no difference but the known ones");
}
