//! Opening, names and candidates: the original against the rules with every known departure, the port against document 01's rules.

pub mod ask;
pub mod met;

use super::{Tally, stop};
use crate::file::damage::{self, Aim};
use crate::file::{self, tables};
use crate::random::Random;
use met::Met;
use std::path::Path;
use std::time::{Duration, Instant};

/// In so many of the fixed files every byte is set to every value.
const SWEPT: usize = 5;

struct Run {
    tally: Tally,
    met: Met,
}

impl Run {
    fn new() -> Self {
        Self { tally: Tally::default(), met: Met::default() }
    }

    /// Puts one file to all sides.
    fn judge(&mut self, file: &[u8]) {
        match ask::everything(file) {
            Ok((numbers, questions)) => self.met.add(file, numbers, questions),
            Err(why) => stop(file, &why, |file| ask::everything(file).err()),
        }
    }

    fn end(self) {
        self.tally.print();
        self.met.print();
        println!("no difference but the known ones");
    }
}

/// Fixed files first: all damage to small ones. Then random files, with random damage.
pub fn run(seconds: u64, seed: u64) {
    println!("seed {seed}, random files for {seconds} s");
    let mut run = Run::new();
    fixed(&mut run);
    let mut random = Random::new(seed);
    let start = Instant::now();
    while start.elapsed() < Duration::from_secs(seconds) {
        some(&mut run, &mut random);
        long_tables(&mut run, &mut random);
    }
    run.met.make_small();
    run.end();
}

/// Long section tables alone.
pub fn tables(seconds: u64, seed: u64) {
    println!("seed {seed}, long section tables for {seconds} s");
    let mut run = Run::new();
    let mut random = Random::new(seed);
    let start = Instant::now();
    while start.elapsed() < Duration::from_secs(seconds) {
        long_tables(&mut run, &mut random);
    }
    run.end();
}

fn fixed(run: &mut Run) {
    for (i, base) in file::bases().into_iter().enumerate() {
        let mut count = 0;
        let mut each = |file: &[u8]| {
            run.judge(file);
            count += 1;
        };
        each(&base);
        damage::cuts(&base, &mut each);
        damage::fields(&base, &mut |_, file| each(&file));
        damage::tables(&base, &mut |_, file| each(&file));
        let mut what = "cut, field, entry";
        if i < SWEPT {
            damage::bytes(&base, true, &mut each);
            damage::bytes(&base, false, &mut each);
            what = "byte, cut, field, entry";
        }
        run.tally.add(&format!("a fixed file of {} bytes: every {what}", base.len()), count);
    }
}

fn some(run: &mut Run, random: &mut Random) {
    for _ in 0..20 {
        let file = file::some(random).lay();
        let aim = Aim::at(&file);
        run.judge(&file);
        run.tally.add("valid files", 1);
        for (what, damages, count) in [
            ("one damage at random", 1, 60),
            ("two damages at random", 2, 100),
            ("three damages at random", 3, 20),
        ] {
            for _ in 0..count {
                run.judge(&aim.damage(random, &file, damages));
            }
            run.tally.add(what, count);
        }
    }
    let file = file::some(random).lay();
    let mut count = 0;
    let mut each = |file: &[u8]| {
        run.judge(file);
        count += 1;
    };
    damage::cuts(&file, &mut each);
    damage::tables(&file, &mut |_, file| each(&file));
    run.tally.add("every cut and every pair of entries of a random file", count);
}

/// Tables that the port judges by its map: small files, and a large one with more windows than one.
fn long_tables(run: &mut Run, random: &mut Random) {
    for _ in 0..20 {
        run.judge(&tables::valid(random));
        run.tally.add("valid files with more than 64 sections", 1);
        for wrong in 0..8 {
            run.judge(&tables::table(random, false, wrong));
        }
        run.tally.add("tables of 65 to 300 entries, 0 to 7 of them wrong", 8);
    }
    let wrong = random.below(4);
    run.judge(&tables::table(random, true, wrong));
    run.tally.add("the same with 0 to 3 wrong, in a file of more than two windows", 1);
}

/// One file: opening, every name, candidates at many positions, every place of the candidates.
pub fn one(path: &Path) {
    let file = std::fs::read(path).expect("the file");
    let mut run = Run::new();
    run.judge(&file);
    run.tally.add("file", 1);
    ask::all_of(&file, &mut run.tally).unwrap_or_else(|why| stop(&file, &why, |_| None));
    run.end();
}
