//! Holds the port's exports against the Rust original: compares them at scale, writes lists of the original's answers, and times both.

mod bench;
mod bytes;
mod compare;
mod exact;
mod file;
mod known;
mod lists;
mod load;
mod original;
mod port;
mod random;
mod rules;
mod scene;
mod stack;
mod voice;

use std::path::Path;

include!(concat!(env!("OUT_DIR"), "/original.rs"));

const USAGE: &str = "oracle compare [SECONDS [SEED]]
oracle compare numbers
oracle compare files [SECONDS [SEED]]
oracle compare file FILE.tzb
oracle compare tables [SECONDS [SEED]]
oracle compare asking [SECONDS [SEED]]
oracle compare asking FILE.tzb [SECONDS [SEED]]
oracle compare exact [SECONDS [SEED]]
oracle compare exact FILE.tzb [SECONDS [SEED]]
oracle compare wide [SECONDS [SEED]]
oracle compare map [SECONDS [SEED]]
oracle compare striped [SECONDS [SEED]]
oracle compare striped FILE.tzb [SECONDS [SEED]]
oracle compare places [SECONDS [SEED]]
oracle compare places FILE.tzb [SECONDS [SEED]]
oracle compare journal [SECONDS [SEED]]
oracle compare journal-program [PROGRAM [SEED]]
oracle load [INPUTS [SEED]] [--from NUMBER]
oracle stack [SEED]
oracle short [SECONDS [SEED]]
oracle lists FOLDER
oracle list journal [FOLDER]
oracle bench [FILE.tzb [ROWS]]
oracle bench large [ROWS]
oracle bench sections
oracle bench zones
oracle bench rings [RINGS OPS POINTS [CHUNK]]
oracle bench map FILE.tzb";

fn main() {
    let words: Vec<String> = std::env::args().skip(1).collect();
    let words: Vec<&str> = words.iter().map(String::as_str).collect();
    match words[..] {
        ["compare"] => compare::run(60, random::fresh_seed()),
        ["compare", "numbers"] => compare::varint::run(),
        ["compare", "files"] => compare::files::run(60, random::fresh_seed()),
        ["compare", "files", seconds] => compare::files::run(number(seconds), random::fresh_seed()),
        ["compare", "files", seconds, seed] => compare::files::run(number(seconds), number(seed)),
        ["compare", "asking"] => compare::asking::run(60, random::fresh_seed()),
        ["compare", "asking", one, ref rest @ ..] if rest.len() < 3 => {
            timed(one, rest, compare::asking::run, compare::asking::one)
        }
        ["compare", "exact"] => compare::exact::run(60, random::fresh_seed()),
        ["compare", "exact", one, ref rest @ ..] if rest.len() < 3 => {
            timed(one, rest, compare::exact::run, compare::exact::one)
        }
        ["compare", "tables"] => compare::files::tables(60, random::fresh_seed()),
        ["compare", "tables", seconds] => {
            compare::files::tables(number(seconds), random::fresh_seed())
        }
        ["compare", "tables", seconds, seed] => {
            compare::files::tables(number(seconds), number(seed))
        }
        ["compare", "map"] => compare::map::run(60, random::fresh_seed()),
        ["compare", "map", seconds] => compare::map::run(number(seconds), random::fresh_seed()),
        ["compare", "map", seconds, seed] => compare::map::run(number(seconds), number(seed)),
        ["compare", "striped"] => compare::striped::run(60, random::fresh_seed()),
        ["compare", "striped", one, ref rest @ ..] if rest.len() < 3 => {
            timed(one, rest, compare::striped::run, compare::striped::one)
        }
        ["compare", "places"] => compare::places::run(60, random::fresh_seed()),
        ["compare", "places", one, ref rest @ ..] if rest.len() < 3 => {
            timed(one, rest, compare::places::run, compare::places::one)
        }
        ["compare", "journal"] => compare::journal::run(60, random::fresh_seed()),
        ["compare", "journal", seconds] => {
            compare::journal::run(number(seconds), random::fresh_seed())
        }
        ["compare", "journal", seconds, seed] => {
            compare::journal::run(number(seconds), number(seed))
        }
        ["compare", "journal-program"] => program(compare::journal::program::PROGRAM, &[]),
        ["compare", "journal-program", path, ref rest @ ..] if rest.len() < 2 => {
            program(path, rest)
        }
        ["compare", "wide"] => compare::wide::run(60, random::fresh_seed()),
        ["compare", "wide", seconds] => compare::wide::run(number(seconds), random::fresh_seed()),
        ["compare", "wide", seconds, seed] => compare::wide::run(number(seconds), number(seed)),
        ["compare", "file", file] => compare::files::one(file.as_ref()),
        ["compare", seconds] => compare::run(number(seconds), random::fresh_seed()),
        ["compare", seconds, seed] => compare::run(number(seconds), number(seed)),
        ["load", ref rest @ .., "--from", from] => load_from(rest, number(from)),
        ["load", ref rest @ ..] => load_from(rest, 0),
        ["stack"] => stack::run(random::fresh_seed()),
        ["stack", seed] => stack::run(number(seed)),
        ["short"] => short(4, random::fresh_seed()),
        ["short", seconds] => short(number(seconds), random::fresh_seed()),
        ["short", seconds, seed] => short(number(seconds), number(seed)),
        ["lists", folder] => lists::write(folder.as_ref()),
        ["list", "journal"] => lists::journal::write(lists::journal::FOLDER.as_ref()),
        ["list", "journal", folder] => lists::journal::write(folder.as_ref()),
        ["bench"] => bench::run(None, ""),
        ["bench", "large"] => bench::large(""),
        ["bench", "large", rows] => bench::large(rows),
        ["bench", "sections"] => bench::hostile::run(),
        ["bench", "zones"] => bench::zones::run(),
        ["bench", "rings"] => bench::rings::run(None),
        ["bench", "rings", rings, ops, points] => worst([rings, ops, points, "65535"]),
        ["bench", "rings", rings, ops, points, chunk] => worst([rings, ops, points, chunk]),
        ["bench", "map", file] => bench::map::run(file.as_ref()),
        ["bench", file] => bench::run(Some(file.as_ref()), ""),
        ["bench", file, rows] => bench::run(Some(file.as_ref()), rows),
        _ => usage(),
    }
}

/// SECONDS [SEED], or a file before them.
fn timed(one: &str, rest: &[&str], small: fn(u64, u64), large: fn(&Path, u64, u64)) {
    let seed = |word: Option<&&str>| word.map_or_else(random::fresh_seed, |w| number(w));
    if one.parse::<u64>().is_ok() && rest.len() < 2 {
        return small(number(one), seed(rest.first()));
    }
    let seconds = rest.first().map_or(60, |w| number(w));
    large(one.as_ref(), seconds, seed(rest.get(1)));
}

/// The program `journal` of that name, with [SEED].
fn program(path: &str, rest: &[&str]) {
    let seed = rest.first().map_or_else(random::fresh_seed, |word| number(word));
    compare::journal::program::run(path.as_ref(), seed);
}

/// Each comparison for so many seconds, without the long fixed lists, then some load, and the stack.
fn short(seconds: u64, seed: u64) {
    println!("seed {seed}, each comparison for {seconds} s");
    compare::short(seconds, seed);
    compare::wide::short(seconds, seed);
    compare::asking::short(seconds, seed);
    compare::map::short(seconds, seed);
    compare::striped::short(seconds, seed);
    compare::places::short(seconds, seed);
    compare::journal::short(seconds, seed);
    load::short(5000 * seconds, seed);
    stack::short(seed);
}

/// [INPUTS [SEED]], from this number on.
fn load_from(rest: &[&str], from: u64) {
    match *rest {
        [] => load::run(load::MANY, random::fresh_seed(), from),
        [inputs] => load::run(number(inputs), random::fresh_seed(), from),
        [inputs, seed] => load::run(number(inputs), number(seed), from),
        _ => usage(),
    }
}

/// RINGS OPS POINTS CHUNK: how large a file is made.
fn worst(words: [&str; 4]) {
    let sizes = words.map(|word| number(word) as usize);
    if sizes.contains(&0) {
        usage();
    }
    bench::rings::run(Some(bench::rings::Sizes::of(sizes)));
}

fn number(word: &str) -> u64 {
    word.parse().unwrap_or_else(|_| usage())
}

fn usage() -> ! {
    eprintln!("{USAGE}");
    std::process::exit(2)
}
