//! Puts the same inputs to the port and to the original, and stops at the first difference.

pub mod asking;
mod checksum;
pub mod exact;
pub mod files;
mod geometry;
pub mod journal;
pub mod map;
mod panel;
pub mod places;
mod records;
mod sides;
pub mod striped;
mod utf8;
pub mod varint;
pub mod wide;

use crate::bytes::hex;
use crate::file::smaller;
use crate::random::Random;
use std::fmt::Debug;
use std::time::{Duration, Instant};

/// How many inputs of each kind were compared.
#[derive(Default)]
pub struct Tally {
    kinds: Vec<(String, u64)>,
}

impl Tally {
    pub fn add(&mut self, kind: &str, count: u64) {
        match self.kinds.iter_mut().find(|(name, _)| name == kind) {
            Some((_, total)) => *total += count,
            None => self.kinds.push((kind.to_string(), count)),
        }
    }

    fn total(&self) -> u64 {
        self.kinds.iter().map(|(_, count)| count).sum()
    }

    fn print(&self) {
        for (kind, count) in &self.kinds {
            println!("{count:>12}  {kind}");
        }
    }

    fn end(&self) {
        self.print();
        println!("{:>12}  in all, 0 differences", self.total());
    }
}

/// First every input of the fixed kinds, then random ones in turns until the time is over.
pub fn run(seconds: u64, seed: u64) {
    println!("seed {seed}, random inputs for {seconds} s");
    let mut tally = Tally::default();
    let mut random = Random::new(seed);
    checksum::all(&mut tally, &mut random);
    utf8::all(&mut tally);
    varint::all(&mut tally);
    geometry::all(&mut tally);
    let start = Instant::now();
    while start.elapsed() < Duration::from_secs(seconds) {
        some(&mut tally, &mut random);
    }
    tally.end();
}

/// Random inputs alone, until the time is over.
pub fn short(seconds: u64, seed: u64) {
    let (mut tally, mut random) = (Tally::default(), Random::new(seed));
    let start = Instant::now();
    while start.elapsed() < Duration::from_secs(seconds) {
        some(&mut tally, &mut random);
    }
    println!("compare: {} random inputs, 0 differences", tally.total());
}

fn some(tally: &mut Tally, random: &mut Random) {
    checksum::some(tally, random);
    utf8::some(tally, random);
    varint::some(tally, random);
    geometry::some(tally, random);
}

/// Prints an input on which the port and another side differ, as found and made small, and ends the run.
pub fn differs<T: Debug, A: Debug + PartialEq>(
    what: &str,
    other: &str,
    found: T,
    simpler: impl Fn(&T) -> Vec<T>,
    answers: impl Fn(&T) -> (A, A),
) -> ! {
    let print = |name: &str, input: &T| {
        let (port, said) = answers(input);
        println!("{name}: {input:02x?}\n  port {port:?}, {other} {said:?}");
    };
    println!("{what}: a difference");
    print("found", &found);
    print(
        "made small",
        &smallest(found, simpler, |t| {
            let (port, said) = answers(t);
            port != said
        }),
    );
    std::process::exit(1)
}

/// Where a file is kept on which a difference shows that is not on the list.
pub const DIFFERENCE: &str = "target/difference.tzb";

/// So many seconds are spent on making such a file small.
const SHRINKING: u64 = 120;

/// Prints such a difference, keeps its file, makes it small as far as there is time, and ends the run. `differs` says what differs in a file, if something does.
pub fn stop(file: &[u8], found: &str, differs: impl Fn(&[u8]) -> Option<String>) -> ! {
    let keep = |file: &[u8]| std::fs::write(DIFFERENCE, file).expect("a place for the file");
    println!("found: {found}, in a file of {} bytes", file.len());
    keep(file);
    let end = Instant::now() + Duration::from_secs(SHRINKING);
    let shows = |f: &Vec<u8>| Instant::now() < end && differs(f).is_some();
    let small = match file.len() {
        0..5000 => smallest(file.to_vec(), |f| smaller::files(f), shows),
        _ => file.to_vec(),
    };
    if let Some(difference) = differs(&small) {
        println!("made small: {difference}, in a file of {} bytes", small.len());
    }
    keep(&small);
    println!("written to {DIFFERENCE}");
    if small.len() < 5000 {
        println!("{}", hex(&small));
    }
    std::process::exit(1)
}

/// Keeps the shorter of two files.
fn keep(place: &mut Option<Vec<u8>>, file: &[u8]) {
    if place.as_ref().is_none_or(|kept| file.len() < kept.len()) {
        *place = Some(file.to_vec());
    }
}

/// Goes from an input to a simpler one that still differs, as long as there is one.
pub fn smallest<T, I: IntoIterator<Item = T>>(
    found: T,
    simpler: impl Fn(&T) -> I,
    differs: impl Fn(&T) -> bool,
) -> T {
    let mut now = found;
    while let Some(next) = simpler(&now).into_iter().find(|t| differs(t)) {
        now = next;
    }
    now
}

#[cfg(test)]
mod tests {
    use super::smallest;
    use crate::bytes;
    use crate::scene::{self, Scene};

    #[test]
    fn bytes_are_made_small() {
        let found: Vec<u8> = (0..=255).collect();
        let small = smallest(found, |b| bytes::simpler(b), |b| b.iter().any(|&x| x > 199));
        assert_eq!(small, [200]);
    }

    #[test]
    fn scenes_are_made_small() {
        let found = Scene { ax: -77, ay: 1000, bx: 5, by: 9, x: 123.456, y: -1e300 };
        let small = smallest(found, scene::simpler, |s| s.ay > 20 && s.x > 7.5);
        assert_eq!((small.ax, small.ay, small.bx, small.by), (0, 21, 0, 0));
        assert!(small.x > 7.5 && small.x <= 8.5 && small.y == 0.0);
    }
}
