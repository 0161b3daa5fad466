//! A zone's text (document 02, 2026-01): the port against the rules' writer, for every zone of a file and past the last, into rooms of
//! every kind. Lent memory is looked at to its last byte.

use super::Tally;
use crate::file::damage::Aim;
use crate::file::{self, maps, seal, tables};
use crate::port::asking;
use crate::port::map::Maps;
use crate::random::Random;
use crate::rules::{self, Broken, Opened, Said, full_check};
use std::collections::BTreeMap;

/// What was asked and what was said.
#[derive(Default)]
struct Met {
    /// By the refusal, 0 for a text; for 47 with 100 times the rule.
    said: BTreeMap<u32, u64>,
    calls: u64,
    /// The bytes of all texts that came.
    bytes: u64,
}

impl Met {
    fn print(&self) {
        for (&number, count) in &self.said {
            match number {
                0 => println!("{count:>12}  texts, {} bytes", self.bytes),
                46 => println!("{count:>12}  refused by 46 where the room was too short"),
                _ if number > 100 => {
                    println!("{count:>12}  refused by 47, rule {}", number / 100)
                }
                _ => println!("{count:>12}  refused by {number}"),
            }
        }
        println!("{:>12}  calls in all", self.calls);
    }
}

/// A file's zones by the rules: the full check is done once.
struct Judged<'a> {
    opened: Result<Opened<'a>, Broken>,
}

impl<'a> Judged<'a> {
    fn of(file: &'a [u8]) -> Self {
        let refused = |number| Broken { number, rule: 0 };
        let opened = full_check(file).and_then(|()| rules::open(file, &[]).map_err(refused));
        Self { opened }
    }

    fn text(&self, zone: u32) -> Result<String, Broken> {
        let refused = |number| Broken { number, rule: 0 };
        self.opened.as_ref().map_err(|&broken| broken)?.map(zone.into()).map_err(refused)
    }

    /// Each zone and some past the last; of a file that is refused the first and the last number.
    fn zones(&self) -> Vec<u32> {
        let count = self.opened.as_ref().map_or(1, |opened| opened.zones as u32);
        let past = [count, count + 1, 65_536, u32::MAX];
        match self.opened {
            Ok(_) => (0..count).chain(past).collect(),
            Err(_) => vec![0, u32::MAX],
        }
    }
}

/// None, one short, exact, larger. Where there is no text: none, and some.
fn rooms(text: &Result<String, Broken>) -> Vec<usize> {
    match text {
        Ok(text) => vec![0, text.len() - 1, text.len(), text.len() + 1, text.len() + 200],
        Err(_) => vec![0, 300],
    }
}

/// Puts one file to the port. What differs from the rules, if something does.
fn differs(port: &Maps, file: &[u8], met: &mut Met) -> Option<String> {
    let judged = Judged::of(file);
    let rule = judged.opened.as_ref().err().map_or(0, |broken| broken.rule);
    let said = asking::full_check(file).1;
    if said != rule {
        return Some(format!("the port says that rule {said} is broken, the rules say {rule}"));
    }
    judged.zones().into_iter().find_map(|zone| {
        zone_differs(port, file, zone, &judged.text(zone), met)
            .map(|what| format!("zone {zone}: {what}"))
    })
}

fn zone_differs(
    port: &Maps,
    file: &[u8],
    zone: u32,
    text: &Result<String, Broken>,
    met: &mut Met,
) -> Option<String> {
    let expected = text.as_ref().map(|text| text.len() as u64).map_err(|broken| broken.number);
    let length = port.length(file, zone);
    met.calls += 1;
    if length != expected {
        return Some(format!("the port's length is {length:?}, the rules' {expected:?}"));
    }
    rooms(text).into_iter().find_map(|room| {
        let expected = with_room(text, room);
        let text = port.text(file, zone, room);
        met.calls += 1;
        *met.said.entry(number(&expected)).or_default() += 1;
        met.bytes += text.as_ref().map_or(0, Vec::len) as u64;
        let bare = expected.map_err(|broken| broken.number).map(str::as_bytes);
        (text.as_deref() != bare.as_deref()).then(|| {
            format!("room {room}: the port says {}, the rules {}", told(&text), told(&bare))
        })
    })
}

/// 46 comes last.
fn with_room(text: &Result<String, Broken>, room: usize) -> Result<&str, Broken> {
    match text {
        Ok(text) if room < text.len() => Err(Broken { number: 46, rule: 0 }),
        Ok(text) => Ok(text),
        Err(broken) => Err(*broken),
    }
}

fn number(said: &Result<&str, Broken>) -> u32 {
    said.as_ref().err().map_or(0, |broken| broken.number + 100 * broken.rule)
}

/// A text, or the start of a long one.
fn told<T: AsRef<[u8]>>(said: &Said<T>) -> String {
    match said {
        Ok(text) => {
            let text = text.as_ref();
            format!("{:?}", String::from_utf8_lossy(&text[..text.len().min(400)]))
        }
        Err(number) => format!("refusal {number}"),
    }
}

struct Run {
    port: Maps,
    tally: Tally,
    met: Met,
}

impl Run {
    fn new(port: Maps) -> Self {
        Self { port, tally: Tally::default(), met: Met::default() }
    }

    fn judge(&mut self, kind: &str, file: &[u8]) -> Result<(), String> {
        self.tally.add(kind, 1);
        differs(&self.port, file, &mut self.met).map_or(Ok(()), Err)
    }

    /// The kept cases and the longest rings.
    fn fixed(&mut self) -> Result<(), (Vec<u8>, String)> {
        for case in maps::cases() {
            self.judge("kept files", &case.file).map_err(|why| (case.file, why))?;
        }
        for case in maps::long() {
            self.judge("files with long rings", &case.file).map_err(|why| (case.file, why))?;
        }
        Ok(())
    }

    /// A file that the full check accepts, or that it would but for a ring without room; many damaged ones, and other bytes.
    fn some(&mut self, random: &mut Random) -> Result<(), (Vec<u8>, String)> {
        let valid = match random.below(16) {
            0 => tables::valid(random),
            1..4 => file::some(random).lay(),
            4..8 => file::mostly_with_room(random).lay(),
            _ => maps::mostly_with_room(random).lay(),
        };
        let mut judge =
            |kind: &str, file: Vec<u8>| self.judge(kind, &file).map_err(|why| (file, why));
        judge("valid files", valid.clone())?;
        let aims = [Aim::at(&valid), Aim::at_geometry(&valid), Aim::at_geometry(&valid)];
        for i in 0..12 {
            let damaged = aims[i % 3].damage(random, &valid, 1 + i / 6);
            judge("files damaged in one place or two", damaged)?;
        }
        let cut = random.below(valid.len());
        let mut sealed = valid[..cut].to_vec();
        judge("files cut", sealed.clone())?;
        seal(&mut sealed);
        judge("files cut, size and sum repaired", sealed)?;
        let length = random.below(1000);
        judge("other bytes", random.bytes(length))
    }
}

mod with_the_archive {
    use super::*;
    use crate::compare::stop;
    use crate::port::map::PORT;
    use std::time::{Duration, Instant};

    const SAMPLE: &str = concat!(env!("CARGO_MANIFEST_DIR"), "/../sample/real-ne.tzb");

    fn end((file, why): (Vec<u8>, String)) -> ! {
        stop(&file, &why, |file| differs(&PORT, file, &mut Met::default()))
    }

    fn for_seconds(run: &mut Run, seconds: u64, seed: u64) {
        let mut random = Random::new(seed);
        let start = Instant::now();
        while start.elapsed() < Duration::from_secs(seconds) {
            run.some(&mut random).unwrap_or_else(|found| end(found));
        }
    }

    /// The kept files, the longest rings and every zone of the sample; then random files until the time is over.
    pub fn run(seconds: u64, seed: u64) {
        println!("seed {seed}, random files for {seconds} s");
        let mut run = Run::new(PORT);
        run.fixed().unwrap_or_else(|found| end(found));
        let sample = std::fs::read(SAMPLE).expect("the sample");
        run.judge("the sample, every zone", &sample).unwrap_or_else(|why| end((sample, why)));
        for_seconds(&mut run, seconds, seed);
        run.tally.print();
        run.met.print();
        println!("seed {seed}: 0 differences");
    }

    /// Random files alone; all that is told of a run is told in one line.
    pub fn short(seconds: u64, seed: u64) {
        let mut run = Run::new(PORT);
        for_seconds(&mut run, seconds, seed);
        let (files, calls) = (run.tally.total(), run.met.calls);
        println!("compare map: {files} files, {calls} calls, 0 differences");
    }
}

pub use with_the_archive::{run, short};

#[cfg(test)]
mod tests;
