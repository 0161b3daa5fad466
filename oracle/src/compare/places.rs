//! Where a chunk is broken (document 02, 2026-06). Through each of the eight questions that can meet a broken chunk: the port's answer and
//! place against the rules', and of a chunk that was made so against who made it. Lent memory is looked at to its last byte.

mod large;
mod met;
#[cfg(test)]
mod stand_in;

use super::Tally;
use super::records::changed;
use super::striped::questions;
use crate::bytes::hex;
use crate::file::damage::Aim;
use crate::file::places::{self, Broken, Ground, Lies, Made, Wrong};
use crate::file::striped::numbers;
use crate::file::{self, put, seal, striped, word};
use crate::port::exports::Exports;
use crate::port::opening::{SIZE, open_into};
use crate::port::places::{Asked, Codes, Way, said};
use crate::port::striped::Asked as With;
use crate::random::Random;
use crate::rules::{self, Judge, Opened, Placed, Refusal};
use crate::voice::{Answer, Question};
use met::{Met, Spot};

/// A difference, and all that it was asked with.
struct Found {
    record: Vec<u8>,
    file: Vec<u8>,
    numbers: Vec<u32>,
    asked: Asked,
    why: String,
}

type Held<T> = Result<T, Box<Found>>;

impl Found {
    fn of(with: With, asked: Asked, why: String) -> Box<Self> {
        let (record, file) = (with.record.to_vec(), with.file.to_vec());
        Box::new(Self { record, file, numbers: with.numbers.to_vec(), asked, why })
    }

    /// What differs with this file in the place of its own.
    fn again(&self, port: &Exports, file: &[u8]) -> Option<String> {
        let with = With { record: &self.record, file, numbers: &self.numbers };
        watched(port, with, self.asked)?.err()
    }
}

/// What the rules say.
fn by_rules(with: With, asked: Asked) -> Placed<Answer> {
    let opened = match asked.way {
        Way::Opening => rules::open(with.file, &[])?,
        _ => Opened::of_record(with.record, with.file)?,
    };
    let judge = match asked.way {
        Way::Striped => Judge::striped(opened, with.numbers),
        _ => Judge::plain(opened, &[]),
    };
    judge.answer(asked.question)
}

/// As the exports tell it.
fn codes(said: &Placed<Answer>) -> Codes {
    let answer = match said {
        Err(refusal) => -1000 - i64::from(refusal.number),
        Ok(Answer::Points(points)) => points.len() as i64 / 2,
        Ok(Answer::Is(is)) => i64::from(*is),
        Ok(Answer::Zone(zone)) => zone.map_or(-1, |zone| zone as i64),
        Ok(Answer::Zones(zones)) => zones.len() as i64,
        Ok(_) => unreachable!("no export with a place"),
    };
    let place = said.as_ref().err().and_then(|refusal| refusal.place);
    Codes { answer, place: place.map_or(-1, |place| place as i64) }
}

/// The rules' refusal, if it is one and the port says the same; or what differs. None where no export takes the question.
fn ask(port: &Exports, with: With, asked: Asked) -> Option<Result<Option<Refusal>, String>> {
    let says = said(port, with, asked)?;
    let expected = by_rules(with, asked);
    let due = codes(&expected);
    Some(match says {
        Err(why) => Err(format!("{asked:?}: {why}")),
        Ok(says) if says != due => {
            Err(format!("{asked:?}: the port says {says:?}, the rules {due:?}"))
        }
        Ok(_) => Ok(expected.err()),
    })
}

/// The same, if what is lent for reading is as it was.
fn watched(port: &Exports, with: With, asked: Asked) -> Option<Result<Option<Refusal>, String>> {
    let kept = (with.record.to_vec(), with.file.to_vec(), with.numbers.to_vec());
    let held = ask(port, with, asked);
    if kept.0 != with.record || kept.1 != with.file || kept.2 != with.numbers {
        return Some(Err(format!("{asked:?}: what is lent for reading changed")));
    }
    held
}

fn plain(question: Question) -> Asked {
    Asked { way: Way::Plain, question }
}

/// Every question of a walk at a point, with the zone that is looked at: plainly, by stripes and, of a file that opens, with opening it.
fn walks(zone: u32, (x, y): (f64, f64), places: u64, opens: bool) -> Vec<Asked> {
    let (lng, lat) = (x / 100_000.0, y / 100_000.0);
    let lookup = Question::Lookup(lng, lat);
    let contains = Question::Contains(zone, x as i32, y as i32);
    let all = [contains, lookup, Question::LookupInto(lng, lat, places)];
    let mut out = Vec::new();
    for way in [Way::Plain, Way::Striped] {
        out.extend(all.map(|question| Asked { way, question }));
    }
    if opens {
        out.push(Asked { way: Way::Opening, question: lookup });
    }
    out
}

/// A broken chunk in a file: which one it is, and how each chunk's box lies to the point that is asked.
struct Placing {
    which: usize,
    boxes: Vec<Lies>,
    point: (i32, i32),
}

struct Run {
    port: Exports,
    random: Random,
    tally: Tally,
    met: Met,
}

impl Run {
    fn new(port: Exports, seed: u64) -> Self {
        let (tally, met) = (Tally::default(), Met::default());
        Self { port, random: Random::new(seed), tally, met }
    }

    fn one_in(&mut self, count: usize) -> bool {
        self.random.below(count) == 0
    }

    /// One question; the rules' refusal, if it is one.
    fn ask(&mut self, with: With, asked: Asked) -> Held<Option<Refusal>> {
        let held = watched(&self.port, with, asked);
        self.held(with, asked, held)
    }

    /// Counts what was said, unless something differs.
    fn held(
        &mut self,
        with: With,
        asked: Asked,
        held: Option<Result<Option<Refusal>, String>>,
    ) -> Held<Option<Refusal>> {
        let Some(held) = held else { return Ok(None) };
        let refusal = held.map_err(|why| Found::of(with, asked, why))?;
        self.met.answer(asked, refusal);
        Ok(refusal)
    }

    fn ask_all(&mut self, with: With, all: &[Asked]) -> Held<()> {
        all.iter().try_for_each(|&asked| self.ask(with, asked).map(|_| ()))
    }

    /// A chunk is decoded, mostly into just enough room. It is refused as who made it knows.
    fn decode(&mut self, made: &Made, with: With, which: usize, chunk: &Broken) -> Held<Spot> {
        let place = Some((made.bytes.start + chunk.place) as u64);
        let known = Refusal { number: chunk.refusal, place };
        let more = self.random.pick(&[0, 0, 0, 1, 7]);
        let asked = plain(Question::Decode(which as u32, 2 * u64::from(chunk.count) + more));
        let refusal = self.ask(with, asked)?;
        if refusal != Some(known) {
            let why = format!("{asked:?}: who made it knows {known:?}, the rules say {refusal:?}");
            return Err(Found::of(with, asked, why));
        }
        let spot = Spot::of(&chunk.bytes, chunk.count.into(), chunk.refusal, chunk.place);
        self.met.decoded(spot);
        if self.one_in(32) {
            let short = self.random.below(2 * usize::from(chunk.count));
            self.ask(with, plain(Question::Decode(which as u32, short as u64)))?;
        }
        Ok(spot)
    }

    /// Every question of a walk. The way in which each came to the chunk is counted.
    fn walk(
        &mut self,
        made: &Made,
        with: With,
        at: &Placing,
        before: bool,
        spot: Spot,
    ) -> Held<()> {
        let zones = word(&made.record, 16);
        let zone = self.random.below(zones as usize) as u32;
        let places = self.random.pick(&[0, 1, 16, 16]);
        let (x, y) = at.point;
        let bytes = made.bytes.start as u64..=made.bytes.end as u64;
        let way = match at.boxes[at.which] {
            _ if spot.number >= 2 => 0,
            _ if before => 2,
            Lies::Right => 1,
            _ => 0,
        };
        for asked in walks(zone, (x.into(), y.into()), places, false) {
            let refusal = self.ask(with, asked)?;
            if refusal.and_then(|refusal| refusal.place).is_some_and(|at| bytes.contains(&at)) {
                self.met.walked(spot, way);
            }
        }
        Ok(())
    }

    /// A broken chunk in the place of one of the ground's: decoded, and for a share of them asked for in every other way.
    fn chunk(&mut self, ground: &Ground, chunk: &Broken, at: &Placing, all: bool) -> Held<()> {
        let mut made = ground.with(at.which, chunk, &at.boxes, at.point);
        if all || self.one_in(8) {
            made.seal();
            self.opening(&made, at.point)?;
        }
        // Nothing is lent behind the points, every other time: there the last chunk ends.
        if self.one_in(2) {
            made.file.truncate(made.file.len() - 4);
        }
        let with = With { record: &made.record, file: &made.file, numbers: &[] };
        let spot = self.decode(&made, with, at.which, chunk)?;
        if all || self.one_in(4) {
            let opened = Opened::of_record(&made.record, &made.file);
            let mut numbers = opened.and_then(|o| o.stripes(u64::MAX)).unwrap_or_default();
            let others = !all && self.one_in(8);
            if others {
                numbers = self.other_numbers(&numbers, ground.groups.len());
            }
            let before = ground.groups.iter().any(|group| {
                group.start < at.which
                    && group.contains(&at.which)
                    && at.boxes[at.which - 1] != Lies::Aside
            });
            let with = With { numbers: &numbers, ..with };
            self.walk(&made, with, at, before, spot)?;
        }
        if self.one_in(8) {
            self.moved(made, at)?;
        }
        Ok(())
    }

    fn other_numbers(&mut self, right: &[u32], groups: usize) -> Vec<u32> {
        let kind = self.random.below(numbers::KINDS.len());
        numbers::some(&mut self.random, kind, right, &[0; 5], groups as u64)
    }

    fn opening(&mut self, made: &Made, (x, y): (i32, i32)) -> Held<()> {
        let question = Question::Lookup(f64::from(x) / 100_000.0, f64::from(y) / 100_000.0);
        let with = With { record: &made.record, file: &made.file, numbers: &[] };
        self.ask_all(with, &[Asked { way: Way::Opening, question }])
    }

    /// The same with a record that says something else of the points or the chunks, and with a chunk's offset or count that is another: ends
    /// move, and with them what is left over or missing.
    fn moved(&mut self, mut made: Made, at: &Placing) -> Held<()> {
        self.tally.add("records and chunks' ends moved by hand", 1);
        let by = self.random.pick(&[1, 1, 2, 3, 5, 24, u32::MAX, u32::MAX, u32::MAX - 1]);
        let records = word(&made.record, 52) as usize;
        let next = records + 24 * (at.which + self.random.below(2));
        match self.random.below(6) {
            field @ 0..4 => {
                let field = [60, 64, 52, 56][field];
                let value = word(&made.record, field).wrapping_add(by);
                put(&mut made.record, field, value);
            }
            4 if next + 24 <= made.file.len() => {
                let value = word(&made.file, next).wrapping_add(by);
                put(&mut made.file, next, value);
            }
            _ => {
                let count = self.random.pick(&[0, 1, 2, 3, 7, 256, 65_535]);
                let count = &u16::to_le_bytes(count);
                made.file[records + 24 * at.which + 4..][..2].copy_from_slice(count);
            }
        }
        if self.one_in(4) {
            made.record = changed(&mut self.random, &made.record, made.file.len());
        }
        let length = made.file.len();
        let length = if self.one_in(4) { self.random.below(length + 1) } else { length };
        let with = With { record: &made.record, file: &made.file[..length], numbers: &[] };
        let room = if self.one_in(256) { 2 * 65_535 } else { 600 };
        let decode = |i: usize| plain(Question::Decode(i as u32, room));
        let mut all = vec![decode(at.which), decode(at.which + 1), decode(at.which.max(1) - 1)];
        let (x, y) = at.point;
        if self.one_in(4) {
            all.extend(walks(0, (x.into(), y.into()), 16, false));
        }
        self.ask_all(with, &all)
    }

    /// A point that most walks come to every chunk with, far from the chunks' points; or one beside them.
    fn point(&mut self) -> (i32, i32) {
        let (x, y) = match self.random.below(4) {
            0 => (self.random.from_to(-70, 70), self.random.from_to(-70, 70)),
            _ => (
                self.random.from_to(9_000_000, 17_000_000),
                self.random.from_to(4_000_000, 8_000_000),
            ),
        };
        let sign = self.random.pick(&[(1, 1), (1, -1), (-1, 1), (-1, -1)]);
        (sign.0 * x, sign.1 * y)
    }

    fn placing(&mut self, ground: &Ground) -> Placing {
        use Lies::{Around, Aside, Right};
        let which = self.random.below(ground.chunks());
        let others = self.random.pick(&[Around, Aside]);
        let mut boxes = vec![others; ground.chunks()];
        if which > 0 {
            boxes[which - 1] = self.random.pick(&[Around, Right, Aside, Aside]);
        }
        boxes[which] = self.random.pick(&[Around, Around, Around, Right, Right, Aside]);
        Placing { which, boxes, point: self.point() }
    }

    /// A valid file, and many broken chunks in it.
    fn some_chunks(&mut self) -> Held<()> {
        let ground = Ground::some(&mut self.random);
        self.tally.add("files in which chunks are broken", 1);
        for _ in 0..64 {
            let chunk = places::some(&mut self.random);
            let at = self.placing(&ground);
            self.chunk(&ground, &chunk, &at, false)?;
        }
        Ok(())
    }
}

/// How the boxes of the chunk in question and of the one before lie: it is scanned, its first point is read alone, or as the next chunk's
/// after a scan and without one; or it is skipped.
const BOXES: [[Lies; 2]; 5] = [
    [Lies::Aside, Lies::Around],
    [Lies::Aside, Lies::Right],
    [Lies::Around, Lies::Aside],
    [Lies::Right, Lies::Aside],
    [Lies::Aside, Lies::Aside],
];

/// All that is wrong in chunks of one to four points.
fn every(random: &mut Random) -> Vec<Broken> {
    let mut out = Vec::new();
    for count in 1..=4 {
        let numbers = 2 * usize::from(count);
        for number in 0..numbers {
            for wrong in Wrong::of(number) {
                out.push(places::broken(random, count, number, wrong));
            }
        }
        for over in [1, 2, 9] {
            out.push(places::broken(random, count, numbers, Wrong::Over(over)));
        }
    }
    out
}

impl Run {
    /// Every wrong number of a small chunk, in the first, the second and the last chunk of a group and in a group of one, in every way that
    /// a walk can come to it, by every question.
    fn every_chunk(&mut self) -> Held<()> {
        let point = (12_000_000, 5_000_000);
        for ground in [Ground::of_one(3), Ground::of_one(1)] {
            for chunk in every(&mut self.random) {
                for which in 0..ground.chunks() {
                    for [before, own] in BOXES {
                        let mut boxes = vec![Lies::Aside; ground.chunks()];
                        boxes[which.max(1) - 1] = before;
                        boxes[which] = own;
                        let at = Placing { which, boxes, point };
                        self.tally.add("chunks that tell, each in every way", 1);
                        self.chunk(&ground, &chunk, &at, true)?;
                    }
                }
            }
        }
        Ok(())
    }

    /// Those whose refusals are read off document 02 by hand: the rules must say the same.
    fn kept(&mut self) -> Held<()> {
        for case in places::cases() {
            let record = open_into(&case.file, SIZE).expect("a file that opens");
            let opened = Opened::of_record(&record, &case.file);
            let numbers = opened.and_then(|o| o.stripes(u64::MAX)).unwrap();
            for (lent, told) in case.with {
                let with = With { record: &record, file: &lent, numbers: &numbers };
                for (question, said) in told {
                    for way in [Way::Plain, Way::Striped] {
                        let refusal = self.ask(with, Asked { way, question })?;
                        let asked = way == Way::Plain || !matches!(question, Question::Decode(..));
                        assert!(!asked || refusal == said.err(), "{question:?}, by hand {said:?}");
                    }
                }
                self.tally.add("chunks by hand", 1);
            }
        }
        Ok(())
    }

    /// A chunk behind the first 4,294,967,296 bytes: no file has so many, but a record that is made by hand may say so.
    fn far(&mut self) -> Held<()> {
        let far = u32::MAX - 15;
        let ground = Ground::of_one(1);
        for chunk in every(&mut self.random).iter().step_by(5) {
            let at =
                Placing { which: 0, boxes: vec![Lies::Around], point: (12_000_000, 5_000_000) };
            let made = ground.with(0, chunk, &at.boxes, at.point);
            let mut record = made.record.clone();
            put(&mut record, 60, far);
            let end = far as usize + chunk.bytes.len();
            // Never touched but at its ends, so it takes no memory.
            let mut file = vec![0; end + self.random.below(2)];
            file[..made.file.len()].copy_from_slice(&made.file);
            file[far as usize..end].copy_from_slice(&chunk.bytes);
            let with = With { record: &record, file: &file, numbers: &[0; 5] };
            let (x, y) = at.point;
            let mut all = walks(0, (x.into(), y.into()), 16, false);
            all.push(plain(Question::Decode(0, 64)));
            let place = Some(u64::from(far) + chunk.place as u64);
            for asked in all {
                let held = ask(&self.port, with, asked);
                let refusal = self.held(With { file: &made.file, ..with }, asked, held)?;
                assert_eq!(refusal, Some(Refusal { number: chunk.refusal, place }));
            }
            self.tally.add("chunks behind the first 2^32 bytes", 1);
        }
        Ok(())
    }

    /// Any file, damaged anywhere in its records and points; its record with these bytes, whole and cut; and the damaged file's own.
    fn some_file(&mut self) -> Held<()> {
        let valid = match self.random.below(3) {
            0 => file::some(&mut self.random).lay(),
            1 => file::on_lattice(&mut self.random).lay(),
            _ => striped::some(&mut self.random).lay(),
        };
        let record = open_into(&valid, SIZE).expect("a file of the builder");
        let opened = Opened::of_record(&record, &valid);
        let numbers = opened.and_then(|o| o.stripes(u64::MAX)).unwrap_or_default();
        let aim = Aim::at_geometry(&valid);
        for i in 0..16 {
            let mut damaged = aim.unrepaired(&mut self.random, &valid, 1 + i / 8);
            self.tally.add("other files, damaged anywhere", 1);
            let record = match self.random.below(4) {
                0 => changed(&mut self.random, &record, damaged.len()),
                _ => record.clone(),
            };
            let opens = self.one_in(2);
            if opens {
                seal(&mut damaged);
            } else if self.one_in(4) {
                damaged.truncate(self.random.below(damaged.len() + 1));
            }
            let with = With { record: &record, file: &damaged, numbers: &numbers };
            let all = self.questions(with, opens);
            self.ask_all(with, &all)?;
        }
        Ok(())
    }

    /// Mostly broken chunks.
    fn some(&mut self) -> Held<()> {
        match self.random.below(32) {
            0 => self.some_file(),
            _ => self.some_chunks(),
        }
    }

    /// A few chunks, and a few places beside boxes.
    fn questions(&mut self, with: With, opens: bool) -> Vec<Asked> {
        let Ok(opened) = Opened::of_record(with.record, with.file) else {
            return walks(0, (0.0, 0.0), 16, opens);
        };
        let chunks = opened.chunks().min(8) as u32;
        let decode = |i| plain(Question::Decode(i, 64));
        let mut out: Vec<Asked> = (0..=chunks).map(decode).collect();
        for question in questions::of(&opened, &mut self.random, 2) {
            out.extend([Way::Plain, Way::Striped].map(|way| Asked { way, question }));
            if opens && matches!(question, Question::Lookup(..)) {
                out.push(Asked { way: Way::Opening, question });
            }
        }
        out
    }
}

mod with_the_archive {
    use super::large::Large;
    use super::*;
    use crate::compare::stop;
    use crate::port::exports::PORT;
    use std::path::Path;
    use std::time::{Duration, Instant};

    fn end(seed: u64, found: &Found) -> ! {
        println!("seed {seed}");
        println!("asked with the record {}", hex(&found.record));
        if found.asked.way == Way::Striped {
            println!("and the numbers {:?}", found.numbers);
        }
        stop(&found.file, &found.why, |file| found.again(&PORT, file))
    }

    fn for_seconds(
        run: &mut Run,
        seconds: u64,
        seed: u64,
        mut each: impl FnMut(&mut Run) -> Held<()>,
    ) {
        let start = Instant::now();
        while start.elapsed() < Duration::from_secs(seconds) {
            each(run).unwrap_or_else(|found| end(seed, &found));
        }
    }

    impl Run {
        fn print(&self, seed: u64) {
            self.tally.print();
            self.met.print();
            println!("seed {seed}: 0 differences");
        }
    }

    /// The kept chunks, those that tell, some far behind; then random ones until the time is over.
    pub fn run(seconds: u64, seed: u64) {
        println!("seed {seed}, random chunks for {seconds} s");
        let mut run = Run::new(PORT, seed);
        for part in [Run::kept, Run::every_chunk, Run::far] {
            part(&mut run).unwrap_or_else(|found| end(seed, &found));
        }
        for_seconds(&mut run, seconds, seed, Run::some);
        run.print(seed);
    }

    /// A large file, with one chunk at a time broken, until the time is over.
    pub fn one(path: &Path, seconds: u64, seed: u64) {
        println!("seed {seed}, {} for {seconds} s", path.display());
        let mut large = Large::of(std::fs::read(path).expect("the file"));
        let mut run = Run::new(PORT, seed);
        for_seconds(&mut run, seconds, seed, |run| run.in_its_place(&mut large));
        run.print(seed);
    }

    /// Random chunks alone; all that is told of a run is told in one line.
    pub fn short(seconds: u64, seed: u64) {
        let mut run = Run::new(PORT, seed);
        for_seconds(&mut run, seconds, seed, Run::some);
        let (chunks, questions) = (run.met.chunks(), run.met.questions());
        println!("compare places: {chunks} broken chunks, {questions} questions, 0 differences");
    }
}

pub use with_the_archive::{one, run, short};

#[cfg(test)]
mod tests;
