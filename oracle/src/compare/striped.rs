//! Stripes (document 02, 2026-02). The port's numbers against the rules' and, on files that build, against the original's own; then
//! questions by stripes, with the numbers that were built and with others, against the rules. Where stripes can be built, the answers with
//! them are those of the plain walk: the rules', the port's and the original's. Lent memory is looked at to its last number.

pub mod questions;
#[cfg(test)]
mod stand_in;

use super::Tally;
use super::records::{changed, of_file, refusal};
use crate::bytes::hex;
use crate::file::damage::Aim;
use crate::file::striped::numbers;
use crate::file::{self, striped};
use crate::known::{ALL, BUT_STRIPES};
use crate::port::opening::{SIZE, open_into};
use crate::port::striped::{Asked, Stripes};
use crate::random::Random;
use crate::rules::{self, Judge, Opened, Said};
use crate::voice::{Answer, Question, Voice};
use crate::{original, port};
use std::collections::BTreeMap;

/// Where stripes take more numbers than this they are not built, but asked for with too little room.
const MOST: u64 = 1 << 17;
/// How many places beside boxes are asked of a file: with the numbers that were built, and with each kind of others.
const MANY: usize = 120;
const FEW: usize = 6;

/// A record and the bytes that it is asked with.
#[derive(Clone, Copy)]
struct Subject<'a> {
    record: &'a [u8],
    file: &'a [u8],
}

impl<'a> Subject<'a> {
    fn opened(self) -> Said<Opened<'a>> {
        Opened::of_record(self.record, self.file)
    }

    fn with(self, numbers: &'a [u32]) -> Asked<'a> {
        Asked { record: self.record, file: self.file, numbers }
    }
}

/// The port's exports by stripes, as a voice.
struct ByStripes<'a> {
    port: &'a Stripes,
    asked: Asked<'a>,
}

impl Voice for ByStripes<'_> {
    fn ask(&self, question: Question) -> Option<Said<Answer>> {
        let Self { port, asked } = self;
        Some(match question {
            Question::Contains(zone, x, y) => port.contains(*asked, zone, x, y).map(Answer::Is),
            Question::Lookup(lng, lat) => port.lookup(*asked, lng, lat).map(Answer::Zone),
            Question::LookupInto(lng, lat, places) => {
                port.lookup_into(*asked, lng, lat, places as usize).map(Answer::Zones)
            }
            _ => return None,
        })
    }
}

/// What was asked and what was said.
#[derive(Default)]
struct Met {
    /// By the refusal, 0 for numbers.
    built: BTreeMap<u32, u64>,
    numbers: u64,
    original: u64,
    /// By the kind of numbers and the refusal, 0 for an answer.
    asked: BTreeMap<(&'static str, u32), u64>,
    plain: u64,
    originals: u64,
}

impl Met {
    fn print(&self) {
        for (&number, count) in &self.built {
            match number {
                0 => println!("{count:>12}  built, {} numbers in all", self.numbers),
                _ => println!("{count:>12}  not built: {number}"),
            }
        }
        println!("{:>12}  built by the original too, the numbers alike", self.original);
        let mut kind = "";
        for (&(of, number), count) in &self.asked {
            if of != kind {
                kind = of;
                println!("  asked with {kind}:");
            }
            match number {
                0 => println!("{count:>12}  answered"),
                _ => println!("{count:>12}  refused by {number}"),
            }
        }
        println!("{:>12}  answers alike by stripes and plainly", self.plain);
        println!("{:>12}  of these the original's too", self.originals);
    }

    fn questions(&self) -> u64 {
        self.asked.values().sum()
    }
}

type Held<T> = Result<T, String>;

/// A few numbers of a list, so that a line can be read.
fn told(numbers: &Said<Vec<u32>>) -> String {
    match numbers {
        Ok(all) if all.len() > 80 => format!("{} numbers, {:?}..", all.len(), &all[..80]),
        other => format!("{other:?}"),
    }
}

struct Run {
    port: Stripes,
    random: Random,
    tally: Tally,
    met: Met,
    /// Another file's numbers.
    before: Vec<u32>,
}

impl Run {
    fn new(port: Stripes, seed: u64) -> Self {
        let (tally, met) = (Tally::default(), Met::default());
        Self { port, random: Random::new(seed), tally, met, before: vec![0; 5] }
    }

    /// The need, then the numbers into rooms of every kind: 46 is said below the need, and not at it.
    fn build(&mut self, subject: Subject) -> Held<Said<Vec<u32>>> {
        let Subject { record, file } = subject;
        let need = subject.opened().and_then(|o| o.stripes_need());
        let says = self.port.need(record, file);
        if says != need {
            return Err(format!("the need: the port says {says:?}, the rules {need:?}"));
        }
        let numbers = match need {
            Ok(need) if need > MOST => Err(46),
            _ => subject.opened().and_then(|o| o.stripes(u64::MAX)),
        };
        let rooms = match (&numbers, need) {
            (Ok(all), _) => {
                let need = all.len();
                vec![0, need.saturating_sub(1), need, need + 1, need + self.random.below(60)]
            }
            (Err(46), Ok(_)) => vec![0, 1000],
            _ => vec![0, self.random.below(300)],
        };
        for room in rooms {
            let short = need.is_ok_and(|need| (room as u64) < need);
            let expected = if short { &Err(46) } else { &numbers };
            let says = self.port.numbers(record, file, room);
            if says != *expected {
                let (says, expected) = (told(&says), told(expected));
                return Err(format!(
                    "the numbers into {room}: the port says {says}, the rules {expected}"
                ));
            }
            *self.met.built.entry(refusal(expected)).or_default() += 1;
            self.met.numbers += expected.as_ref().map_or(0, Vec::len) as u64;
        }
        Ok(numbers)
    }

    /// By stripes, with these numbers.
    fn ask(
        &mut self,
        subject: Subject,
        kind: &'static str,
        numbers: &[u32],
        questions: &[Question],
    ) -> Held<()> {
        let judge = subject.opened().map(|opened| Judge::striped(opened, numbers));
        let port = ByStripes { port: &self.port, asked: subject.with(numbers) };
        for &question in questions {
            let Some(says) = port.ask(question) else { continue };
            let expected = match &judge {
                Ok(judge) => judge.ask(question).expect("the rules can be asked all"),
                Err(number) => Err(*number),
            };
            if says != expected {
                let numbers = told(&Ok(numbers.to_vec()));
                return Err(format!(
                    "{question:?} with {kind}: the port says {says:?}, the rules {expected:?}; {numbers}"
                ));
            }
            *self.met.asked.entry((kind, refusal(&expected))).or_default() += 1;
        }
        Ok(())
    }

    /// Where stripes were built: with them, whatever lies behind, the answers are those of the plain walk.
    fn same(
        &mut self,
        subject: Subject,
        numbers: &[u32],
        original: Option<&dyn Voice>,
        questions: &[Question],
    ) -> Held<()> {
        let opened = subject.opened().expect("a record whose stripes are built");
        let (plain, striped) = (Judge::plain(opened, &[]), Judge::striped(opened, numbers));
        let departed = rules::open(subject.file, &ALL).ok();
        let departed = departed.map(|opened| Judge::plain(opened, &BUT_STRIPES));
        let port = port::opening::Opened::with(subject.record, subject.file);
        for &question in questions {
            let expected = plain.ask(question);
            let by_stripes = striped.ask(question);
            if by_stripes != expected {
                return Err(format!(
                    "{question:?}: by stripes the rules say {by_stripes:?}, plainly {expected:?}"
                ));
            }
            let says = port.ask(question);
            if says.is_some() && says != expected {
                return Err(format!(
                    "{question:?}, plainly: the port says {says:?}, the rules {expected:?}"
                ));
            }
            self.met.plain += 1;
            let (Some(original), Some(departed)) = (original, &departed) else { continue };
            let (says, expected) = (original.ask(question), departed.ask(question));
            if says != expected {
                return Err(format!(
                    "{question:?}: the original says {says:?}, the rules with its departures but the stripes {expected:?}"
                ));
            }
            self.met.originals += 1;
        }
        Ok(())
    }

    /// A record and bytes: the numbers, and questions with them and with others. `right` is what else the others may be made from.
    fn put(
        &mut self,
        subject: Subject,
        original: Option<&original::opening::Opened>,
        right: &[u32],
        most: usize,
    ) -> Held<Said<Vec<u32>>> {
        let built = self.build(subject)?;
        let opened = subject.opened();
        let questions = |random: &mut Random, most| {
            opened
                .as_ref()
                .map_or(vec![Question::Lookup(0.0, 0.0)], |o| questions::of(o, random, most))
        };
        if let Ok(numbers) = &built {
            if let Some(original) = original {
                let own = original.stripes();
                if own != *numbers {
                    let (own, numbers) = (told(&Ok(own)), told(&built));
                    return Err(format!("the numbers: the original's {own}, the rules' {numbers}"));
                }
                self.met.original += 1;
            }
            let many = questions(&mut self.random, most);
            let mut lent = numbers.clone();
            let behind = self.random.pick(&[0, 0, 1, 9]);
            lent.extend((0..behind).map(|_| self.random.bits() as u32));
            self.same(subject, &lent, original.map(|o| o as &dyn Voice), &many)?;
            self.ask(subject, "the numbers that were built", &lent, &many)?;
        }
        let groups = opened.as_ref().map_or(1, |o| o.groups().min(1000));
        let right = built.as_deref().unwrap_or(right).to_vec();
        for (kind, name) in numbers::KINDS.into_iter().enumerate() {
            let other = self.before.clone();
            let numbers = numbers::some(&mut self.random, kind, &right, &other, groups);
            let few = questions(&mut self.random, FEW);
            self.ask(subject, name, &numbers, &few)?;
        }
        Ok(built)
    }

    /// A file's own record with its own bytes, where the file opens; the record's bytes.
    fn file(&mut self, file: &[u8], right: &[u32], most: usize) -> Held<Option<Vec<u8>>> {
        let Some(record) = of_file(file)? else { return Ok(None) };
        let original = original::opening::open(file).ok();
        let subject = Subject { record: &record, file };
        let built = self.put(subject, original.as_ref(), right, most)?;
        if let Ok(numbers) = built {
            self.before = numbers;
        }
        Ok(Some(record))
    }

    /// A valid file; the same damaged; its record with other bytes and with fields set to anything.
    fn some(&mut self) -> Result<(), (Vec<u8>, String)> {
        let valid = match self.random.below(8) {
            0 => file::some(&mut self.random).lay(),
            1 => file::on_lattice(&mut self.random).lay(),
            _ => striped::some(&mut self.random).lay(),
        };
        self.tally.add("files", 1);
        let record = self.file(&valid, &[], MANY).map_err(|why| (valid.clone(), why))?;
        let record = record.expect("a file of the builder");
        let right = self.before.clone();
        let aim = Aim::at_geometry(&valid);
        for i in 0..8 {
            let damaged = match i % 2 {
                0 => striped::moved(&mut self.random, &valid),
                _ => aim.damage(&mut self.random, &valid, 1 + i / 4),
            };
            self.tally.add("files damaged", 1);
            self.file(&damaged, &right, FEW).map_err(|why| (damaged.clone(), why))?;
            self.tally.add("records with other bytes", 1);
            let lent = self.part_of(&damaged);
            self.beside(&record, &lent, &right).map_err(|why| (valid.clone(), why))?;
        }
        for _ in 0..6 {
            let record = changed(&mut self.random, &record, valid.len());
            self.tally.add("records with fields set", 1);
            self.beside(&record, &valid, &right).map_err(|why| (valid.clone(), why))?;
        }
        let length = self.random.below(1000);
        let lent = self.random.bytes(length);
        self.tally.add("records with any bytes", 1);
        self.beside(&record, &lent, &right).map_err(|why| (valid.clone(), why))
    }

    /// The bytes, or one time in four the first of them.
    fn part_of(&mut self, file: &[u8]) -> Vec<u8> {
        match self.random.below(4) {
            0 => file[..self.random.below(file.len() + 1)].to_vec(),
            _ => file.to_vec(),
        }
    }

    /// A record with bytes that it was not opened from, or that was not opened at all.
    fn beside(&mut self, record: &[u8], lent: &[u8], right: &[u32]) -> Held<()> {
        let subject = Subject { record, file: lent };
        let told = |why| {
            let lent = if lent.len() < 5000 { hex(lent) } else { format!("{} bytes", lent.len()) };
            format!("{why}\nasked with the record {} and the bytes {lent}", hex(record))
        };
        self.put(subject, None, right, FEW).map(|_| ()).map_err(told)
    }

    /// A file of less than two megabytes whose stripes take more than 2^32 numbers: their need is told, and no room is enough. The original
    /// would build them as it opens, so it is not asked.
    fn too_many(&mut self) -> Result<(), (Vec<u8>, String)> {
        let file = striped::too_many();
        self.tally.add("files with more than 2^32 numbers", 1);
        let record = open_into(&file, SIZE).expect("a file of the builder");
        let built = self.build(Subject { record: &record, file: &file });
        let built = built.map_err(|why| (file.clone(), why))?;
        assert_eq!(built, Err(46), "so many numbers are not built");
        // A chunk stands in all 256 stripes of a group, but for the last one, which is a point.
        let need = 257 * (5 + 3 * 256 + 65_534 * 256 + 1);
        assert_eq!(self.port.need(&record, &file), Ok(need), "by hand");
        Ok(())
    }

    /// Files that are fixed: one of each valid kind, those that break a rule, those at which the original departs.
    fn fixed(&mut self) -> Result<(), (Vec<u8>, String)> {
        let mut files = file::kinds();
        files.extend(file::broken::files().into_iter().map(|(_, file)| file));
        files.extend(file::departing().into_iter().map(|(_, file)| file));
        files.extend(file::chunks().into_iter().map(|(_, file)| file));
        files.extend(striped::cases().into_iter().map(|case| case.file));
        for file in files {
            self.tally.add("kept files", 1);
            self.file(&file, &[], MANY).map_err(|why| (file.clone(), why))?;
        }
        Ok(())
    }
}

mod with_the_archive {
    use super::*;
    use crate::compare::stop;
    use std::path::Path;
    use std::time::{Duration, Instant};

    use crate::port::striped::PORT;

    const SAMPLE: &str = concat!(env!("CARGO_MANIFEST_DIR"), "/../sample/real-ne.tzb");
    /// So many places of the sample.
    const OF_SAMPLE: usize = 20_000;

    fn end(seed: u64, (file, why): (Vec<u8>, String)) -> ! {
        println!("seed {seed}");
        stop(&file, &why, |file| Run::new(PORT, seed).file(file, &[], 1000).err())
    }

    fn for_seconds(run: &mut Run, seconds: u64, seed: u64) {
        let start = Instant::now();
        while start.elapsed() < Duration::from_secs(seconds) {
            run.some().unwrap_or_else(|found| end(seed, found));
        }
    }

    /// The kept files and the sample; then random files until the time is over.
    pub fn run(seconds: u64, seed: u64) {
        println!("seed {seed}, random files for {seconds} s");
        let mut run = Run::new(PORT, seed);
        run.fixed().unwrap_or_else(|found| end(seed, found));
        run.too_many().unwrap_or_else(|found| end(seed, found));
        let sample = std::fs::read(SAMPLE).expect("the sample");
        run.tally.add("the sample", 1);
        run.file(&sample, &[], OF_SAMPLE).unwrap_or_else(|why| end(seed, (sample, why)));
        for_seconds(&mut run, seconds, seed);
        run.print(seed);
    }

    /// A large file: beside every box of its groups and chunks, then beside some until the time is over.
    pub fn one(path: &Path, seconds: u64, seed: u64) {
        println!("seed {seed}, {} for {seconds} s", path.display());
        let file = std::fs::read(path).expect("the file");
        let mut run = Run::new(PORT, seed);
        let mut most = usize::MAX;
        let start = Instant::now();
        while most == usize::MAX || start.elapsed() < Duration::from_secs(seconds) {
            run.tally.add("times the file", 1);
            run.file(&file, &[], most).unwrap_or_else(|why| end(seed, (file.clone(), why)));
            most = 1000;
        }
        run.print(seed);
    }

    impl Run {
        fn print(&self, seed: u64) {
            self.tally.print();
            self.met.print();
            println!("seed {seed}: 0 differences");
        }
    }

    /// Random files alone; all that is told of a run is told in one line.
    pub fn short(seconds: u64, seed: u64) {
        let mut run = Run::new(PORT, seed);
        for_seconds(&mut run, seconds, seed);
        let (files, questions) = (run.tally.total(), run.met.questions());
        println!(
            "compare striped: {files} files and records, {questions} questions by stripes, 0 differences"
        );
    }
}

pub use with_the_archive::{one, run, short};

#[cfg(test)]
mod tests;
