//! A journal's entries (document 02, 2026-04): the port's reader, its writer and its answers against the rules'. What is read is written
//! again to the same bytes, and what is written is read back. Lent memory is looked at to its last byte.

mod entries;
mod positions;
pub mod program;
#[cfg(test)]
mod stand_in;

use super::Tally;
use super::records::{changed, of_file, refusal};
use crate::bytes::hex;
use crate::file::damage::Aim;
use crate::file::{self, journal, striped};
use crate::port::journal::Journals;
use crate::port::opening::{SIZE, open_into};
use crate::random::Random;
use crate::rules::journal::{self as rule, Entry, PLACES, length};
use crate::rules::{self, Opened, Said};

/// The places that a caller may say, and room for just an entry.
const THREE: u32 = PLACES as u32;
const WHOLE: usize = length(PLACES);
/// Other numbers of places: each is refused.
const OTHERS: [u32; 13] = [0, 1, 2, 4, 5, 6, 7, 8, 255, 256, 259, 65_536, u32::MAX];
/// Room for an answer, around what it takes.
const ROOMS: [usize; 9] = [0, 1, 2, 14, 15, 16, 17, 32, 200];
/// How many positions are asked of a file, and of bytes that are not its own.
const MANY: usize = 40;
const FEW: usize = 8;

/// How often each was said: by the refusal, 0 for an answer.
type Counts = [u64; 51];

/// What was asked and what was said.
struct Met {
    read: Counts,
    written: Counts,
    asked: Counts,
    /// The reasons of the entries that answer, and how many zones those of reason 0 tell.
    reasons: Counts,
    zones: [u64; PLACES + 1],
    /// Entries that were read and written again.
    again: u64,
}

impl Met {
    fn new() -> Self {
        let none = [0; 51];
        let zones = [0; PLACES + 1];
        Self { read: none, written: none, asked: none, reasons: none, zones, again: 0 }
    }

    fn print(&self) {
        for (what, counts) in
            [("read", &self.read), ("written", &self.written), ("asked", &self.asked)]
        {
            println!("{:>12}  {what}", counts[0]);
            let refused = (1..).zip(&counts[1..]).filter(|&(_, &count)| count > 0);
            refused.for_each(|(n, count)| println!("{count:>12}  refused by {n}"));
        }
        println!("{:>12}  of those read were written again to the same bytes", self.again);
        println!("  what the entries say that were asked for:");
        (0..).zip(self.zones).for_each(|(n, count)| println!("{count:>12}  {n} zones"));
        let refused = (1..).zip(&self.reasons[1..]).filter(|&(_, &count)| count > 0);
        refused.for_each(|(n, count)| println!("{count:>12}  reason {n}"));
    }

    fn calls(&self) -> u64 {
        [self.read, self.written, self.asked].iter().flatten().sum()
    }
}

type Held<T> = Result<T, String>;

fn told(said: &Said<Vec<u8>>) -> String {
    match said {
        Ok(bytes) => hex(bytes),
        Err(number) => format!("refusal {number}"),
    }
}

/// A record and the bytes that it is asked with.
#[derive(Clone, Copy)]
struct Subject<'a> {
    record: &'a [u8],
    file: &'a [u8],
}

struct Run {
    port: Journals,
    random: Random,
    tally: Tally,
    met: Met,
}

impl Run {
    fn new(port: Journals, seed: u64) -> Self {
        Self { port, random: Random::new(seed), tally: Tally::default(), met: Met::new() }
    }

    /// The entry, if there is one.
    fn read(&mut self, bytes: &[u8], places: u32, rooms: [usize; 2]) -> Held<Option<Entry>> {
        let expected = rule::read(bytes, places, rooms);
        let says = self.port.read(bytes, places, rooms);
        self.met.read[refusal(&expected) as usize] += 1;
        if says != expected {
            let bytes = hex(bytes);
            return Err(format!(
                "reading {bytes} of {places} places into {rooms:?}: the port says {says:?}, the rules {expected:?}"
            ));
        }
        Ok(expected.ok())
    }

    /// The bytes, if there are any.
    fn write(&mut self, entry: &Entry, places: u32, room: usize) -> Held<Option<Vec<u8>>> {
        let expected = rule::written(entry, places, room);
        let says = self.port.write(entry, places, room);
        self.met.written[refusal(&expected) as usize] += 1;
        if says != expected {
            let (says, expected) = (told(&says), told(&expected));
            return Err(format!(
                "writing {entry:?} of {places} places into {room}: the port says {says}, the rules {expected}"
            ));
        }
        Ok(expected.ok())
    }

    /// Reads into rooms that are enough. What can be read is written again to the same bytes.
    fn read_and_back(&mut self, bytes: &[u8]) -> Held<Option<Entry>> {
        let entry = self.read(bytes, THREE, [2, PLACES])?;
        if let Some(entry) = &entry {
            let again = self.write(entry, THREE, WHOLE)?;
            self.met.again += 1;
            if again.as_deref() != Some(bytes) {
                return Err(format!("{} is written again as {again:02x?}", hex(bytes)));
            }
        }
        Ok(entry)
    }

    /// Writes into just enough room. What was written is read back.
    fn write_and_back(&mut self, entry: &Entry) -> Held<()> {
        if let Some(bytes) = self.write(entry, THREE, WHOLE)? {
            let back = self.read_and_back(&bytes)?;
            if back.as_ref() != Some(entry) {
                return Err(format!("{entry:?} is read back as {back:?}"));
            }
        }
        Ok(())
    }

    /// The entry's bytes, if there are any.
    fn call(
        &mut self,
        subject: Subject,
        places: u32,
        at: (i32, i32),
        room: usize,
    ) -> Held<Option<Vec<u8>>> {
        let Subject { record, file } = subject;
        let expected = rule::asked(record, file, places, at, room);
        let says = self.port.ask(record, file, places, at, room);
        self.met.asked[refusal(&expected) as usize] += 1;
        if says != expected {
            let (says, expected) = (told(&says), told(&expected));
            return Err(format!(
                "{at:?} of {places} places into {room}: the port says {says}, the rules {expected}"
            ));
        }
        Ok(expected.ok())
    }

    /// The entry of a position, which reads back; now and then into rooms of every kind, and with other numbers of places.
    fn ask(&mut self, subject: Subject, at: (i32, i32)) -> Held<Option<Entry>> {
        let bytes = self.call(subject, THREE, at, WHOLE)?;
        let entry = match bytes {
            Some(bytes) => self.read_and_back(&bytes)?,
            None => None,
        };
        if let Some(entry) = &entry {
            self.met.reasons[entry.reason as usize] += 1;
            if entry.reason == 0 {
                self.met.zones[entry.zones.len()] += 1;
            }
        }
        if self.random.below(16) == 0 {
            for room in ROOMS {
                self.call(subject, THREE, at, room)?;
            }
            for places in OTHERS {
                let room = self.random.pick(&ROOMS);
                self.call(subject, places, at, room)?;
            }
        }
        Ok(entry)
    }

    /// A record and bytes, at so many positions.
    fn put(&mut self, subject: Subject, most: usize) -> Held<()> {
        let opened = Opened::of_record(subject.record, subject.file).ok();
        let all = positions::of(opened.as_ref(), &mut self.random, most);
        all.into_iter().try_for_each(|at| self.ask(subject, at).map(|_| ()))
    }

    /// A file's own record with its own bytes, where the file opens; the record's bytes.
    fn file(&mut self, file: &[u8], most: usize) -> Held<Option<Vec<u8>>> {
        let Some(record) = of_file(file)? else { return Ok(None) };
        self.put(Subject { record: &record, file }, most)?;
        Ok(Some(record))
    }

    /// A record with bytes that it was not opened from, or that was not opened at all.
    fn beside(&mut self, record: &[u8], lent: &[u8]) -> Held<()> {
        let told = |why| {
            let lent = if lent.len() < 5000 { hex(lent) } else { format!("{} bytes", lent.len()) };
            format!("{why}\nasked with the record {} and the bytes {lent}", hex(record))
        };
        self.put(Subject { record, file: lent }, FEW).map_err(told)
    }

    /// A valid file; the same damaged; its record with other bytes and with fields set to anything.
    fn some_file(&mut self) -> Result<(), (Vec<u8>, String)> {
        let valid = match self.random.below(8) {
            0 => file::some(&mut self.random).lay(),
            1 => file::on_lattice(&mut self.random).lay(),
            2 => striped::some(&mut self.random).lay(),
            _ => journal::some(&mut self.random).lay(),
        };
        self.tally.add("files", 1);
        let record = self.file(&valid, MANY).map_err(|why| (valid.clone(), why))?;
        let record = record.expect("a file of the builder");
        let aims = [Aim::at_geometry(&valid), Aim::at(&valid)];
        for i in 0..8 {
            let damaged = aims[i % 2].damage(&mut self.random, &valid, 1 + i / 4);
            self.tally.add("files damaged", 1);
            self.file(&damaged, FEW).map_err(|why| (damaged.clone(), why))?;
            self.tally.add("records with other bytes", 1);
            let kept = match self.random.below(4) {
                0 => self.random.below(damaged.len() + 1),
                _ => damaged.len(),
            };
            self.beside(&record, &damaged[..kept]).map_err(|why| (valid.clone(), why))?;
        }
        for _ in 0..6 {
            let record = changed(&mut self.random, &record, valid.len());
            self.tally.add("records with fields set", 1);
            self.beside(&record, &valid).map_err(|why| (valid.clone(), why))?;
        }
        let length = self.random.below(1000);
        let (any, lent) = (self.random.bytes(SIZE), self.random.bytes(length));
        self.tally.add("records or bytes of any kind", 2);
        self.beside(&record, &lent).map_err(|why| (valid.clone(), why))?;
        self.beside(&any, &valid).map_err(|why| (valid, why))
    }

    /// A position whose entry is read off document 02 by hand.
    fn by_hand(&mut self, subject: Subject, expected: &Entry) -> Held<()> {
        let said = self.ask(subject, (expected.x, expected.y))?;
        if said.as_ref() != Some(expected) {
            return Err(format!("the port and the rules say {said:?}, by hand it is {expected:?}"));
        }
        Ok(())
    }

    /// The kept index at its kept positions, records made by hand, and the small files that are fixed.
    fn fixed_files(&mut self) -> Result<(), (Vec<u8>, String)> {
        let kept = journal::kept();
        let record = open_into(&kept, SIZE).expect("the kept index opens");
        let subject = Subject { record: &record, file: &kept };
        for (at, said) in journal::ANSWERS {
            self.tally.add("kept positions", 1);
            let expected = journal::expected(at, said);
            self.by_hand(subject, &expected).map_err(|why| (kept.clone(), why))?;
        }
        for case in journal::by_hand() {
            self.tally.add("records made by hand", 1);
            let subject = Subject { record: &case.record, file: &case.file };
            let told = |why| format!("{}: {why}\nthe record {}", case.what, hex(&case.record));
            let said = self.by_hand(subject, &case.expected);
            said.map_err(|why| (case.file.clone(), told(why)))?;
        }
        let mut files = file::kinds();
        files.extend(file::broken::files().into_iter().map(|(_, file)| file));
        files.extend(file::departing().into_iter().map(|(_, file)| file));
        files.extend(file::chunks().into_iter().map(|(_, file)| file));
        for file in files {
            self.tally.add("kept files", 1);
            self.file(&file, MANY).map_err(|why| (file.clone(), why))?;
        }
        Ok(())
    }
}

mod with_the_archive {
    use super::*;
    use crate::compare::stop;
    use crate::port::journal::PORT;
    use std::time::{Duration, Instant};

    const SAMPLE: &str = concat!(env!("CARGO_MANIFEST_DIR"), "/../sample/real-ne.tzb");
    /// So many positions of the sample.
    const OF_SAMPLE: usize = 2000;
    /// So many entries for each file.
    const ENTRIES: usize = 1000;

    fn end(seed: u64, (file, why): (Vec<u8>, String)) -> ! {
        println!("seed {seed}");
        stop(&file, &why, |file| Run::new(PORT, seed).file(file, 1000).err())
    }

    /// What has to do with no file.
    fn held(seed: u64, said: Held<()>) {
        if let Err(why) = said {
            println!("seed {seed}\nfound: {why}");
            std::process::exit(1)
        }
    }

    fn for_seconds(run: &mut Run, seconds: u64, seed: u64) {
        let start = Instant::now();
        while start.elapsed() < Duration::from_secs(seconds) {
            held(seed, (0..ENTRIES).try_for_each(|_| run.some_entry()));
            run.some_file().unwrap_or_else(|found| end(seed, found));
        }
    }

    /// Every pair of count and reason, what else is fixed, and the sample; then random entries and files until the time is over.
    pub fn run(seconds: u64, seed: u64) {
        println!("seed {seed}, random entries and files for {seconds} s");
        let mut run = Run::new(PORT, seed);
        held(seed, run.telling_entries());
        held(seed, run.every_pair());
        run.fixed_files().unwrap_or_else(|found| end(seed, found));
        let sample = std::fs::read(SAMPLE).expect("the sample");
        run.tally.add("the sample", 1);
        run.file(&sample, OF_SAMPLE).unwrap_or_else(|why| end(seed, (sample, why)));
        for_seconds(&mut run, seconds, seed);
        run.tally.print();
        run.met.print();
        println!("seed {seed}: 0 differences");
    }

    /// The entries that tell, then random ones and files; all that is told of a run is told in one line.
    pub fn short(seconds: u64, seed: u64) {
        let mut run = Run::new(PORT, seed);
        held(seed, run.telling_entries());
        for_seconds(&mut run, seconds, seed);
        let (inputs, calls) = (run.tally.total(), run.met.calls());
        println!("compare journal: {inputs} entries and files, {calls} calls, 0 differences");
    }
}

pub use with_the_archive::{run, short};

#[cfg(test)]
mod tests;
