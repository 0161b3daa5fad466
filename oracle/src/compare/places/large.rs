//! A large file of which one chunk at a time is broken in its place, asked for, and put right again.

use super::met::Spot;
use super::*;
use crate::bytes::OF_NUMBERS;
use std::ops::Range;

/// One time in so many the file is opened for a question: that takes its sum anew.
const OPENED: usize = 2000;
/// One time in so many all of it is looked at.
const LOOKED_AT: usize = 256;

pub struct Large {
    file: Vec<u8>,
    kept: Vec<u8>,
    record: Vec<u8>,
    numbers: Vec<u32>,
    chunks: usize,
}

impl Large {
    pub fn of(file: Vec<u8>) -> Self {
        let record = open_into(&file, SIZE).expect("a file that opens");
        let opened = Opened::of_record(&record, &file).unwrap();
        let chunks = opened.chunks() as usize;
        let numbers = opened.stripes(u64::MAX).expect("a file whose stripes can be built");
        Self { kept: file.clone(), file, record, numbers, chunks }
    }

    fn record_at(&self, chunk: usize) -> usize {
        word(&self.record, 52) as usize + 24 * chunk
    }

    fn count_at(&self, chunk: usize) -> u16 {
        let at = self.record_at(chunk) + 4;
        u16::from_le_bytes([self.file[at], self.file[at + 1]])
    }

    /// Its bytes, as the file says now.
    fn range(&self, chunk: usize) -> Range<usize> {
        let points = word(&self.record, 60) as usize;
        let start = |chunk| points + word(&self.file, self.record_at(chunk)) as usize;
        let end = points + word(&self.record, 64) as usize;
        start(chunk)..if chunk + 1 < self.chunks { start(chunk + 1) } else { end }
    }

    /// Breaks a chunk, or not: some of its bytes, its count, or all of it and where it ends.
    fn hit(&mut self, random: &mut Random, chunk: usize) {
        let (range, record) = (self.range(chunk), self.record_at(chunk));
        match random.below(4) {
            0 => {
                let count = self.count_at(chunk).wrapping_add(random.pick(&[1, 2, u16::MAX]));
                self.file[record + 4..record + 6].copy_from_slice(&count.to_le_bytes());
            }
            1 | 2 => {
                let broken = places::some(random);
                let end = range.start + broken.bytes.len();
                if end < range.end && chunk + 1 < self.chunks {
                    self.file[range.start..end].copy_from_slice(&broken.bytes);
                    self.file[record + 4..record + 6].copy_from_slice(&broken.count.to_le_bytes());
                    let points = word(&self.record, 60) as usize;
                    put(&mut self.file, record + 24, (end - points) as u32);
                }
            }
            _ => {
                for _ in 0..1 + random.below(2) {
                    let at = range.start + random.below(range.len());
                    self.file[at] = random.pick(&OF_NUMBERS);
                }
            }
        }
    }

    /// The chunk, its record and the next are as they were.
    fn put_right(&mut self, chunk: usize) {
        let record = self.record_at(chunk);
        let both = record..(record + 48).min(self.record_at(self.chunks));
        self.file[both.clone()].copy_from_slice(&self.kept[both]);
        let bytes = self.range(chunk);
        self.file[bytes.clone()].copy_from_slice(&self.kept[bytes]);
    }
}

impl Run {
    /// One question, without a look at all that is lent.
    fn put(&mut self, with: With, asked: Asked) -> Held<Option<Refusal>> {
        let held = ask(&self.port, with, asked);
        self.held(with, asked, held)
    }

    /// One chunk of a large file: decoded, and for a share of them asked for at one of its points.
    pub fn in_its_place(&mut self, large: &mut Large) -> Held<()> {
        let which = self.random.below(large.chunks);
        let opened = Opened::of_record(&large.record, &large.file).unwrap();
        let points = opened.readable(which as u64);
        large.hit(&mut self.random, which);
        self.tally.add("chunks of the file, each hit once", 1);
        let range = large.range(which);
        let with = With { record: &large.record, file: &large.file, numbers: &large.numbers };
        let count = large.count_at(which);
        let asked = plain(Question::Decode(which as u32, 2 * u64::from(count)));
        if let Some(Refusal { number, place: Some(place) }) = self.put(with, asked)? {
            let place = place as usize - range.start;
            self.met.decoded(Spot::of(&large.file[range], count.into(), number, place));
        }
        if self.one_in(8) {
            let point = self.random.pick(&points);
            self.at_one_of(large, point)?;
        }
        large.put_right(which);
        let same = !self.one_in(LOOKED_AT) || large.file == large.kept;
        let with = With { record: &large.record, file: &large.file, numbers: &[] };
        let changed = || Found::of(with, asked, "what is lent for reading changed".to_string());
        if same { Ok(()) } else { Err(changed()) }
    }

    fn at_one_of(&mut self, large: &mut Large, (x, y): (i64, i64)) -> Held<()> {
        let beside = |random: &mut Random, n: i64| n as f64 + random.pick(&[-1.0, 0.0, 0.5, 1.0]);
        let point = (beside(&mut self.random, x), beside(&mut self.random, y));
        let opened = Opened::of_record(&large.record, &large.kept).unwrap();
        let (lng, lat) = (point.0 / 100_000.0, point.1 / 100_000.0);
        let zones = Judge::plain(opened, &[]).lookup_into(lng, lat, 1000).unwrap_or_default();
        let zone = if zones.is_empty() { 0 } else { self.random.pick(&zones) };
        let opens = self.one_in(OPENED / 8);
        if opens {
            seal(&mut large.file);
        }
        let with = With { record: &large.record, file: &large.file, numbers: &large.numbers };
        for asked in walks(zone as u32, point, 16, opens) {
            self.put(with, asked)?;
        }
        let sum = large.kept.len() - 4;
        large.file[sum..].copy_from_slice(&large.kept[sum..]);
        Ok(())
    }
}
