//! Stripes (document 02, 2026-02), written straight from its words: the numbers of an opened file, and what they say to a walk. For any
//! opened record, any bytes and any numbers. A place in the numbers takes two of them, low half first.

use super::questions::floor;
use super::records::Bounds;
use super::{Opened, Said, need};
use std::ops::{Range, RangeInclusive};

/// How a group's chunks are walked: plainly, or by the stripes that these numbers say.
#[derive(Debug, Clone, Copy, Default)]
pub enum Way<'a> {
    #[default]
    Plain,
    Striped(&'a [u32]),
}

/// How a group is cut.
#[derive(Debug, Clone, Copy, PartialEq, Eq)]
struct Striping {
    least: i64,
    /// At least 1.
    height: u64,
    /// How many stripes there are; none for a group of one chunk.
    k: u64,
}

impl Striping {
    fn of(group: Bounds, chunks: u64) -> Self {
        let height = (group.maxy - group.miny).max(1) as u64;
        let k = if chunks < 2 { 0 } else { (chunks / 4).clamp(1, 256) };
        Self { least: group.miny, height, k }
    }

    /// The stripe of a whole-number height. Both factors are below 2^32.
    fn stripe(self, y: i64) -> u64 {
        let above = (y - self.least).max(0) as u64;
        (above * self.k / self.height).min(self.k - 1)
    }
}

/// A group as it is built: how it is cut, and for each of its chunks the stripes in which it stands, where there are stripes.
struct Built {
    striping: Striping,
    chunks: Vec<RangeInclusive<u64>>,
}

impl Built {
    /// A chunk stands in every stripe from that of its box's least y to that of its greatest.
    fn of(group: Bounds, boxes: &[Bounds]) -> Self {
        let striping = Striping::of(group, boxes.len() as u64);
        let stands = |b: &Bounds| striping.stripe(b.miny)..=striping.stripe(b.maxy);
        let boxes = if striping.k == 0 { &[] } else { boxes };
        Self { striping, chunks: boxes.iter().map(stands).collect() }
    }

    /// How many chunk numbers its stripes have.
    fn chunk_numbers(&self) -> u64 {
        self.chunks.iter().map(|stripes| stripes.end() + 1 - stripes.start()).sum()
    }

    /// The chunk numbers of one of its stripes.
    fn chunks_in(&self, stripe: u64) -> Vec<u32> {
        (0..).zip(&self.chunks).filter(|(_, of)| of.contains(&stripe)).map(|(i, _)| i).collect()
    }
}

/// How many numbers a group's entry takes, and a stripe's.
pub const OF_GROUP: u64 = 5;
pub const OF_STRIPE: u64 = 3;

/// A place, low half first.
pub fn halves(place: u64) -> [u32; 2] {
    [place as u32, (place >> 32) as u32]
}

impl Opened<'_> {
    /// Group by group and chunk by chunk the first of 34, 44, 49: a box that leaves its group's in y, in a group of two chunks or more.
    fn built(&self, index: u64) -> Said<Built> {
        let group = self.group_at(index)?;
        let mut boxes = Vec::new();
        for i in group.first..group.first + group.count {
            let chunk = self.chunk_at(i)?.bounds;
            let within = chunk.miny >= group.bounds.miny && chunk.maxy <= group.bounds.maxy;
            need(49, group.count < 2 || within)?;
            boxes.push(chunk);
        }
        Ok(Built::of(group.bounds, &boxes))
    }

    /// 5 × groups + 3 × stripes + chunk numbers. Groups may share their chunks, so one group alone is kept at a time.
    pub fn stripes_need(&self) -> Said<u64> {
        let mut need = 0;
        for i in 0..self.groups() {
            let group = self.built(i)?;
            need += OF_GROUP + OF_STRIPE * group.striping.k + group.chunk_numbers();
        }
        Ok(need)
    }

    /// The numbers, or 46 after every other refusal.
    pub fn stripes(&self, room: u64) -> Said<Vec<u32>> {
        need(46, self.stripes_need()? <= room)?;
        let groups: Vec<Built> = (0..self.groups()).map(|i| self.built(i)).collect::<Said<_>>()?;
        let stripes: u64 = groups.iter().map(|group| group.striping.k).sum();
        let (mut stripe_at, mut chunk_at) =
            (OF_GROUP * self.groups(), OF_GROUP * self.groups() + OF_STRIPE * stripes);
        let [mut of_groups, mut of_stripes, mut of_chunks] = [(); 3].map(|()| Vec::new());
        for group in &groups {
            let Striping { least, height, k } = group.striping;
            let [low, high] = halves(stripe_at);
            of_groups.extend(match k {
                0 => [0; 5],
                _ => [least as i32 as u32, height as u32, k as u32, low, high],
            });
            stripe_at += OF_STRIPE * k;
            for stripe in 0..k {
                let chunks = group.chunks_in(stripe);
                let [low, high] = halves(chunk_at);
                of_stripes.extend([low, high, chunks.len() as u32]);
                chunk_at += chunks.len() as u64;
                of_chunks.extend(chunks);
            }
        }
        Ok([of_groups, of_stripes, of_chunks].concat())
    }
}

/// Numbers that a walk is asked with. No sum of places wraps.
#[derive(Clone, Copy)]
pub struct Numbers<'a>(pub &'a [u32]);

impl Numbers<'_> {
    /// So many numbers from a place on, all of them, or 44.
    fn at<const N: usize>(self, place: u128) -> Said<[u64; N]> {
        need(44, place + N as u128 <= self.0.len() as u128)?;
        let place = place as usize;
        Ok(std::array::from_fn(|i| self.0[place + i].into()))
    }

    /// The places of the chunk numbers of a group's stripe at a float height, which lies in the group's box; none where the group is walked
    /// plainly.
    pub fn places(self, group: u64, y: f64) -> Said<Option<Range<u128>>> {
        let [least, height, k, low, high] = self.at(u128::from(OF_GROUP * group))?;
        if k == 0 {
            return Ok(None);
        }
        need(34, height > 0)?;
        let stripe = Striping { least: (least as u32 as i32).into(), height, k }.stripe(floor(y));
        let first = place(low, high) + u128::from(OF_STRIPE) * u128::from(stripe);
        let [low, high, count] = self.at(first)?;
        Ok(Some(place(low, high)..place(low, high) + u128::from(count)))
    }

    /// The chunk number at a place: below the group's count, or 34.
    pub fn chunk(self, place: u128, count: u64) -> Said<u64> {
        let [chunk] = self.at(place)?;
        need(34, chunk < count)?;
        Ok(chunk)
    }
}

fn place(low: u64, high: u64) -> u128 {
    u128::from(low) + (u128::from(high) << 32)
}
