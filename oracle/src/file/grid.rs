//! GRID of a small file: a word for each cell, then the candidates.

use crate::random::Random;

pub struct Grid {
    pub lng: i16,
    pub lat: i16,
    pub columns: u16,
    pub rows: u16,
    pub words: Vec<u32>,
    pub candidates: Vec<u16>,
}

impl Grid {
    pub fn bytes(&self) -> Vec<u8> {
        let mut out = Vec::new();
        for n in [self.lng as u16, self.lat as u16, self.columns, self.rows] {
            out.extend_from_slice(&n.to_le_bytes());
        }
        out.extend_from_slice(&(self.candidates.len() as u32).to_le_bytes());
        self.words.iter().for_each(|w| out.extend_from_slice(&w.to_le_bytes()));
        self.candidates.iter().for_each(|c| out.extend_from_slice(&c.to_le_bytes()));
        out
    }

    /// Some grid, moved so that this position lies in it, if that is allowed.
    pub fn over(random: &mut Random, zones: usize, (lng, lat): (i32, i32)) -> Self {
        let grid = Self::some(random, zones);
        let first = |at: i32, count: u16, least: i32, last: i32, random: &mut Random| {
            let count = i32::from(count);
            (at - random.from_to(0, count - 1)).clamp(least, last + 1 - count) as i16
        };
        Self {
            lng: first(lng, grid.columns, -181, 181, random).min(180),
            lat: first(lat, grid.rows, -91, 91, random).min(90),
            ..grid
        }
    }

    /// One to four columns and rows, now and then at the ends of what is allowed. Cells may share candidates.
    pub fn some(random: &mut Random, zones: usize) -> Self {
        let (columns, rows) = (1 + random.below(4) as u16, 1 + random.below(4) as u16);
        let first = |random: &mut Random, least: i16, last: i16, count: u16| match random.below(4) {
            0 => least,
            1 => last + 1 - count as i16,
            _ => random.from_to(-3, 1) as i16,
        };
        let lng = first(random, -181, 181, columns).min(180);
        let lat = first(random, -91, 91, rows).min(90);
        let total = random.below(20);
        let candidates = (0..total).map(|_| random.below(zones) as u16).collect();
        let word = |random: &mut Random| {
            let count = random.below(total.min(15) + 1);
            let offset = random.below(total - count + 1);
            (count as u32) << 28 | offset as u32
        };
        let words = (0..columns * rows).map(|_| word(random)).collect();
        Self { lng, lat, columns, rows, words, candidates }
    }
}
