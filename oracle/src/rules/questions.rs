//! Names and candidates of an opened file, by document 01.

use super::bytes::{u16_at, u32_at};
use super::{Grid, Opened, Said, need};

/// Which zones may hold a position. A cell without candidates counts as none.
#[derive(Debug, Clone, Copy, PartialEq, Eq)]
pub enum Candidates {
    Nothing,
    EveryZone,
    Cell { count: u64, offset: u64 },
}

impl<'a> Opened<'a> {
    /// The same record, asked with other bytes.
    pub fn asked_with(self, lent: &'a [u8]) -> Self {
        Self { file: lent, ..self }
    }

    /// The answer where so many bytes are lent, and 44 where they are not.
    pub(super) fn read<T>(&self, at: u64, width: u64, load: impl Fn(&[u8], u64) -> T) -> Said<T> {
        need(44, at + width <= self.file.len() as u64)?;
        Ok(load(self.file, at))
    }

    /// A name as a part of the lent bytes: where it starts, and how many bytes it has.
    pub fn name(&self, zone: u64) -> Said<(u64, u64)> {
        need(45, zone < self.zones)?;
        let offsets = self.section(1).off + 4 + 4 * zone;
        let blob = self.section(1).off + 4 + 4 * (self.zones + 1);
        let [from, to] =
            self.read(offsets, 8, |file, at| [u32_at(file, at), u32_at(file, at + 4)])?;
        need(23, from <= to)?;
        need(44, blob + to <= self.file.len() as u64)?;
        Ok((blob + from, to - from))
    }

    pub fn candidates(&self, lng: f64, lat: f64) -> Said<Candidates> {
        if !(lng.abs() <= 180.0 && lat.abs() <= 90.0) {
            return Ok(Candidates::Nothing);
        }
        let Some(g) = self.grid else { return Ok(Candidates::EveryZone) };
        let (column, row) = (floor(lng) - g.lng, floor(lat) - g.lat);
        if !(0..g.columns as i64).contains(&column) || !(0..g.rows as i64).contains(&row) {
            return Ok(Candidates::Nothing);
        }
        let cell = row as u64 * g.columns + column as u64;
        Ok(match parts(self.read(g.words + 4 * cell, 4, u32_at)?) {
            (0, _) => Candidates::Nothing,
            (count, offset) => Candidates::Cell { count, offset },
        })
    }

    /// The zone at a place of the candidates. Without a GRID their total is 0.
    pub fn candidate(&self, place: u64) -> Said<u64> {
        need(30, place < self.candidate_total())?;
        let g = self.grid.unwrap();
        let zone = self.read(g.candidates() + 2 * place, 2, u16_at)?;
        need(31, zone < self.zones)?;
        Ok(zone)
    }

    pub fn candidate_total(&self) -> u64 {
        self.grid.map_or(0, |g| g.total)
    }

    /// Whether the candidates of a cell take in that place.
    pub fn is_named(&self, place: u64) -> bool {
        let Some(g) = self.grid else { return false };
        (0..g.columns * g.rows).any(|cell| {
            let (count, offset) = self.word(g, cell);
            (offset..offset + count).contains(&place)
        })
    }

    pub(super) fn word(&self, g: Grid, cell: u64) -> (u64, u64) {
        parts(u32_at(self.file, g.words + 4 * cell))
    }
}

/// A cell's word: the top 4 bits are the count, the low 28 the offset.
fn parts(word: u64) -> (u64, u64) {
    (word >> 28, word & 0x0fff_ffff)
}

/// The greatest whole number that is not above. Of a number within ±9,000,000.
pub(super) fn floor(x: f64) -> i64 {
    let cut = x as i64;
    if cut as f64 > x { cut - 1 } else { cut }
}

#[cfg(test)]
mod tests {
    use super::floor;

    #[test]
    fn half_below_zero_belongs_to_the_cell_below() {
        assert_eq!([-1.0, -0.5, -0.0, 0.5, 1.0].map(floor), [-1, -1, 0, 0, 1]);
    }
}
