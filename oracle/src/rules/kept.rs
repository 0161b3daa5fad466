//! An opened record as the port keeps it, read from its bytes: what the rules say of a record that was made by hand.

use super::bytes::{i16_at, u16_at, u32_at};
use super::*;

/// The directories in their order, with the width of a record.
const DIRECTORIES: [(usize, u64); 6] =
    [(TZDIR, 24), (POLYDIR, 24), (RINGDIR, 28), (RINGOPS, 4), (GROUPDIR, 44), (CHUNKDIR, 24)];

impl<'a> Opened<'a> {
    /// Flags; NAMES; the directories, each with its count; POINTS; GRID. Another length than 84 is 44.
    pub fn of_record(record: &[u8], file: &'a [u8]) -> Said<Self> {
        need(44, record.len() == 84)?;
        let part = |at: u64, width: u64| {
            Some(Section { off: u32_at(record, at), len: width * u32_at(record, at + 4) })
        };
        let mut sections = [None; 15];
        sections[1] = part(4, 1);
        for (i, (typ, width)) in DIRECTORIES.into_iter().enumerate() {
            sections[typ] = part(12 + 8 * i as u64, width);
        }
        sections[POINTS] = part(60, 1);
        let (flags, zones) = (u32_at(record, 0), u32_at(record, 16));
        let grid = Grid {
            lng: i16_at(record, 72),
            lat: i16_at(record, 74),
            columns: u16_at(record, 76),
            rows: u16_at(record, 78),
            total: u32_at(record, 80),
            words: u32_at(record, 68) + 12,
        };
        let grid = (flags % 2 == 1).then_some(grid);
        Ok(Self { file, sections, flags, zones, grid })
    }
}

#[cfg(test)]
mod tests {
    use super::*;
    use crate::file;
    use crate::port::opening::{SIZE, open_into};
    use crate::random::Random;

    fn told(o: &Opened) -> String {
        let sections: Vec<_> = [1, 2, 3, 4, 5, 6, 7, 9].map(|typ| o.section(typ)).into();
        format!("{sections:?} {} {} {:?}", o.flags, o.zones, o.grid)
    }

    /// The record that the port writes says what opening by the rules does.
    #[test]
    fn a_record_reads_as_the_file_opens() {
        let mut random = Random::new(9);
        for _ in 0..300 {
            let file = file::some(&mut random).lay();
            let record = open_into(&file, SIZE).unwrap();
            let read = Opened::of_record(&record, &file).ok().unwrap();
            assert_eq!(told(&read), told(&open(&file, &[]).ok().unwrap()));
        }
        assert_eq!(Opened::of_record(&[0; 83], &[]).err(), Some(44));
    }
}
