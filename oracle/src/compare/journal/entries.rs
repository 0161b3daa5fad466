//! Entries for the reader and the writer: those at which a form turns, every pair of count and reason, and random ones.

use super::*;

/// Beside 0, at the ends of the domain and past them, and the ends of i32.
const XS: [i32; 9] =
    [0, 1, -1, 18_000_000, 18_000_001, -18_000_000, -18_000_001, i32::MAX, i32::MIN];
const YS: [i32; 9] = [0, 1, -1, 9_000_000, 9_000_001, -9_000_000, -9_000_001, i32::MAX, i32::MIN];

/// What a place may hold that tells; for the writer also what none can hold.
const HELD: [u32; 5] = [0, 1, 65_533, 65_534, 65_535];
const LENT: [u32; 7] = [0, 1, 65_533, 65_534, 65_535, 65_536, u32::MAX];

/// At these counts and reasons a form turns.
const COUNTS: [u8; 7] = [0, 1, 2, 3, 4, 7, 255];
const REASONS: [u8; 9] = [0, 1, 2, 45, 46, 47, 50, 128, 255];
/// Reasons that no byte holds, some with a last byte that one may.
const BEYOND: [u32; 6] = [256, 257, 302, 65_536, 0x8000_0000, u32::MAX];

/// Rooms of a position and of zones.
const OF_POSITION: [usize; 5] = [0, 1, 2, 3, 9];
const OF_ZONES: [usize; 6] = [0, 1, 2, 3, 4, 9];

/// Every list of so many of these, one after the other.
fn lists(of: &[u32], count: usize) -> Vec<Vec<u32>> {
    (0..count).fold(vec![Vec::new()], |lists, _| {
        let longer = |list: Vec<u32>| of.iter().map(move |&one| [&list[..], &[one]].concat());
        lists.into_iter().flat_map(longer).collect()
    })
}

/// An entry's bytes, whatever they say, with as many places as are told.
fn laid((x, y): (i32, i32), places: &[u32], count: u8, reason: u8) -> Vec<u8> {
    let mut out = [x.to_le_bytes(), y.to_le_bytes()].concat();
    places.iter().for_each(|&zone| out.extend((zone as u16).to_le_bytes()));
    out.extend([count, reason]);
    out
}

impl Run {
    /// Into every room where it can be read, else into none.
    fn read_into_rooms(&mut self, bytes: &[u8]) -> Held<()> {
        if self.read_and_back(bytes)?.is_none() {
            return self.read(bytes, THREE, [0, 0]).map(|_| ());
        }
        for position in OF_POSITION {
            for zones in OF_ZONES {
                self.read(bytes, THREE, [position, zones])?;
            }
        }
        Ok(())
    }

    /// What is told at each bound of the forms, the lengths, the rooms and the number of places.
    pub fn telling_entries(&mut self) -> Held<()> {
        self.telling_places()?;
        self.telling_positions()?;
        self.telling_zones()?;
        self.other_lengths()?;
        self.other_places()
    }

    /// Places of every kind, used and unused in any order, with each count and reason that tells.
    fn telling_places(&mut self) -> Held<()> {
        for places in lists(&HELD, PLACES) {
            for count in COUNTS {
                for reason in REASONS {
                    for at in [(1, -1), (0, 9_000_001)] {
                        self.tally.add("entries that tell", 1);
                        self.read_into_rooms(&laid(at, &places, count, reason))?;
                    }
                }
            }
        }
        Ok(())
    }

    /// Every position that tells, with each form and with what is nearly of one.
    fn telling_positions(&mut self) -> Held<()> {
        for at in XS.into_iter().flat_map(|x| YS.map(|y| (x, y))) {
            for count in 0..=PLACES + 1 {
                for reason in REASONS {
                    self.tally.add("entries that tell", 1);
                    let zones: Vec<u32> = (0..count as u32).map(|i| 65_534 - i).collect();
                    let mut places = zones.clone();
                    places.resize(PLACES, 65_535);
                    self.read_into_rooms(&laid(at, &places, count as u8, reason))?;
                    let entry = Entry { x: at.0, y: at.1, zones, reason: reason.into() };
                    self.write_and_back(&entry)?;
                }
            }
        }
        Ok(())
    }

    /// Lists of up to four zones of every kind to write, and one of five: into every room where they can be written, else into none.
    fn telling_zones(&mut self) -> Held<()> {
        let reasons: Vec<u32> = REASONS.into_iter().map(u32::from).chain(BEYOND).collect();
        for count in 0..=4 {
            for (i, zones) in lists(&LENT, count).into_iter().enumerate() {
                for &reason in &reasons {
                    let (x, y) = (XS[i % 9], YS[i / 9 % 9]);
                    self.tally.add("entries that tell", 1);
                    self.write_into_rooms(&Entry { x, y, zones: zones.clone(), reason })?;
                }
                self.write_into_rooms(&Entry { x: 1, y: -1, zones, reason: 0 })?;
            }
        }
        let five = (0..5).map(|i| 5 * i).collect();
        self.tally.add("entries that tell", 1);
        self.write_into_rooms(&Entry { x: 1, y: -1, zones: five, reason: 0 })
    }

    fn write_into_rooms(&mut self, entry: &Entry) -> Held<()> {
        self.write_and_back(entry)?;
        let rooms = if entry.write(PLACES).is_ok() { &ROOMS[..] } else { &[0] };
        rooms.iter().try_for_each(|&room| self.write(entry, THREE, room).map(|_| ()))
    }

    /// Bytes of every length up to three entries: the first of them are an entry, and so are the last.
    fn other_lengths(&mut self) -> Held<()> {
        let whole = laid((1, -1), &[5, 65_535, 65_535], 1, 0);
        for length in 0..=3 * WHOLE {
            let from_start: Vec<u8> = whole.iter().copied().cycle().take(length).collect();
            let mut to_end: Vec<u8> = whole.iter().rev().copied().cycle().take(length).collect();
            to_end.reverse();
            for bytes in [from_start, to_end, vec![0; length], vec![0xff; length]] {
                self.tally.add("entries of every length", 1);
                self.read_into_rooms(&bytes)?;
            }
        }
        Ok(())
    }

    /// Other numbers of places, with bytes that would be an entry of three, of so many, and none.
    fn other_places(&mut self) -> Held<()> {
        for places in OTHERS {
            for count in 0..=3 {
                self.tally.add("entries of other places", 1);
                let zones: Vec<u32> = (1..=count).collect();
                let entry = Entry { x: 1, y: -1, zones: zones.clone(), reason: 0 };
                for room in ROOMS.into_iter().chain([length(places.min(300) as usize)]) {
                    self.write(&entry, places, room)?;
                }
                for size in [PLACES, places.min(300) as usize] {
                    let mut all = zones.clone();
                    all.resize(size, 65_535);
                    let bytes = laid((1, -1), &all, count as u8, 0);
                    for rooms in [[0, 0], [1, 3], [2, 3], [3, 300]] {
                        self.read(&bytes, places, rooms)?;
                        self.read(&[], places, rooms)?;
                    }
                }
            }
        }
        Ok(())
    }

    /// All 65,536 pairs of count and reason, to be read with places of every kind that tells, and to be written with as many zones as the
    /// count says. Positions take turns.
    pub fn every_pair(&mut self) -> Held<()> {
        let patterns = lists(&HELD, PLACES);
        let all: Vec<u32> = (0..255).map(|i| 257 * i).collect();
        let mut turn = 0;
        for (count, reason) in (0..=255).flat_map(|n| (0..=255).map(move |m| (n, m))) {
            for places in &patterns {
                turn += 1;
                let at = (XS[turn % 9], YS[turn / 9 % 9]);
                self.read_and_back(&laid(at, places, count, reason))?;
            }
            let zones = all[..count.into()].to_vec();
            for (x, y) in [(1, -1), (XS[turn % 9], YS[turn / 9 % 9])] {
                let entry = Entry { x, y, zones: zones.clone(), reason: reason.into() };
                self.write_and_back(&entry)?;
            }
            self.tally.add("pairs of count and reason", 1);
        }
        Ok(())
    }

    /// One that is of a form most of the time: written, read back, damaged in one to three places and read; and bytes of any kind.
    pub fn some_entry(&mut self) -> Held<()> {
        self.tally.add("random entries", 1);
        let entry = self.any_entry();
        self.write_and_back(&entry)?;
        let room = self.random.pick(&ROOMS);
        self.write(&entry, THREE, room)?;
        let mut bytes = match entry.write(PLACES) {
            Ok(bytes) => bytes,
            Err(_) => self.random.bytes(WHOLE),
        };
        let rooms = [self.random.pick(&OF_POSITION), self.random.pick(&OF_ZONES)];
        self.read(&bytes, THREE, rooms)?;
        for _ in 0..1 + self.random.below(3) {
            self.tally.add("damaged entries", 1);
            self.damage(&mut bytes);
            self.read_and_back(&bytes)?;
        }
        Ok(())
    }

    fn any_entry(&mut self) -> Entry {
        let random = &mut self.random;
        let coordinate = |random: &mut Random, end: i32, telling: &[i32]| match random.below(8) {
            0 => random.bits() as i32,
            1 => random.pick(telling),
            _ => random.from_to(-end, end),
        };
        let x = coordinate(random, 18_000_000, &XS);
        let y = coordinate(random, 9_000_000, &YS);
        let count = random.pick(&[0, 0, 1, 1, 2, 2, 3, 3, 4, 5]);
        let zone = |random: &mut Random| match random.below(16) {
            0 => random.pick(&LENT),
            1 => random.bits() as u32,
            2 => random.below(4) as u32,
            _ => random.below(65_535) as u32,
        };
        let zones = (0..count).map(|_| zone(random)).collect();
        let reason = match random.below(16) {
            0 => random.bits() as u32,
            1 => random.pick(&BEYOND),
            2 => u32::from(random.byte()),
            3..8 => random.below(47) as u32,
            _ => 0,
        };
        // With a reason there are no zones, most of the time.
        let bare = reason != 0 && random.below(8) > 0;
        Entry { x, y, zones: if bare { Vec::new() } else { zones }, reason }
    }

    /// A byte or a bit, a place set to what tells or to another's, count or reason one off, the position at an end, another length.
    fn damage(&mut self, bytes: &mut Vec<u8>) {
        let random = &mut self.random;
        if bytes.len() != WHOLE {
            *bytes = random.bytes(WHOLE);
        }
        let place = 8 + 2 * random.below(PLACES);
        match random.below(10) {
            0 => bytes[random.below(WHOLE)] = random.byte(),
            1 => bytes[random.below(WHOLE)] ^= 1 << random.below(8),
            2 => {
                let zone = random.pick(&HELD) as u16;
                bytes[place..place + 2].copy_from_slice(&zone.to_le_bytes());
            }
            3 => {
                let other = 8 + 2 * random.below(PLACES);
                bytes.copy_within(other..other + 2, place);
            }
            4 => bytes[WHOLE - 2] = random.pick(&COUNTS),
            5 => bytes[WHOLE - 1] = random.pick(&REASONS),
            6 => {
                let at = WHOLE - 1 - random.below(2);
                bytes[at] = bytes[at].wrapping_add(random.pick(&[1, 255]));
            }
            7 => bytes[..4].copy_from_slice(&random.pick(&XS).to_le_bytes()),
            8 => bytes[4..8].copy_from_slice(&random.pick(&YS).to_le_bytes()),
            _ => bytes.resize(random.pick(&[0, 1, 15, 17, 24, 32]), 0xff),
        }
    }
}
