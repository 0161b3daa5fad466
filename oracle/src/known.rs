//! The closed list of places at which the original's opening is known to depart from document 01.
//! `rules` can judge with any set of them. The original must say what the rules say with all of them, the port what they say with none.

#[cfg(test)]
mod smallest;

use crate::compare;
use crate::file::smaller;
use crate::rules::{self, Departure};

pub struct Known {
    pub departure: Departure,
    pub name: &'static str,
    pub document: &'static str,
    pub original: &'static str,
}

pub const KNOWN: [Known; 4] = [
    Known {
        departure: Departure::Type11,
        name: "section type 11",
        document: "refuses it (15)",
        original: "allows it, and goes on",
    },
    Known {
        departure: Departure::EmptyInside,
        name: "an empty section strictly inside another",
        document: "shares no byte: goes on",
        original: "calls it overlapping (16)",
    },
    Known {
        departure: Departure::ChunkRecord,
        name: "a chunk with count 0, or with its offset not below the POINTS length",
        document: "chunk offset or count (32)",
        original: "a bad record (34)",
    },
    Known {
        departure: Departure::ShortGroup,
        name: "a group with point count 0 or 1",
        document: "goes on: 33 if its chunks do not add up to it, else accepted",
        original: "a bad record (34)",
    },
];

pub const ALL: [Departure; 4] =
    [Departure::Type11, Departure::EmptyInside, Departure::ChunkRecord, Departure::ShortGroup];

/// Those of the questions: decoding, containment, lookups.
pub const OF_ASKING: [Known; 3] = [
    Known {
        departure: Departure::ShortRing,
        name: "a ring with point count below 3",
        document: "has no such rule: the ring is looked at",
        original: "a bad record (34), when the ring is read",
    },
    Known {
        departure: Departure::ReadsOn,
        name: "broken chunk bytes behind a hit on an edge",
        document: "the hit ends the walk",
        original: "reads the chunk to its end, and refuses",
    },
    Known {
        departure: Departure::Stripes,
        name: "a chunk whose box reaches below its group's",
        document: "is looked at",
        original: "its stripe number wraps, and the chunk may be passed over",
    },
];

/// Every departure, of opening and of the questions.
pub const EVERY: [Departure; 7] = [
    Departure::Type11,
    Departure::EmptyInside,
    Departure::ChunkRecord,
    Departure::ShortGroup,
    Departure::ShortRing,
    Departure::ReadsOn,
    Departure::Stripes,
];

/// All but that of the stripes: none is met on a file whose stripes can be built.
pub const BUT_STRIPES: [Departure; 6] = [
    Departure::Type11,
    Departure::EmptyInside,
    Departure::ChunkRecord,
    Departure::ShortGroup,
    Departure::ShortRing,
    Departure::ReadsOn,
];

/// The number by the rules, 0 where the file opens.
pub fn number(file: &[u8], departures: &[Departure]) -> u32 {
    rules::open(file, departures).err().unwrap_or(0)
}

/// Those of the list that make the original say something else of this file: by itself, or as the one that is left out.
pub fn met(file: &[u8]) -> Vec<usize> {
    let (document, original) = (number(file, &[]), number(file, &ALL));
    if document == original {
        return Vec::new();
    }
    let tells = |d: Departure| {
        let others: Vec<Departure> = ALL.into_iter().filter(|&other| other != d).collect();
        number(file, &[d]) != document || number(file, &others) != original
    };
    (0..KNOWN.len()).filter(|&i| tells(KNOWN[i].departure)).collect()
}

/// Whether the file meets this difference and no other; with `opens`, one side must open it.
pub fn shows(i: usize, file: &[u8], opens: bool) -> bool {
    let opened = || number(file, &[]) == 0 || number(file, &ALL) == 0;
    met(file) == [i] && (!opens || opened())
}

/// The smallest file that is reached from this one and still shows the difference.
pub fn small(i: usize, file: Vec<u8>, opens: bool) -> Vec<u8> {
    compare::smallest(file, |f| smaller::files(f), |f| shows(i, f, opens))
}
