//! map.bin: zones of small files as GeoJSON (document 02, 2026-01). README.md has the layout of its records.

use super::blocks::block;
use crate::file;
use crate::file::maps::{self, Drawn};
use crate::random::Random;
use crate::rules::{self, Broken};

pub struct Record {
    pub file: Vec<u8>,
    pub zone: u32,
    /// So many bytes are lent.
    pub room: usize,
    /// 0 where the text is written, else the refusal; for 47 with 100 times the rule.
    pub number: u32,
    /// What is written, or would be where the room is too short. Empty where the zone has no text.
    pub text: String,
}

/// How much a program lends at the most, and how long a text is kept.
const MOST_ROOM: usize = 1024;
const LONGEST: usize = 1012;
/// How long a file is kept.
const LONGEST_FILE: usize = 1016;

/// What is expected by hand comes first, and the rules must say the same; then zones of random files.
pub fn records() -> Vec<Record> {
    let mut out = Vec::new();
    for (i, case) in maps::cases().into_iter().enumerate() {
        let by_rules = rules::map::map(&case.file, case.zone);
        assert_eq!(drawn(&by_rules), case.drawn, "{}", case.what);
        let rooms = if i % 4 == 0 { Rooms::All } else { Rooms::Few };
        put(&mut out, &case.file, case.zone, by_rules, rooms);
    }
    for file in random_files() {
        let zones = file::word(&file, 40);
        for zone in 0..zones {
            put(&mut out, &file, zone, rules::map::map(&file, zone), Rooms::Few);
        }
    }
    out
}

/// What the rules say, as it is written down by hand.
fn drawn(said: &Result<String, Broken>) -> Drawn {
    match said {
        Ok(text) => Drawn::Rings(rules::map::read(text).expect("a text that can be read")),
        Err(broken) => Drawn::Refused(broken.number + 100 * broken.rule),
    }
}

/// Where a text has room: just enough and a byte less; with these no room at all, and more.
#[derive(Clone, Copy, PartialEq)]
enum Rooms {
    Few,
    All,
}

fn put(out: &mut Vec<Record>, file: &[u8], zone: u32, said: Result<String, Broken>, which: Rooms) {
    let (text, refusal) = match said {
        Ok(text) => (text, 0),
        Err(broken) => (String::new(), broken.number + 100 * broken.rule),
    };
    let length = text.len();
    let rooms = match (refusal, which) {
        (0, Rooms::Few) => vec![length, length - 1],
        (0, Rooms::All) => vec![length, length - 1, 0, length + 1, MOST_ROOM],
        (_, Rooms::Few) => vec![0],
        (_, Rooms::All) => vec![0, MOST_ROOM],
    };
    for room in rooms {
        let number = if refusal == 0 && room < length { 46 } else { refusal };
        out.push(Record { file: file.to_vec(), zone, room, number, text: text.clone() });
    }
}

/// Small files of each maker, of which at least one zone has a text; all texts are short enough.
fn random_files() -> Vec<Vec<u8>> {
    let mut random = Random::new(23);
    let mut out = Vec::new();
    for i in 0..400 {
        let draft = match i % 4 {
            0 => file::some(&mut random),
            1 => file::on_lattice(&mut random),
            _ => maps::some(&mut random),
        };
        let file = draft.lay();
        let zones = file::word(&file, 40);
        let texts = || (0..zones).filter_map(|zone| rules::map::map(&file, zone).ok());
        let short = file.len() <= LONGEST_FILE && texts().all(|text| text.len() <= LONGEST);
        if short && texts().next().is_some() && out.len() < FILES {
            out.push(file);
        }
    }
    out
}

const FILES: usize = 24;

/// Two blocks a record: the file with the number, the text with the zone. The room stands in the last four bytes.
pub fn bytes(records: &[Record]) -> Vec<u8> {
    let mut out = Vec::new();
    for Record { file, zone, room, number, text } in records {
        assert!(text.len() <= LONGEST && *room <= MOST_ROOM, "too long for a list");
        block(&mut out, file, *number as usize);
        block(&mut out, text.as_bytes(), *zone as usize);
        let end = out.len();
        file::put(&mut out, end - 4, *room as u32);
    }
    out
}

#[cfg(test)]
mod tests {
    use super::*;
    use crate::file::word;

    /// The list is read as README.md says, and says what the rules say.
    #[test]
    fn the_list_reads_back() {
        let list = bytes(&records());
        assert_eq!(list.len(), 2048 * records().len());
        for record in list.chunks(2048) {
            let (first, second) = record.split_at(1024);
            let held = |block: &[u8]| block[8..8 + word(block, 0) as usize].to_vec();
            let (file, text) = (held(first), String::from_utf8(held(second)).unwrap());
            let (number, zone, room) = (word(first, 4), word(second, 4), word(second, 1020));
            match rules::map::map(&file, zone) {
                Ok(whole) => {
                    assert_eq!(whole, text);
                    assert_eq!(number, if text.len() <= room as usize { 0 } else { 46 });
                }
                Err(broken) => {
                    assert_eq!((number, text.len()), (broken.number + 100 * broken.rule, 0));
                }
            }
        }
    }
}
