//! walked.bin: questions of chunks, containment and lookups, with document 01's answers; full.bin: small files with what the full check says.
//! README.md has the layout of their records. Of each file's own bytes the original must say the same, but for its known departures.

use super::blocks::{block, said, word};
use crate::compare::asking::questions::{self, spread};
use crate::file;
use crate::known::EVERY;
use crate::random::Random;
use crate::rules::{self, Judge, Opened, Placed, full_check};
use crate::voice::{Answer, Question, Voice};
use crate::{original, scene};
use std::collections::BTreeMap;

/// How often each kind of question had each answer: 0, or the refusal.
pub type Counts = BTreeMap<(&'static str, u32), u64>;

/// 0 where the full check accepts, else opening's number, or 47 and 100 times the rule. Where the answer is read off document 01 by hand, the rules must say the same.
pub fn full() -> Vec<(u32, Vec<u8>)> {
    let by_hand =
        |(rule, file): (u32, Vec<u8>)| (if rule == 0 { 0 } else { 47 + 100 * rule }, file);
    let said = |file: &[u8]| full_check(file).err().map_or(0, |b| b.number + 100 * b.rule);
    let mut out: Vec<(u32, Vec<u8>)> = file::broken::files().into_iter().map(by_hand).collect();
    out.extend(file::departing().into_iter().map(by_hand));
    out.extend(file::cases().into_iter().step_by(8).filter(|(number, _)| *number > 0));
    for (i, (number, file)) in out.iter().enumerate() {
        assert_eq!(said(file), *number, "{i}");
    }
    for case in file::small_rings::cases() {
        let (number, file) = by_hand((case.rule, case.file));
        assert_eq!(said(&file), number, "{}", case.what);
        out.push((number, file));
    }
    let others = file::chunks().into_iter().map(|(_, file)| file).chain(file::kinds());
    out.extend(others.map(|file| (said(&file), file)));
    out
}

pub fn list() -> (Vec<u8>, Counts) {
    let mut counts = Counts::new();
    let mut out = Vec::new();
    for (i, file) in files().into_iter().enumerate() {
        let opened = rules::open(&file, &[]).expect("a file that opens");
        let mut lent = vec![file.clone()];
        if i < OTHERWISE {
            lent.extend(other_bytes(&file, &opened));
        }
        block(&mut out, &file, lent.len());
        for (k, bytes) in lent.iter().enumerate() {
            let questions = some_of(&opened, if k == 0 { MANY } else { FEW });
            block(&mut out, bytes, questions.len());
            let judge = Judge::plain(opened.asked_with(bytes), &[]);
            for &q in &questions {
                record(&mut out, q, judge.answer(q), &mut counts);
            }
            if k == 0 {
                hold_original(&file, &questions);
            }
        }
    }
    broken_chunks(&mut out, &mut counts);
    (out, counts)
}

/// Those whose refusals and places are read off document 02 by hand: the rules must say the same.
fn broken_chunks(out: &mut Vec<u8>, counts: &mut Counts) {
    for case in file::places::cases() {
        let opened = rules::open(&case.file, &[]).expect("a file that opens");
        block(out, &case.file, case.with.len());
        for (lent, told) in &case.with {
            block(out, lent, told.len());
            let judge = Judge::plain(opened.asked_with(lent), &[]);
            for &(q, expected) in told {
                let answer = judge.answer(q);
                assert_eq!(answer.clone().map(|_| ()), expected, "{q:?}");
                record(out, q, answer, counts);
            }
        }
    }
}

/// Of so many files the record is also asked with other bytes.
const OTHERWISE: usize = 2;

/// How many questions of each kind: with a file's own bytes, and with others.
const MANY: usize = 40;
const FEW: usize = 14;

/// Those that break a rule or none, those whose chunk is broken, those at which the original departs; and valid ones made at random; the full check accepts those whose rings have room.
fn files() -> Vec<Vec<u8>> {
    let mut out = vec![file::broken::whole(), file::least(true).lay()];
    out.extend(file::departing().into_iter().map(|(_, file)| file));
    out.extend(file::chunks().into_iter().map(|(_, file)| file));
    out.extend(file::broken::files().into_iter().skip(1).step_by(5).map(|(_, file)| file));
    let mut random = Random::new(22);
    let mut some: Vec<Vec<u8>> = (0..2000).map(|_| file::on_lattice(&mut random).lay()).collect();
    some.retain(|file| {
        let opened = rules::open(file, &[]).ok().unwrap();
        file.len() <= 1016 && opened.zones > 1 && opened.rings() > 2
    });
    some.sort_by_key(|file| (rules::open(file, &[]).ok().unwrap().grid.is_none(), file.len()));
    out.extend(some.into_iter().take(20));
    out
}

/// Cut before each section's end, and with each directory filled with zeros or 0xff.
fn other_bytes(file: &[u8], opened: &Opened) -> Vec<Vec<u8>> {
    let mut out = Vec::new();
    for [typ, off, len] in file::entries(file) {
        let (off, end) = (off as usize, (off + len) as usize);
        if !(file::TZDIR..=file::CHUNKDIR).contains(&typ) && typ != file::POINTS {
            continue;
        }
        out.push(file[..end - 1].to_vec());
        for filling in [0, 0xff] {
            let mut with = file.to_vec();
            with[off..end].fill(filling);
            out.push(with);
        }
    }
    // The chunks' offsets the other way round, and the counts 0.
    let at = |i: u64| {
        file::entries(file).iter().find(|e| e[0] == file::CHUNKDIR).unwrap()[1] as usize
            + 24 * i as usize
    };
    let last = opened.chunks() - 1;
    let mut turned = file.to_vec();
    let mut none = file.to_vec();
    for i in 0..=last {
        file::put(&mut turned, at(i), file::word(file, at(last - i)));
        none[at(i) + 4..at(i) + 6].fill(0);
    }
    out.extend([turned, none]);
    out
}

/// Some of what a comparison asks: of each kind so many. A list is asked with at most 16 places.
fn some_of(opened: &Opened, most: usize) -> Vec<Question> {
    let all = questions::of(opened, 400);
    let of = |kind: fn(&Question) -> bool| {
        spread(&all.iter().copied().filter(kind).collect::<Vec<_>>(), most)
    };
    let mut out = of(|q| matches!(q, Question::Decode(..)));
    out.extend(of(|q| matches!(q, Question::Contains(..))));
    out.extend(of(|q| matches!(q, Question::Lookup(..))));
    out.extend(of(|q| matches!(q, Question::LookupInto(..))));
    let most = |q| match q {
        Question::Decode(chunk, room) => Question::Decode(chunk, room.min(64)),
        Question::LookupInto(x, y, places) => Question::LookupInto(x, y, places.min(16)),
        other => other,
    };
    out.into_iter().map(most).collect()
}

/// A question's record: kind, chunk or zone, two numbers, position; then what is said, two numbers and four bytes of zero.
fn record(out: &mut Vec<u8>, q: Question, answer: Placed<Answer>, counts: &mut Counts) {
    let (kind, name, of, [a, b], (x, y)) = match q {
        Question::Decode(chunk, room) => (1, "chunk", chunk, [room as u32, 0], (0.0, 0.0)),
        Question::Contains(zone, x, y) => (2, "point", zone, [x as u32, y as u32], (0.0, 0.0)),
        Question::Lookup(x, y) => (3, "lookup", 0, [0, 0], (x, y)),
        Question::LookupInto(x, y, places) => (4, "list", 0, [places as u32, 0], (x, y)),
        _ => unreachable!("asked.bin has the others, and no export takes floats in a zone"),
    };
    [kind, of, a, b].iter().for_each(|&n| word(out, n.into()));
    [x, y].iter().for_each(|&x| out.extend_from_slice(&scene::bits(x).to_le_bytes()));
    let refusal = answer.as_ref().err().map_or(0, |refusal| refusal.number);
    said(out, answer.map(numbers));
    *counts.entry((name, refusal)).or_default() += 1;
}

/// How many numbers and the sum of their bytes; 1 for yes; 1 and the zone, or 0 for none.
fn numbers(answer: Answer) -> [u64; 3] {
    let sum = |all: &[u32]| {
        let bytes: Vec<u8> = all.iter().flat_map(|n| n.to_le_bytes()).collect();
        [all.len() as u64, rules::crc32(&bytes).into(), 0]
    };
    match answer {
        Answer::Points(points) => sum(&points.iter().map(|&n| n as u32).collect::<Vec<_>>()),
        Answer::Zones(zones) => sum(&zones.iter().map(|&n| n as u32).collect::<Vec<_>>()),
        Answer::Is(is) => [is.into(), 0, 0],
        Answer::Zone(zone) => [zone.is_some().into(), zone.unwrap_or(0), 0],
        _ => unreachable!("asked.bin has the others"),
    }
}

fn hold_original(file: &[u8], questions: &[Question]) {
    let (Ok(opened), Ok(original)) = (rules::open(file, &EVERY), original::opening::open(file))
    else {
        return;
    };
    let judge = Judge::plain(opened, &EVERY);
    questions.iter().for_each(|&q| assert_eq!(original.ask(q), judge.ask(q), "{q:?}"));
}

#[cfg(test)]
mod tests {
    use super::*;
    use crate::file::word;

    /// The list is read as README.md says, and each record once. A refusal 38 to 43 has a place in the bytes that are lent, or their end,
    /// and no other has one.
    #[test]
    fn the_list_reads_back() {
        let (list, counts) = list();
        let mut rest = &list[..];
        let mut take = |length: usize| {
            let (some, behind) = rest.split_at(length);
            rest = behind;
            some
        };
        let (mut questions, mut places) = (0, 0);
        for _ in 0..files().len() + file::places::cases().len() {
            for _ in 0..word(take(1024), 4) {
                let lent = take(1024);
                for _ in 0..word(lent, 4) {
                    let q = take(48);
                    questions += 1;
                    match word(q, 32) {
                        0 => {}
                        38..44 => {
                            assert!((1..=word(lent, 0) + 1).contains(&word(q, 36)));
                            places += 1;
                        }
                        _ => assert_eq!(word(q, 36), 0),
                    }
                }
            }
        }
        assert!(rest.is_empty() && places > 1000, "{places}");
        assert_eq!(questions, counts.values().sum::<u64>());
    }
}
