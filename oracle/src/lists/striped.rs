//! striped.bin: stripes of small files, and questions by stripes (document 02, 2026-02). README.md has the layout of its records.

use super::blocks::{block, said as put_said, word};
use crate::compare::striped::questions;
use crate::file::striped::{self, numbers};
use crate::file::{self, CHUNKDIR, GROUPDIR};
use crate::random::Random;
use crate::rules::{self, Judge, Opened, Placed};
use crate::voice::{Answer, Question, Voice};
use crate::{original, scene};
use std::collections::BTreeMap;

/// What is asked of a record, its bytes and its numbers.
#[derive(Clone, Copy)]
enum Asked {
    Need,
    /// How many numbers are lent.
    Build(u32),
    Question(Question),
}

/// Bytes and numbers that a record is asked with.
struct Set {
    lent: Vec<u8>,
    numbers: Vec<u32>,
    asked: Vec<Asked>,
}

/// How often each kind of question had each answer: 0, or the refusal.
pub type Counts = BTreeMap<(&'static str, u32), u64>;

/// The most numbers that a block holds, and that a program lends.
const HELD: usize = 254;
const LENT: u32 = 256;
/// So many places a program lends for zones. An answer has room for two of them.
const PLACES: u64 = 16;
/// How long a file is kept.
const LONGEST: usize = 1016;

pub fn list() -> (Vec<u8>, Counts) {
    let mut random = Random::new(24);
    let (mut out, mut counts) = (Vec::new(), Counts::new());
    let mut files = by_hand();
    files.extend(by_chance());
    for (i, (file, sets)) in files.iter_mut().enumerate() {
        let opened = rules::open(file, &[]).ok().expect("a file that opens");
        sets.extend(of_file(&mut random, file, &opened, i));
    }
    files.extend(broken_chunks());
    for (file, sets) in files {
        let opened = rules::open(&file, &[]).ok().expect("a file that opens");
        block(&mut out, &file, sets.len());
        for set in sets {
            let opened = opened.asked_with(&set.lent);
            let judge = Judge::striped(opened, &set.numbers);
            let answers: Vec<(Asked, Placed<[u64; 3]>)> = set
                .asked
                .iter()
                .map(|&asked| (asked, answer(&judge, asked, &set.numbers)))
                .filter_map(|(asked, said)| Some((asked, kept(said)?)))
                .collect();
            assert!(!answers.is_empty(), "a set without a question has no numbers");
            block(&mut out, &set.lent, answers.len());
            let bytes: Vec<u8> = set.numbers.iter().flat_map(|n| n.to_le_bytes()).collect();
            block(&mut out, &bytes, 0);
            answers.iter().for_each(|&(asked, said)| record(&mut out, asked, said, &mut counts));
        }
    }
    (out, counts)
}

/// An answer that a record has room for.
fn kept(said: Placed<Vec<u64>>) -> Option<Placed<[u64; 3]>> {
    match said {
        Ok(numbers) if numbers.len() > 3 => None,
        Ok(mut numbers) => {
            numbers.resize(3, 0);
            Some(Ok([numbers[0], numbers[1], numbers[2]]))
        }
        Err(refusal) => Some(Err(refusal)),
    }
}

/// How many numbers; 1 for yes; 1 and the zone, or 0 for none; how many zones, and these.
fn answer(judge: &Judge, asked: Asked, lent: &[u32]) -> Placed<Vec<u64>> {
    let question = match asked {
        Asked::Need => return Ok(vec![judge.opened.stripes_need()?]),
        Asked::Build(room) => {
            let numbers = judge.opened.stripes(room.into())?;
            assert!(lent.starts_with(&numbers), "numbers that are not lent cannot be expected");
            return Ok(vec![numbers.len() as u64]);
        }
        Asked::Question(question) => question,
    };
    Ok(match judge.answer(question)? {
        Answer::Is(is) => vec![is.into()],
        Answer::Zone(zone) => vec![zone.is_some().into(), zone.unwrap_or(0)],
        Answer::Zones(zones) => [vec![zones.len() as u64], zones].concat(),
        _ => unreachable!("other lists have the others"),
    })
}

/// A question's record: kind, a number, a point, a position; then what is said.
fn record(out: &mut Vec<u8>, asked: Asked, said: Placed<[u64; 3]>, counts: &mut Counts) {
    let (kind, name, of, [x, y], (lng, lat)) = match asked {
        Asked::Need => (1, "need", 0, [0, 0], (0.0, 0.0)),
        Asked::Build(room) => (2, "build", room, [0, 0], (0.0, 0.0)),
        Asked::Question(Question::Contains(zone, x, y)) => {
            (3, "point", zone, [x as u32, y as u32], (0.0, 0.0))
        }
        Asked::Question(Question::Lookup(lng, lat)) => (4, "lookup", 0, [0, 0], (lng, lat)),
        Asked::Question(Question::LookupInto(lng, lat, places)) => {
            (5, "list", places as u32, [0, 0], (lng, lat))
        }
        Asked::Question(_) => unreachable!("no export takes it"),
    };
    [kind, of, x, y].iter().for_each(|&n| word(out, n.into()));
    [lng, lat].iter().for_each(|&x| out.extend_from_slice(&scene::bits(x).to_le_bytes()));
    put_said(out, said);
    let refusal = said.err().map_or(0, |refusal| refusal.number);
    *counts.entry((name, refusal)).or_default() += 1;
}

/// The cases of which numbers and answers are read off document 02: the rules must say the same.
fn by_hand() -> Vec<(Vec<u8>, Vec<Set>)> {
    let mut out = Vec::new();
    for case in striped::cases() {
        let opened = rules::open(&case.file, &[]).ok().expect(case.what);
        assert_eq!(opened.stripes(u64::MAX), case.numbers, "{}", case.what);
        out.push((case.file, Vec::new()));
    }
    let square = striped::square();
    let mut sets: Vec<Set> = Vec::new();
    for walk in striped::walks() {
        let opened = rules::open(&square, &[]).ok().expect("the square");
        let judge = Judge::striped(opened, &walk.numbers);
        assert_eq!(judge.ask(walk.question), Some(walk.answer), "{}", walk.what);
        let asked = Asked::Question(walk.question);
        match sets.iter_mut().find(|set| set.numbers == walk.numbers) {
            Some(set) => set.asked.push(asked),
            None => {
                let (lent, numbers) = (square.clone(), walk.numbers);
                sets.push(Set { lent, numbers, asked: vec![asked] });
            }
        }
    }
    out.push((square, sets));
    out
}

/// Chunks whose refusals and places are read off document 02 by hand: in a group of three chunks, and some in a group of one.
fn broken_chunks() -> Vec<(Vec<u8>, Vec<Set>)> {
    let mut out = Vec::new();
    for (case, each) in file::places::cases().into_iter().zip([10, 1]) {
        let opened = rules::open(&case.file, &[]).ok().expect("a file that opens");
        let numbers = opened.stripes(u64::MAX).expect("stripes");
        let mut sets = Vec::new();
        for (lent, told) in case.with.into_iter().step_by(each) {
            let judge = Judge::striped(opened.asked_with(&lent), &numbers);
            for &(question, said) in &told {
                assert_eq!(judge.answer(question).map(|_| ()), said, "{question:?}");
            }
            let walks = told.iter().filter(|(q, _)| !matches!(q, Question::Decode(..)));
            let asked = walks.map(|&(question, _)| Asked::Question(question)).collect();
            sets.push(Set { lent, numbers: numbers.clone(), asked });
        }
        out.push((case.file, sets));
    }
    out
}

/// Small files with two stripes or more, of which the original has the same numbers; and some of several zones.
fn by_chance() -> Vec<(Vec<u8>, Vec<Set>)> {
    let mut random = Random::new(25);
    let mut out = Vec::new();
    while out.len() < 14 {
        let draft = match out.len() % 2 {
            0 => striped::some(&mut random),
            _ => file::on_lattice(&mut random),
        };
        let file = draft.lay();
        let opened = rules::open(&file, &[]).ok().expect("a file of the builder");
        let large = (0..opened.groups()).any(|i| opened.group_at(i).is_ok_and(|g| g.count >= 8));
        let Ok(numbers) = opened.stripes(HELD as u64 - 4) else { continue };
        if file.len() > LONGEST || !large {
            continue;
        }
        if let Ok(original) = original::opening::open(&file) {
            assert_eq!(original.stripes(), numbers);
        }
        out.push((file, Vec::new()));
    }
    out
}

/// With the file's own bytes and the numbers that are built, with others, and with other bytes.
fn of_file(random: &mut Random, file: &[u8], opened: &Opened, i: usize) -> Vec<Set> {
    let built = opened.stripes(u64::MAX);
    let need = built.as_ref().map_or(0, |numbers| numbers.len() as u32);
    let mut right = built.unwrap_or_default();
    right.extend([7, u32::MAX].iter().take(i % 3));
    let mut asked = vec![Asked::Need];
    let rooms = [0, need.saturating_sub(1), need, need + 1, need + 9, LENT];
    asked.extend(rooms.iter().filter(|&&room| room <= LENT).map(|&room| Asked::Build(room)));
    asked.extend(some(random, opened, 14));
    let mut out = vec![Set { lent: file.to_vec(), numbers: right.clone(), asked }];
    for turn in 0..2 {
        let kind = (2 * i + turn) % numbers::KINDS.len();
        let mut other =
            numbers::some(random, kind, &right, &right[..right.len() / 2], opened.groups());
        other.truncate(HELD);
        let asked = some(random, opened, 5);
        out.push(Set { lent: file.to_vec(), numbers: other, asked });
    }
    if i % 5 == 0 {
        for lent in other_bytes(random, file, opened) {
            let asked = [Asked::Need, Asked::Build(0), Asked::Build(LENT)];
            let builds = opened.asked_with(&lent).stripes_need().is_ok();
            let asked = asked.into_iter().filter(|a| !builds || !matches!(a, Asked::Build(LENT)));
            let asked = asked.chain(some(random, opened, 2)).collect();
            out.push(Set { lent, numbers: right.clone(), asked });
        }
    }
    out
}

/// At so many places beside boxes, and at others. A list is asked with at most so many places as are lent.
fn some(random: &mut Random, opened: &Opened, most: usize) -> Vec<Asked> {
    let held = |question| match question {
        Question::ContainsAt(..) => None,
        Question::LookupInto(lng, lat, places) => {
            Some(Question::LookupInto(lng, lat, places.min(PLACES)))
        }
        other => Some(other),
    };
    questions::of(opened, random, most).into_iter().filter_map(held).map(Asked::Question).collect()
}

/// Cut in and behind the groups' records and the chunks'; records that cannot be read, a group of one chunk among them; boxes that leave
/// their group's, before one that cannot be read and behind it.
fn other_bytes(random: &mut Random, file: &[u8], opened: &Opened) -> Vec<Vec<u8>> {
    let section = |typ: u32| file::entries(file).into_iter().find(|e| e[0] == typ).unwrap();
    let [groups, chunks] = [GROUPDIR, CHUNKDIR].map(|typ| section(typ)[1] as usize);
    let ends = [GROUPDIR, CHUNKDIR].map(|typ| (section(typ)[1] + section(typ)[2]) as usize);
    let mut out: Vec<Vec<u8>> = Vec::new();
    for end in [ends[0] - 1, ends[1] - 1, groups + 43, chunks + 23, 0] {
        out.push(file[..end].to_vec());
    }
    let last = opened.chunks() as usize - 1;
    let mut changed = |changes: &[(usize, u32)]| {
        let mut with = file.to_vec();
        changes.iter().for_each(|&(at, value)| file::put(&mut with, at, value));
        out.push(with);
    };
    // A box that is out of order, a group of no chunks, and one past the last chunk.
    changed(&[(chunks + 20, -9_000_000i32 as u32), (chunks + 12, 9_000_000)]);
    changed(&[(chunks + 24 * last + 8, 18_000_001)]);
    changed(&[(groups + 8, 0)]);
    changed(&[(groups, 65_536)]);
    // In the group's order: the first of 49 and 34 that is met.
    let leaves = |chunk: usize| (chunks + 24 * chunk + 20, 9_000_000);
    let unread = |chunk: usize| (chunks + 24 * chunk + 8, 18_000_001);
    let (first, second) = (random.below(last + 1), random.below(last + 1));
    changed(&[leaves(first), unread(second)]);
    changed(&[leaves(0), unread(last)]);
    changed(&[unread(0), leaves(last)]);
    out
}

#[cfg(test)]
mod tests {
    use super::*;
    use crate::file::word;
    use crate::rules::Refusal;

    fn held(block: &[u8]) -> &[u8] {
        &block[8..8 + word(block, 0) as usize]
    }

    /// The list is read as README.md says, and each record once; it says what the rules say.
    #[test]
    fn the_list_reads_back() {
        let (list, counts) = list();
        let mut rest = &list[..];
        let mut take = |length: usize| {
            let (some, behind) = rest.split_at(length);
            rest = behind;
            some
        };
        let (mut questions, mut places) = (0, 0);
        for _ in 0..26 + 14 + 2 {
            let file = take(1024);
            let opened = rules::open(held(file), &[]).ok().unwrap();
            for _ in 0..word(file, 4) {
                let (lent, numbers) = (take(1024), take(1024));
                let opened = opened.asked_with(held(lent));
                let numbers: Vec<u32> = held(numbers).chunks(4).map(|n| word(n, 0)).collect();
                for _ in 0..word(lent, 4) {
                    let q = take(48);
                    questions += 1;
                    if word(q, 0) == 2 {
                        let built = opened.stripes(word(q, 4).into());
                        let count = word(q, 36) as usize;
                        match word(q, 32) {
                            0 => assert_eq!(built.unwrap(), numbers[..count]),
                            number => assert_eq!(built, Err(number)),
                        }
                    }
                    if (38..44).contains(&word(q, 32)) {
                        let point = [8, 12].map(|at| word(q, at) as i32);
                        let judge = Judge::striped(opened, &numbers);
                        let degrees = [16, 24].map(|at| {
                            f64::from_bits(u64::from_le_bytes(q[at..at + 8].try_into().unwrap()))
                        });
                        let question = match word(q, 0) {
                            3 => Question::Contains(word(q, 4), point[0], point[1]),
                            4 => Question::Lookup(degrees[0], degrees[1]),
                            _ => Question::LookupInto(degrees[0], degrees[1], word(q, 4).into()),
                        };
                        let place = Some(u64::from(word(q, 36)) - 1);
                        let refusal = Refusal { number: word(q, 32), place };
                        assert_eq!(judge.answer(question), Err(refusal));
                        places += 1;
                    }
                }
            }
        }
        assert!(rest.is_empty() && places > 300, "{places}");
        assert_eq!(questions, counts.values().sum::<u64>());
    }
}
