//! asked.bin: questions of names and candidates, with document 01's answers. README.md has the layout of its records.
//! The answers are those of the rules; the original, asked with the same bytes, must say the same.

use super::blocks::{block, word as put_word};
use crate::file::{self, GRID, NAMES, entries, word};
use crate::known::ALL;
use crate::random::Random;
use crate::rules::{self, Candidates, Judge, Opened, Said};
use crate::voice::{Question, Voice};
use crate::{original, scene};
use std::collections::BTreeMap;

/// A file, and for each of the bytes that its record is asked with the questions.
struct Asked {
    file: Vec<u8>,
    with: Vec<(Vec<u8>, Vec<Question>)>,
}

/// How often each kind of question had each answer: 0, or the refusal.
pub type Counts = BTreeMap<(&'static str, u32), u64>;

pub fn list() -> (Vec<u8>, Counts) {
    let mut counts = Counts::new();
    let mut out = Vec::new();
    for asked in all() {
        block(&mut out, &asked.file, asked.with.len());
        let opened = rules::open(&asked.file, &[]).expect("a file that opens");
        for (lent, questions) in &asked.with {
            block(&mut out, lent, questions.len());
            let rules = opened.asked_with(lent);
            questions.iter().for_each(|&q| question(&mut out, &rules, lent, q, &mut counts));
            hold_original(&asked.file, lent, questions);
        }
    }
    (out, counts)
}

/// A question's record: kind, zone or place, position; then the refusal, two numbers and one more.
fn question(out: &mut Vec<u8>, rules: &Opened, lent: &[u8], q: Question, counts: &mut Counts) {
    let (kind, name, asked, position, answer) = match q {
        Question::Name(zone) => (1, "name", zone, (0.0, 0.0), name(rules, lent, zone)),
        Question::Candidates(x, y) => (2, "candidates", 0, (x, y), candidates(rules, x, y)),
        Question::Candidate(place) => {
            let zone = rules.candidate(place.into()).map(|zone| [zone, 0, 0]);
            (3, "candidate", place, (0.0, 0.0), zone)
        }
        _ => unreachable!("walked.bin has the others"),
    };
    let refusal = answer.err().unwrap_or(0);
    let refused = [0, 0, if kind == 2 { 3 } else { 0 }];
    [kind, asked].iter().for_each(|&n| put_word(out, n.into()));
    for x in [position.0, position.1] {
        out.extend_from_slice(&scene::bits(x).to_le_bytes());
    }
    put_word(out, refusal.into());
    answer.unwrap_or(refused).iter().for_each(|&n| put_word(out, n));
    *counts.entry((name, refusal)).or_default() += 1;
}

/// Where it starts, where it ends, the sum of its bytes.
fn name(rules: &Opened, lent: &[u8], zone: u32) -> Said<[u64; 3]> {
    let (start, length) = rules.name(zone.into())?;
    let bytes = &lent[start as usize..(start + length) as usize];
    Ok([start, start + length, rules::crc32(bytes).into()])
}

/// How many, the place of the first, and 0 none, 1 all zones, 2 those listed for a cell.
fn candidates(rules: &Opened, lng: f64, lat: f64) -> Said<[u64; 3]> {
    Ok(match rules.candidates(lng, lat)? {
        Candidates::Nothing => [0, 0, 0],
        Candidates::EveryZone => [rules.zones, 0, 1],
        Candidates::Cell { count, offset } => [count, offset, 2],
    })
}

/// Where a name ends before it starts, the original's difference wraps and it says 44. A file that the original does not open is left out.
fn hold_original(file: &[u8], lent: &[u8], questions: &[Question]) {
    let Ok(rules) = rules::open(file, &ALL) else { return };
    let judge = Judge::plain(rules.asked_with(lent), &ALL);
    let original = original::opening::open(file).ok().expect("opened by the original");
    let original = original.asked_with(lent);
    for &q in questions {
        let by_rules = match judge.ask(q) {
            Some(Err(23)) => Some(Err(44)),
            other => other,
        };
        assert_eq!(original.ask(q), by_rules, "{q:?}");
    }
}

/// The valid kinds, then files with GRID made at random. Each is asked with its own bytes and with those of the next; some with every
/// cut that tells, and with bytes changed.
fn all() -> Vec<Asked> {
    let mut files = file::kinds();
    let kinds = files.len();
    files.extend(by_chance());
    let mut out = Vec::new();
    for (i, file) in files.iter().enumerate() {
        let opened = rules::open(file, &[]).expect("a file that opens");
        let few = few(&opened);
        let mut with = vec![(file.clone(), many(&opened))];
        with.push((files[(i + 1) % files.len()].clone(), few.clone()));
        if i < 2 || i >= kinds {
            for length in cuts(file, &opened) {
                with.push((file[..length].to_vec(), few.clone()));
            }
            with.extend(changed(file).into_iter().map(|lent| (lent, few.clone())));
        }
        out.push(Asked { file: file.clone(), with });
    }
    out
}

/// Of many files the smallest with several zones, and a GRID of several columns and rows beside other sections.
fn by_chance() -> Vec<Vec<u8>> {
    let mut random = Random::new(21);
    let mut all: Vec<Vec<u8>> = (0..4000).map(|_| file::some(&mut random).lay()).collect();
    all.retain(|file| {
        let Ok(opened) = rules::open(file, &[]) else { return false };
        let several = |g: rules::Grid| g.columns > 1 && g.rows > 1 && g.total > 2;
        opened.zones > 1 && opened.grid.is_some_and(several) && entries(file).len() > 9
    });
    all.sort_by_key(Vec::len);
    all.truncate(4);
    all
}

/// Where a section starts.
fn start(file: &[u8], typ: u32) -> Option<usize> {
    entries(file).iter().find(|entry| entry[0] == typ).map(|entry| entry[1] as usize)
}

/// Lengths at which a read just ends, and one byte less.
fn cuts(file: &[u8], opened: &Opened) -> Vec<usize> {
    let names = start(file, NAMES).unwrap();
    let mut ends = vec![1, 64];
    for zone in 0..opened.zones {
        let (start, length) = opened.name(zone).unwrap();
        ends.extend([names + 12 + 4 * zone as usize, (start + length) as usize]);
    }
    if let (Some(g), Some(at)) = (opened.grid, start(file, GRID)) {
        let cells = (g.columns * g.rows) as usize;
        let candidates = at + 12 + 4 * cells;
        ends.extend([at + 12 + 4, candidates, candidates + 2, candidates + 2 * g.total as usize]);
    }
    let mut out: Vec<usize> = ends.into_iter().flat_map(|end| [end - 1, end]).collect();
    out.sort_unstable();
    out.dedup();
    out
}

/// The name's offsets the other way round, and past the end; every candidate too large, every word full.
fn changed(file: &[u8]) -> Vec<Vec<u8>> {
    let zones = word(file, 40) as usize;
    let offsets = start(file, NAMES).unwrap() + 4;
    let mut turned = file.to_vec();
    for i in 0..=zones {
        file::put(&mut turned, offsets + 4 * i, word(file, offsets + 4 * (zones - i)));
    }
    let mut far = file.to_vec();
    file::put(&mut far, offsets + 4 * zones, u32::MAX);
    let mut out = vec![turned, far];
    if let Some([_, off, len]) = entries(file).into_iter().find(|entry| entry[0] == GRID) {
        let (off, end) = (off as usize, (off + len) as usize);
        let mut full = file.to_vec();
        full[off + 12..end].fill(255);
        out.push(full);
    }
    out
}

/// Numbers below a total, and past it.
fn numbers(total: u64) -> impl Iterator<Item = u32> {
    (0..total as u32 + 2).chain([65_535, 65_536, u32::MAX])
}

fn few(opened: &Opened) -> Vec<Question> {
    let mut out: Vec<Question> = (0..=opened.zones as u32).map(Question::Name).collect();
    out.extend(middles(opened).map(|(x, y)| Question::Candidates(x, y)));
    out.push(Question::Candidates(f64::NAN, 0.0));
    out.extend((0..=opened.candidate_total() as u32).map(Question::Candidate));
    out
}

fn many(opened: &Opened) -> Vec<Question> {
    let mut out: Vec<Question> = numbers(opened.zones).map(Question::Name).collect();
    out.extend(positions(opened).into_iter().map(|(x, y)| Question::Candidates(x, y)));
    out.extend(numbers(opened.candidate_total()).map(Question::Candidate));
    out
}

/// First longitude and latitude, columns and rows; some, where there is no GRID.
fn span(opened: &Opened) -> (f64, f64, u64, u64) {
    opened.grid.map_or((0.0, 0.0, 1, 1), |g| (g.lng as f64, g.lat as f64, g.columns, g.rows))
}

/// A position inside each cell.
fn middles(opened: &Opened) -> impl Iterator<Item = (f64, f64)> {
    let (lng, lat, columns, rows) = span(opened);
    let cells = (0..rows).flat_map(move |row| (0..columns).map(move |column| (column, row)));
    cells.map(move |(column, row)| (lng + column as f64 + 0.5, lat + row as f64 + 0.25))
}

/// On and beside each line of the grid.
fn lines(first: f64, count: u64) -> Vec<f64> {
    let on = (0..=count).map(|i| first + i as f64);
    on.flat_map(|x| [x.next_down(), x, x.next_up()]).collect()
}

/// On and beside every line, and at every float that tells.
fn positions(opened: &Opened) -> Vec<(f64, f64)> {
    let (lng, lat, columns, rows) = span(opened);
    let tells = |bound: f64| {
        let mut out = vec![f64::NAN, 0.0, -0.0, -0.5, 0.5, -1.0];
        for x in [f64::INFINITY, f64::MAX, f64::from_bits(1), f64::MIN_POSITIVE, bound] {
            out.extend([x, -x]);
        }
        for x in [bound, bound + 1.0, bound - 1.0] {
            out.extend([x.next_down(), x.next_up(), -x.next_down(), -x.next_up(), x, -x]);
        }
        out
    };
    let (x, y) = (lng + 0.5, lat + 0.25);
    let mut out: Vec<(f64, f64)> = middles(opened).collect();
    out.extend(tells(180.0).into_iter().map(|x| (x, y)));
    out.extend(tells(90.0).into_iter().map(|y| (x, y)));
    let ys = lines(lat, rows);
    out.extend(lines(lng, columns).into_iter().flat_map(|x| ys.iter().map(move |&y| (x, y))));
    out
}
