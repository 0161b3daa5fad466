//! The fixed lists of the original's answers, which the gate replays without Rust. README.md has the layout of their records.

mod asked;
mod blocks;
pub mod journal;
mod map;
mod open;
mod striped;
mod walked;

use crate::bytes::{self, OF_NUMBERS};
use crate::original;
use crate::random::Random;
use crate::scene::{self, ENDS, KINDS, Scene};
use std::fs;
use std::path::Path;

const SEED: u64 = 20;

/// The refusals that have a place.
const PLACED: [u32; 6] = [38, 39, 40, 41, 42, 43];

pub fn write(folder: &Path) {
    for (name, width, list) in [("varint.bin", 16, varint()), ("ray.bin", 40, ray())] {
        fs::create_dir_all(folder).expect("the folder for the lists");
        fs::write(folder.join(name), &list).expect("a list");
        println!("{name}: {} records", list.len() / width);
    }
    let files = open::records();
    let list = open::bytes(&files);
    fs::write(folder.join("open.bin"), &list).expect("a list");
    println!("open.bin: {} records, {} bytes", files.len(), list.len());
    for number in 0..=34 {
        let count = files.iter().filter(|(n, _)| *n == number).count();
        println!("  {count} with {number}");
        assert!(count >= 2, "a number with fewer than two files");
    }
    let (list, counts) = asked::list();
    keep(folder, "asked.bin", &list, &counts);
    let met = |kind, numbers: &[u32]| {
        let met = |n| counts.get(&(kind, n)).is_some_and(|&count| count >= 2);
        numbers.iter().for_each(|&n| assert!(met(n), "a {kind} with {n} is not met"));
    };
    met("name", &[0, 23, 44, 45]);
    met("candidates", &[0, 44]);
    met("candidate", &[0, 30, 31, 44]);
    walked(folder);
    maps(folder);
    stripes(folder);
    journal::write(&folder.join("journal"));
}

fn stripes(folder: &Path) {
    let (list, counts) = striped::list();
    keep(folder, "striped.bin", &list, &counts);
    let met = |kind, numbers: &[u32]| {
        let met = |n| counts.get(&(kind, n)).is_some_and(|&count| count >= 2);
        numbers.iter().for_each(|&n| assert!(met(n), "a {kind} with {n} is not met"));
    };
    met("need", &[0, 34, 44, 49]);
    met("build", &[0, 34, 44, 46, 49]);
    met("point", &[0, 34, 44, 45]);
    met("lookup", &[0, 34, 44]);
    met("list", &[0, 34, 44, 46]);
    ["point", "lookup", "list"].iter().for_each(|&kind| met(kind, &PLACED));
}

fn maps(folder: &Path) {
    let records = map::records();
    let list = map::bytes(&records);
    fs::write(folder.join("map.bin"), &list).expect("a list");
    println!("map.bin: {} records, {} bytes", records.len(), list.len());
    let rules = (2..=6).map(|rule| 47 + 100 * rule);
    for number in [0].into_iter().chain(1..=34).chain([45, 46, 48]).chain(rules) {
        let count = records.iter().filter(|record| record.number == number).count();
        println!("  {count} with {number}");
        assert!(count >= 1, "{number} is not met");
    }
}

fn walked(folder: &Path) {
    let (list, counts) = walked::list();
    keep(folder, "walked.bin", &list, &counts);
    for number in (34..=46).chain([32]) {
        let count: u64 = counts.iter().filter(|((_, n), _)| *n == number).map(|(_, c)| c).sum();
        assert!(count >= 2, "{number} is not met");
    }
    for kind in ["chunk", "point", "lookup", "list"] {
        let met = |&n: &u32| counts.get(&(kind, n)).is_some_and(|&count| count >= 5);
        assert!(PLACED.iter().all(met), "a {kind} with a place is not met");
    }
    let files = walked::full();
    let list = open::bytes(&files);
    fs::write(folder.join("full.bin"), &list).expect("a list");
    println!("full.bin: {} records, {} bytes", files.len(), list.len());
    for rule in 2..=6 {
        let count = files.iter().filter(|(n, _)| *n == 47 + 100 * rule).count();
        println!("  {count} with rule {rule}");
        assert!(count >= 4, "a rule with too few files");
    }
    let small = crate::file::small_rings::cases();
    for segments in [0, 2, 3, 4] {
        let count = small.iter().filter(|case| case.fewest == segments).count();
        println!("  {count} with a ring of {segments} segments that count, by hand");
        assert!(count >= 4, "a ring of {segments} segments is met too seldom");
    }
}

fn keep(folder: &Path, name: &str, list: &[u8], counts: &asked::Counts) {
    fs::write(folder.join(name), list).expect("a list");
    println!("{name}: {} questions, {} bytes", counts.values().sum::<u64>(), list.len());
    counts.iter().for_each(|((kind, n), count)| println!("  {count} of a {kind} with {n}"));
}

/// M1 to M8.
const MARKED_NUMBERS: [&[u8]; 8] = [
    &[0x00],
    &[0x01],
    &[0x80, 0x01],
    &[0x80, 0x00],
    &[0xff, 0xff, 0xff, 0xff, 0x0f],
    &[0xff, 0xff, 0xff, 0xff, 0x10],
    &[0x80, 0x80, 0x80, 0x80, 0x00],
    &[0x80],
];

fn varint() -> Vec<u8> {
    let mut out = Vec::new();
    MARKED_NUMBERS.iter().for_each(|b| number(&mut out, b, 0));
    (0..=255).for_each(|b| number(&mut out, &[b], 0));
    (0..=3).for_each(|n| bytes::all(&OF_NUMBERS, n, &mut |b| number(&mut out, b, 0)));
    let mut random = Random::new(SEED);
    for _ in 0..500 {
        let length = 4 + random.below(5);
        let data: Vec<u8> = (0..length).map(|_| random.pick(&OF_NUMBERS)).collect();
        number(&mut out, &data, random.below(length + 1));
    }
    for _ in 0..500 {
        let mut data: Vec<u8> = (0..4).map(|_| 0x80 | random.pick(&OF_NUMBERS)).collect();
        data.push(random.pick(&OF_NUMBERS));
        number(&mut out, &data, 0);
    }
    for _ in 0..1000 {
        let mut data = bytes::numbers(&mut random, 3, false);
        data.truncate(8);
        number(&mut out, &data, random.below(data.len() + 1));
    }
    out
}

fn number(out: &mut Vec<u8>, data: &[u8], at: usize) {
    let r = original::reading(data, at);
    let mut padded = [0; 8];
    padded[..data.len()].copy_from_slice(data);
    out.push(data.len() as u8);
    out.extend_from_slice(&padded);
    out.push(at as u8);
    out.push(if r.length < 0 { (-1000 - r.length) as u8 } else { 0 });
    out.push(r.length.max(0) as u8);
    // A number that is refused has the place at which it is read: that, and one more.
    let number = if r.length < 0 { at as i32 + 1 } else { r.number };
    out.extend_from_slice(&number.to_le_bytes());
}

/// M9 to M14.
const MARKED_POINTS: [(i32, i32, i32, i32, f64, f64); 6] = [
    (0, 0, 10, 10, 5.0, 5.0),
    (0, 0, 10, 10, 4.0, 5.0),
    (0, 0, 10, 10, 6.0, 5.0),
    (0, 0, 10, 0, -1.0, 0.0),
    (0, 0, 0, 10, -1.0, 0.0),
    (0, 0, 0, 10, -1.0, 10.0),
];

/// Where the floats are not exact geometry: the difference rounds, so the point is called on.
const ROUNDED: [(i32, i32, i32, i32, f64, f64); 2] = [
    (1, 0, 0, 1, -8.673617379884035e-19, 1.0),
    (i32::MIN, i32::MIN, i32::MAX, i32::MAX - 1, 2_147_483_646.0, 2_147_483_645.0),
];

fn ray() -> Vec<u8> {
    let mut out = Vec::new();
    for (ax, ay, bx, by, x, y) in MARKED_POINTS.into_iter().chain(ROUNDED) {
        segment(&mut out, &Scene { ax, ay, bx, by, x, y });
    }
    let mut random = Random::new(SEED);
    let floats = scene::floats();
    for &x in &floats {
        for &y in &floats {
            let [ax, ay, bx, by] = [(); 4].map(|()| random.pick(&ENDS));
            segment(&mut out, &Scene { ax, ay, bx, by, x, y });
        }
    }
    for (_, make) in KINDS {
        (0..300).for_each(|_| segment(&mut out, &make(&mut random)));
    }
    out
}

fn segment(out: &mut Vec<u8>, s: &Scene) {
    for n in [s.ax, s.ay, s.bx, s.by] {
        out.extend_from_slice(&n.to_le_bytes());
    }
    for x in [s.x, s.y] {
        out.extend_from_slice(&x.to_bits().to_le_bytes());
    }
    out.push(original::ray(s) as u8);
    out.extend_from_slice(&[0; 7]);
}
