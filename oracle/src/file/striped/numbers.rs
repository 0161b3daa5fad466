//! Other numbers than those of a file's stripes: cut, changed, another file's, any.

use crate::file::damage::TELLING;
use crate::random::Random;
use crate::rules::stripes::{OF_GROUP, OF_STRIPE};

/// The kinds, by name.
pub const KINDS: [&str; 9] = [
    "none lent",
    "cut",
    "one changed",
    "two or three changed",
    "a place near 2^64",
    "chunk numbers turned, doubled or set",
    "another file's",
    "any numbers",
    "numbers that lead somewhere",
];

/// Numbers of a kind, made from the right ones, or others where there are none, and another file's. So many groups there are.
pub fn some(
    random: &mut Random,
    kind: usize,
    right: &[u32],
    other: &[u32],
    groups: u64,
) -> Vec<u32> {
    let mut out = right.to_vec();
    match kind {
        0 => out.clear(),
        1 => out.truncate(random.below(right.len() + 1)),
        2 => change(random, &mut out),
        3 => (0..2 + random.below(2)).for_each(|_| change(random, &mut out)),
        4 => far(random, &mut out, groups),
        5 => chunk_numbers(random, &mut out, groups),
        6 => out = other.to_vec(),
        7 => out = any(random),
        _ => out = leading(random, groups),
    }
    out
}

/// One number set to one that tells, to one beside its own, to another's, to anything.
fn change(random: &mut Random, numbers: &mut [u32]) {
    if numbers.is_empty() {
        return;
    }
    let at = match random.below(2) {
        0 => random.below(numbers.len()),
        _ => random.below(numbers.len().min(40)),
    };
    let now = numbers[at];
    let count = numbers.len() as u32;
    numbers[at] = match random.below(10) {
        0 => 0,
        1 => now.wrapping_add(1),
        2 => now.wrapping_sub(1),
        3 => now.wrapping_add(random.pick(&[2, 3, 5, 100])),
        4 => now.wrapping_sub(random.pick(&[2, 3, 5, 100])),
        5 => now ^ 1 << random.below(32),
        6 => random.pick(&TELLING),
        7 => numbers[random.below(numbers.len())],
        8 => random.pick(&[count, count - 1, count + 1, count.wrapping_sub(3)]),
        _ => random.bits() as u32,
    };
}

/// A place of a group's entry or of a stripe's.
fn far(random: &mut Random, numbers: &mut [u32], groups: u64) {
    let (entries, stripes) = (groups as usize, OF_GROUP as usize * groups as usize);
    let at = match random.below(2) {
        0 => OF_GROUP as usize * random.below(entries.max(1)) + 3,
        _ => stripes + OF_STRIPE as usize * random.below(entries.max(1)),
    };
    let near = random.pick(&[0, 1, 2, 3, 5, 6, 100]);
    let [low, high] = random.pick(&[
        [u32::MAX - near, u32::MAX],
        [near, u32::MAX],
        [u32::MAX - near, 0],
        [near, 1],
        [near, 0x8000_0000],
        [u32::MAX - near, 0x7fff_ffff],
    ]);
    if at + 2 < numbers.len() {
        numbers[at] = low;
        numbers[at + 1] = high;
        if random.below(4) == 0 {
            numbers[at + 2] = random.pick(&[0, 1, u32::MAX]);
        }
    }
}

/// Those at the end, where the chunk numbers stand: the other way round, the same one again and again, one too large.
fn chunk_numbers(random: &mut Random, numbers: &mut [u32], groups: u64) {
    let from = OF_GROUP as usize * groups as usize;
    let from = from.min(numbers.len());
    let from = from + random.below(numbers.len() - from + 1);
    let end = from + random.below((numbers.len() - from).min(30) + 1);
    let some = &mut numbers[from..end];
    match random.below(4) {
        0 => some.reverse(),
        1 => some.fill(random.below(4) as u32),
        2 => some.fill(random.pick(&[255, 256, 65_535, u32::MAX])),
        _ => some.iter_mut().for_each(|n| *n = n.wrapping_add(1)),
    }
}

fn any(random: &mut Random) -> Vec<u32> {
    let length = random.pick(&[1, 4, 5, 7, 8, 9, 20, 100, 400]);
    let sort = random.below(4);
    let mut number = || match sort {
        0 => random.below(3) as u32,
        1 => random.below(length + 2) as u32,
        2 => random.pick(&TELLING),
        _ => random.bits() as u32,
    };
    (0..length).map(|_| number()).collect()
}

/// Entries whose places lie in the numbers, with few stripes, and small numbers behind them.
fn leading(random: &mut Random, groups: u64) -> Vec<u32> {
    let entries = OF_GROUP as usize * groups.min(60) as usize;
    let length = entries + 1 + random.below(200);
    let mut out: Vec<u32> = (0..length).map(|_| random.below(12) as u32).collect();
    for at in (0..entries).step_by(OF_GROUP as usize) {
        out[at] = random.pick(&[0, 1, -1, -9_000_000, 9_000_000, i32::MIN, i32::MAX]) as u32;
        out[at + 1] = random.pick(&[0, 1, 1, 2, 1000, u32::MAX]);
        out[at + 2] = random.pick(&[0, 1, 1, 2, 3, 256, u32::MAX]);
        out[at + 3] = random.below(length) as u32;
        out[at + 4] = 0;
    }
    // Places of two numbers, so that a stripe's entry leads somewhere too.
    for at in (entries..length.saturating_sub(3)).step_by(3) {
        if random.below(4) > 0 {
            out[at] = random.below(length) as u32;
            out[at + 1] = 0;
            out[at + 2] = random.below(9) as u32;
        }
    }
    out
}
