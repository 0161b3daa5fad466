//! Damage to a file's bytes: single bytes, cuts, fields set to telling values, sections moved onto each other.

use super::fields::{self, Field};
use super::*;

/// Values that tell, whatever the field.
pub const TELLING: [u32; 37] = [
    0,
    1,
    2,
    3,
    4,
    7,
    8,
    9,
    10,
    11,
    12,
    14,
    15,
    90,
    91,
    180,
    181,
    255,
    9_000_000,
    9_000_001,
    18_000_000,
    18_000_001,
    32_767,
    32_768,
    65_535,
    65_536,
    0x0fff_ffff,
    0x1000_0000,
    0x1000_0001,
    0x2000_0003,
    0xf000_0000,
    0x7fff_ffff,
    0x8000_0000,
    0x8000_0001,
    0x8fff_ffff,
    0xffff_fffe,
    0xffff_ffff,
];

fn set(file: &mut [u8], field: Field, value: u32) {
    file[field.at..field.at + field.width].copy_from_slice(&value.to_le_bytes()[..field.width]);
}

fn get(file: &[u8], field: Field) -> u32 {
    let mut bytes = [0; 4];
    bytes[..field.width].copy_from_slice(&file[field.at..field.at + field.width]);
    u32::from_le_bytes(bytes)
}

/// Steps to what stands beside: a byte, a word, a record.
const STEPS: [u32; 6] = [1, 2, 4, 24, 28, 44];

/// So many values tell of a field, some of them more than once.
fn value_count(file: &[u8]) -> usize {
    100 + 8 * entry_count(file)
}

/// One of them: the telling values and their negatives, the field's neighbours, what has to do with the size, and with an entry.
fn value(file: &[u8], field: Field, which: usize) -> u32 {
    let now = get(file, field);
    let size = file.len() as u32;
    let value = match which {
        0..37 => TELLING[which],
        37..74 => TELLING[which - 37].wrapping_neg(),
        74..80 => now.wrapping_add(STEPS[which - 74]),
        80..86 => now.wrapping_sub(STEPS[which - 80]),
        86..94 => now ^ 1 << (4 * (which - 86)),
        94..100 => [size, size - 1, size - 3, size - 4, size - 8, size + 1][which - 94],
        _ => {
            let [_, off, len] = entry(file, (which - 100) / 8);
            let end = off.wrapping_add(len);
            match which % 8 {
                0 => off,
                1 => off.wrapping_sub(4),
                2 => off.wrapping_add(4),
                3 => end,
                4 => len,
                5 => end & !3,
                6 => (end & !3).wrapping_add(4),
                _ => end.wrapping_sub(now),
            }
        }
    };
    value & u32::MAX >> (32 - 8 * field.width)
}

/// All that a field may be set to, each once. The nearest first.
fn values(file: &[u8], field: Field) -> Vec<u32> {
    let now = get(file, field);
    let mut out: Vec<u32> = (0..value_count(file)).map(|i| value(file, field, i)).collect();
    out.sort_unstable_by_key(|&n| (n.wrapping_sub(now).min(now.wrapping_sub(n)), n));
    out.dedup();
    out.retain(|&n| n != now);
    out
}

/// Every field set to every value that tells, with the sum repaired.
pub fn fields(file: &[u8], each: &mut impl FnMut(&'static str, Vec<u8>)) {
    for field in fields::all(file) {
        for value in values(file, field) {
            let mut with = file.to_vec();
            set(&mut with, field, value);
            repair(&mut with);
            each(field.what, with);
        }
    }
}

/// Every byte set to every other value; with the sum repaired or not.
pub fn bytes(file: &[u8], repaired: bool, each: &mut impl FnMut(&[u8])) {
    let mut with = file.to_vec();
    for at in 0..file.len() {
        for change in 1..=255 {
            with[at] = file[at] ^ change;
            if repaired {
                repair(&mut with);
            }
            each(&with);
        }
        with.copy_from_slice(file);
    }
}

/// The first bytes of the file, of every number; as they are, and with size and sum repaired.
pub fn cuts(file: &[u8], each: &mut impl FnMut(&[u8])) {
    for length in 0..file.len() {
        each(&file[..length]);
        let mut with = file[..length].to_vec();
        seal(&mut with);
        each(&with);
    }
}

/// Two entries swapped, whole or in part; one entry's place given to another.
pub fn tables(file: &[u8], each: &mut impl FnMut(&'static str, Vec<u8>)) {
    let count = entries(file).len();
    let entry = |i: usize, field: usize| 64 + 16 * i + 4 * field;
    for i in 0..count {
        for j in (0..count).filter(|&j| j != i) {
            for (what, fields) in [
                ("entry doubled", &[0, 1, 2][..]),
                ("place doubled", &[1, 2]),
                ("offset doubled", &[1]),
                ("type doubled", &[0]),
                ("length doubled", &[2]),
            ] {
                let mut with = file.to_vec();
                fields.iter().for_each(|&f| put(&mut with, entry(j, f), word(file, entry(i, f))));
                repair(&mut with);
                each(what, with);
            }
            let mut with = file.to_vec();
            put(&mut with, entry(i, 0), word(file, entry(j, 0)));
            put(&mut with, entry(j, 0), word(file, entry(i, 0)));
            repair(&mut with);
            each("types swapped", with);
        }
    }
}

/// The fields of a file by kind, so that the many bytes of text and points do not crowd out the others.
pub struct Aim {
    kinds: Vec<Vec<Field>>,
}

impl Aim {
    pub fn at(file: &[u8]) -> Self {
        let mut kinds: Vec<Vec<Field>> = Vec::new();
        for field in fields::all(file) {
            match kinds.iter_mut().find(|kind| kind[0].what == field.what) {
                Some(kind) => kind.push(field),
                None => kinds.push(vec![field]),
            }
        }
        Self { kinds }
    }

    /// The fields of the directories and the bytes of the points alone.
    pub fn at_geometry(file: &[u8]) -> Self {
        let mut sections = entries(file);
        sections.retain(|&[typ, ..]| matches!(typ, TZDIR..=CHUNKDIR | POINTS));
        let within = |at: usize| {
            sections.iter().any(|&[_, off, len]| (off as usize..(off + len) as usize).contains(&at))
        };
        let Self { mut kinds } = Self::at(file);
        kinds.iter_mut().for_each(|kind| kind.retain(|field| within(field.at)));
        kinds.retain(|kind| !kind.is_empty());
        Self { kinds }
    }

    fn field(&self, random: &mut Random) -> Field {
        let kind = &self.kinds[random.below(self.kinds.len())];
        random.pick(kind)
    }

    /// `count` random damages, one on top of the other. The sum is repaired but for one time in 50.
    pub fn damage(&self, random: &mut Random, file: &[u8], count: usize) -> Vec<u8> {
        let mut out = self.unrepaired(random, file, count);
        if random.below(50) > 0 {
            repair(&mut out);
        }
        out
    }

    pub fn unrepaired(&self, random: &mut Random, file: &[u8], count: usize) -> Vec<u8> {
        let mut out = file.to_vec();
        for _ in 0..count {
            match random.below(100) {
                0 if !out.is_empty() => {
                    out.truncate(random.below(out.len()));
                    seal(&mut out);
                }
                1..8 if !out.is_empty() => {
                    let at = random.below(out.len());
                    out[at] = random.byte();
                }
                _ => self.set_field(random, &mut out),
            }
        }
        out
    }

    /// One field set to a value that tells, to one beside its own, or to anything. Quicker than the others, and with less aim.
    pub fn hit(&self, random: &mut Random, file: &mut [u8]) {
        let field = self.field(random);
        let now = get(file, field);
        let step = random.pick(&STEPS);
        let value = match random.below(8) {
            0..3 => random.pick(&TELLING),
            3 => random.pick(&TELLING).wrapping_neg(),
            4 => now.wrapping_add(step),
            5 => now.wrapping_sub(step),
            6 => now ^ 1 << random.below(32),
            _ => random.bits() as u32,
        };
        set(file, field, value);
    }

    fn set_field(&self, random: &mut Random, file: &mut [u8]) {
        let field = self.field(random);
        if file.len() < 68 || field.at + field.width > file.len() {
            return;
        }
        let value = match random.below(8) {
            0 => random.bits() as u32,
            _ => value(file, field, random.below(value_count(file))),
        };
        let same = value == get(file, field);
        set(file, field, if same { value ^ 1 } else { value });
    }
}
