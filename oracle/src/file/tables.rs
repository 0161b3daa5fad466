//! Files with long section tables: 65 to 300 entries in any order, some of them wrong. A small file lies in one window of the port's map, a large one in several.

use super::*;

/// The port looks at the bytes behind the table in windows of this size.
pub const WINDOW: usize = 0x20_0000;

/// Type, offset, length.
type Entry = [u32; 3];

/// A file with this table, and nothing in its sections.
pub fn with_table(entries: &[Entry], size: usize) -> Vec<u8> {
    let mut file = Draft::new(1, Vec::new()).lay();
    file.truncate(64);
    put(&mut file, 20, entries.len() as u32);
    for (i, entry) in entries.iter().enumerate() {
        file.resize(64 + 16 * (i + 1), 0);
        put_all(&mut file, 64 + 16 * i, entry);
    }
    file.resize(size, 0);
    file
}

/// A valid file with many sections of types that nobody knows.
pub fn valid(random: &mut Random) -> Vec<u8> {
    let mut draft = some(random);
    for _ in 0..60 + random.below(240) {
        let (typ, length) = (unknown(random), random.below(10).saturating_sub(2));
        let gap = random.below(4).saturating_sub(2);
        draft.order.push(draft.parts.len());
        draft.parts.push(Part { typ, bytes: random.bytes(length), gap });
    }
    shuffle(random, &mut draft.order);
    draft.lay()
}

fn unknown(random: &mut Random) -> u32 {
    random.pick(&[0, 15, 16, 255, u32::MAX])
}

/// A file of sections that share no byte, then as many entries made wrong. A large one goes past the ends of two windows.
pub fn table(random: &mut Random, large: bool, wrong: usize) -> Vec<u8> {
    let count = 65 + random.below(236);
    let start = 64 + 16 * count;
    let borders: Vec<(usize, usize)> = if large {
        (1..3).map(|i| (count * i / 3, start + i * WINDOW)).collect()
    } else {
        Vec::new()
    };
    let mut entries = Vec::new();
    let mut at = start;
    for i in 0..count {
        at += 4 * random.below(4).saturating_sub(2);
        let mut length = random.below(16).saturating_sub(3);
        for &(_, border) in borders.iter().filter(|&&(place, _)| place == i) {
            // up to the border, or past it, or just behind it
            match random.below(3) {
                0 => length = border + random.below(12) - 6 - at,
                1 => at = border - 4 * random.below(3),
                _ => at = border + 4 * random.below(3),
            }
        }
        entries.push([unknown(random), at as u32, length as u32]);
        at = (at + length).next_multiple_of(4);
    }
    for typ in 1..=10 {
        if random.below(4) > 0 {
            entries[random.below(count)][0] = typ;
        }
    }
    shuffle(random, &mut entries);
    for _ in 0..wrong {
        break_one(random, &mut entries);
    }
    let mut file = with_table(&entries, at + random.below(6) + 4);
    seal(&mut file);
    file
}

/// An entry laid over another or over what lies beside it, badly placed, or of a bad type.
fn break_one(random: &mut Random, entries: &mut [Entry]) {
    let other = entries[random.below(entries.len())];
    let place = random.below(entries.len());
    let entry = &mut entries[place];
    let few = random.from_to(1, 9) as u32;
    match random.below(12) {
        0 | 1 => entry[1] = other[1],
        2 => entry[1] = (other[1] + other[2].saturating_sub(few)) & !3,
        3 => entry[1] = other[1].saturating_sub(entry[2].saturating_sub(few)) & !3,
        4 | 5 => entry[2] = entry[2].wrapping_add(few),
        6 => entry[1] = entry[1].saturating_sub(4),
        7 => entry[2] = other[1].saturating_sub(entry[1]) + random.below(3) as u32,
        8 => entry[1] = entry[1].wrapping_add(few),
        9 => entry[1] = random.pick(&[0, 64, 1020, u32::MAX - 3]),
        10 => entry[0] = other[0],
        _ => entry[0] = random.pick(&[1, 9, 10, 11, 12, 14]),
    }
}

#[cfg(test)]
mod tests {
    use super::*;
    use crate::rules;

    fn said(file: &[u8]) -> u32 {
        rules::open(file, &[]).err().unwrap_or(0)
    }

    #[test]
    fn tables_are_what_they_say() {
        let mut random = Random::new(3);
        for large in [false, true] {
            let file = table(&mut random, large, 0);
            assert_eq!(large, file.len() > 64 + 16 * entries(&file).len() + 2 * WINDOW);
            assert!(said(&file) >= 17);
        }
        assert_eq!(said(&valid(&mut random)), 0);
        let wrong: Vec<u32> = (0..200).map(|_| said(&table(&mut random, false, 3))).collect();
        assert!((12..=16).all(|number| wrong.contains(&number)));
    }
}
