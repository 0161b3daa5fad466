//! Small relatives of the sample: each of some of its zones, neighbours together. They go through the program whole and damaged.

use super::*;
use crate::file::relatives::{Family, Wish};
use crate::file::repair;
use crate::port::asking::full_check;
use crate::rules::full_check as by_the_rules;

/// So many zones each has at the most: with GRID and without in turn, and half of them with the zones that lie under the first.
const ZONES: [usize; 12] = [3, 4, 5, 6, 8, 10, 12, 14, 16, 18, 20, 20];
/// One is small: of it are made the files that do not open, of each refusal so many.
const SMALL: Wish = Wish { most: 3, longest: 6000, under: false, grid: true };
const OF_EACH: usize = 2;
/// So often a damage is tried to find them.
const TRIED: usize = 1_000_000;
/// Of a damaged file so many positions of the whole one are asked, and so many others.
const OF_WHOLE: usize = 120;
const OTHERS: usize = 30;

/// What the entries of whole relatives say: by how many zones they tell, and 46.
type Counts = [u64; PLACES + 2];

/// The port opens it, and its full check accepts it; so do the rules.
fn accepted(file: &[u8]) -> Held<()> {
    let opens = open_into(file, SIZE).map(|_| ());
    let (port, rules) = (full_check(file), by_the_rules(file));
    match (opens, port, rules) {
        (Ok(()), (0, 0), Ok(())) => Ok(()),
        says => Err(format!("a relative of the sample is not accepted: {says:?}")),
    }
}

/// Counts what the entries say. On a border there are two zones or more.
fn count(counts: &mut Counts, entries: &[u8], borders: usize) -> Held<()> {
    for (i, entry) in entries.chunks(WHOLE).enumerate() {
        let said = match entry[WHOLE - 2..] {
            [zones, 0] => usize::from(zones),
            [_, 46] => PLACES + 1,
            _ => return Err(format!("an accepted file is refused: {}", hex(entry))),
        };
        if i < borders && said < 2 {
            return Err(format!("on a border of two zones: {}", hex(entry)));
        }
        counts[said] += 1;
    }
    Ok(())
}

impl Program<'_> {
    /// Relatives of the sample, whole and damaged; then such as do not open.
    pub fn relatives(&mut self) -> Held<()> {
        let sample = std::fs::read(SAMPLE).expect("the sample");
        let family = Family::of(&sample);
        let mut counts = [0; PLACES + 2];
        for (i, most) in ZONES.into_iter().enumerate() {
            let wish = Wish { most, longest: LONGEST, under: i % 4 > 1, grid: i % 2 == 0 };
            let relative = family.some(&mut self.random, wish);
            self.tally.add("bytes of relatives", relative.file.len() as u64);
            self.tally.add("zones of relatives", relative.zones.len() as u64);
            self.relative(&relative.file, &mut counts)?;
        }
        for (said, count) in counts.into_iter().enumerate() {
            let what = if said > PLACES { "46".to_string() } else { format!("{said} zones") };
            self.tally.add(&format!("entries of relatives that tell {what}"), count);
            if count == 0 {
                return Err(format!("no entry of a relative tells {what}"));
            }
        }
        let small = family.some(&mut self.random, SMALL).file;
        self.refused_relatives(&small)
    }

    /// On its points, on and beside its edges, and outside; then the same file damaged, the sum repaired and not.
    fn relative(&mut self, file: &[u8], counts: &mut Counts) -> Held<()> {
        accepted(file)?;
        let opened = rules::open(file, &[]).map_err(|number| format!("it is refused: {number}"))?;
        let told = |number| format!("its points are refused: {number}");
        let (borders, others) = positions::on_edges(&opened, &mut self.random).map_err(told)?;
        let all = [&borders[..], &others].concat();
        let entries = self.index("relatives of the sample", file, &all, 4096)?;
        count(counts, &entries, borders.len())?;
        let some: Points = all.iter().copied().step_by(1 + all.len() / OF_WHOLE).collect();
        let aims = [Aim::at_geometry(file), Aim::at(file)];
        for i in 0..8 {
            let mut damaged = aims[i % 2].unrepaired(&mut self.random, file, 1 + i / 4);
            let kind = match i % 4 < 2 {
                true => {
                    repair(&mut damaged);
                    "relatives damaged, the sum repaired"
                }
                false => "relatives damaged, the sum as it was",
            };
            let points = [&some[..], &self.points(&damaged, OTHERS)].concat();
            let piece = self.random.pick(&[1, 3, 8, 12, 100, 4096]);
            self.index(kind, &damaged, &points, piece)?;
        }
        Ok(())
    }

    /// Damages a relative until each number from 1 to 34 has been met as often as it should.
    fn refused_relatives(&mut self, file: &[u8]) -> Held<()> {
        accepted(file)?;
        let some = self.points(file, 6);
        let aim = Aim::at(file);
        let mut met = [0; NUMBERS];
        for i in 0..TRIED {
            let damaged = self.refused_or_not(file, &aim, i);
            let Err(number) = rules::open(&damaged, &[]) else { continue };
            let times = &mut met[number as usize - 1];
            if *times < OF_EACH {
                *times += 1;
                self.index("relatives that do not open", &damaged, &some, 8)?;
            }
            if met == [OF_EACH; NUMBERS] {
                return Ok(());
            }
        }
        Err(format!("not every refusal is met: {met:?}"))
    }

    /// One damage: cut to a hundred bytes or fewer, a letter of a name, any field; the sum repaired most of the time.
    fn refused_or_not(&mut self, file: &[u8], aim: &Aim, turn: usize) -> Vec<u8> {
        let random = &mut self.random;
        let mut damaged = match turn % 20 {
            0 => file[..random.below(100)].to_vec(),
            1 => with_letter(random, file),
            _ => aim.unrepaired(random, file, 1),
        };
        if turn % 20 != 2 {
            repair(&mut damaged);
        }
        damaged
    }
}

/// One letter of a name is a zero, or no text.
fn with_letter(random: &mut Random, file: &[u8]) -> Vec<u8> {
    let opened = rules::open(file, &[]).ok().expect("it opens");
    let zone = random.below(opened.zones as usize);
    let (start, length) = opened.name(zone as u64).expect("it has a name");
    let mut out = file.to_vec();
    out[start as usize + random.below(length as usize)] = random.pick(&[0, 0xff]);
    out
}

#[cfg(test)]
mod tests {
    use super::*;

    #[test]
    fn what_entries_say_is_counted() {
        let entry = |zones: u8, reason: u8| {
            let mut entry = vec![0; WHOLE];
            entry[WHOLE - 2..].copy_from_slice(&[zones, reason]);
            entry
        };
        let mut counts = [0; PLACES + 2];
        let all = [entry(2, 0), entry(0, 46), entry(3, 0), entry(1, 0), entry(0, 0)].concat();
        assert!(count(&mut counts, &all, 3).is_ok());
        assert_eq!(counts, [1; 5]);
        assert!(count(&mut counts, &all, 4).is_err(), "one zone on a border");
        assert!(count(&mut counts, &entry(0, 34), 0).is_err(), "a refusal");
    }

    #[test]
    fn what_is_not_accepted_is_found_out() {
        for (rule, file) in file::broken::files() {
            assert_eq!(accepted(&file).is_ok(), rule == 0, "rule {rule}");
        }
        assert!(accepted(&journal::kept()[..100]).is_err());
    }

    /// With one letter changed, it is refused for a zero or for what is no text.
    #[test]
    fn a_letter_is_changed() {
        let (file, mut random) = (journal::kept(), Random::new(3));
        let mut numbers: Vec<u32> = Vec::new();
        for _ in 0..40 {
            let mut damaged = with_letter(&mut random, &file);
            repair(&mut damaged);
            numbers.extend(rules::open(&damaged, &[]).err());
        }
        assert_eq!(numbers.len(), 40);
        assert!(numbers.iter().all(|number| [25, 26].contains(number)));
        assert!(numbers.contains(&25) && numbers.contains(&26));
    }
}
