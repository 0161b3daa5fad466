//! Small relatives of a large file: some of its zones, neighbours together, with their names, polygons, rings, groups and chunks as they
//! are, laid out anew. With the large file's GRID cells over them, or without.

use super::*;
use crate::rules::{self, Candidates, Judge, Opened, Said};
use std::cmp::Reverse;
use std::collections::{BTreeMap, BTreeSet};
use std::ops::Range;

/// A zone: polygons of rings of steps.
type Zone = Vec<Vec<Vec<Op>>>;

/// A relative has so many zones at the least, and it is looked for so often.
const LEAST: usize = 3;
const TRIED: usize = 1000;

/// What a relative shall be like.
#[derive(Clone, Copy)]
pub struct Wish {
    /// So many zones at the most.
    pub most: usize,
    /// So many bytes at the most.
    pub longest: usize,
    /// Whether it has the zones too that lie under its first.
    pub under: bool,
    pub grid: bool,
}

pub struct Relative {
    /// The numbers of its zones in the large file, in turn.
    pub zones: Vec<u64>,
    pub file: Vec<u8>,
}

/// A large file, and which groups each of its zones has.
pub struct Family<'a> {
    bytes: &'a [u8],
    large: Opened<'a>,
    groups: Vec<BTreeSet<usize>>,
}

fn run(first: u64, count: u64) -> Range<u64> {
    first..first + count
}

fn zone_of(o: &Opened, zone: u64) -> Said<Zone> {
    let op = |i| o.op_at(i).map(|step| Op { group: step.group as usize, turned: step.turned });
    let ring = |i| o.ring_at(i, &[]).and_then(|of| run(of.first, of.count).map(op).collect());
    let polygon = |i| o.polygon_at(i).and_then(|of| run(of.first, of.count).map(ring).collect());
    o.zone_at(zone).and_then(|of| run(of.first, of.count).map(polygon).collect())
}

/// Of each zone the groups that its rings name.
pub fn groups_of(o: &Opened) -> Said<Vec<BTreeSet<usize>>> {
    let named = |zone: Zone| zone.iter().flatten().flatten().map(|op| op.group).collect();
    (0..o.zones).map(|zone| zone_of(o, zone).map(named)).collect()
}

/// All points of a group, chunk by chunk.
pub fn points_of(o: &Opened, group: u64) -> Said<Vec<Vec<(i32, i32)>>> {
    let group = o.group_at(group)?;
    let narrow =
        |points: Vec<(i64, i64)>| points.iter().map(|&(x, y)| (x as i32, y as i32)).collect();
    run(group.first, group.count).map(|chunk| Ok(narrow(o.points(chunk)?))).collect()
}

impl<'a> Family<'a> {
    /// Of a file that the full check accepts.
    pub fn of(bytes: &'a [u8]) -> Self {
        let large = rules::open(bytes, &[]).ok().expect("the large file opens");
        let groups = groups_of(&large).expect("its rings are read");
        Self { bytes, large, groups }
    }

    /// Some zones of the file, in any order.
    pub fn some(&self, random: &mut Random, wish: Wish) -> Relative {
        for _ in 0..TRIED {
            let first = random.below(self.groups.len());
            let mut zones = self.grown(first as u64, wish);
            if zones.len() >= LEAST {
                shuffle(random, &mut zones);
                let file = self.laid(&zones, wish.grid);
                return Relative { zones, file };
            }
        }
        panic!("the large file has no relative of so few bytes")
    }

    /// A zone, those that lie under it, then its neighbours and theirs: always the one that shares most groups with those before, if it
    /// fits. What lies under it brings no neighbours. None where the first do not fit.
    fn grown(&self, first: u64, wish: Wish) -> Vec<u64> {
        let fits = |zones: &[u64]| self.laid(zones, wish.grid).len() <= wish.longest;
        let mut zones = vec![first];
        if wish.under {
            zones.extend(self.under(first));
            zones.truncate(wish.most);
        }
        if !fits(&zones) {
            return Vec::new();
        }
        let mut known = self.groups[first as usize].clone();
        let mut left: BTreeSet<u64> = (0..self.large.zones).collect();
        left.retain(|zone| !zones.contains(zone));
        while zones.len() < wish.most
            && let Some(zone) = self.nearest(&known, &left)
        {
            left.remove(&zone);
            zones.push(zone);
            match fits(&zones) {
                true => known.extend(&self.groups[zone as usize]),
                false => _ = zones.pop(),
            }
        }
        zones
    }

    /// The other zones that hold a zone's first point.
    fn under(&self, zone: u64) -> Vec<u64> {
        let group = zone_of(&self.large, zone).expect("a zone")[0][0][0].group;
        let (x, y) = points_of(&self.large, group as u64).expect("its points")[0][0];
        let judge = Judge::plain(self.large, &[]);
        let holds = |&other: &u64| other != zone && judge.contains(other, x, y) == Ok(true);
        (0..self.large.zones).filter(holds).collect()
    }

    /// Of the zones that are left the one that has most of these groups, if one has any.
    fn nearest(&self, known: &BTreeSet<usize>, left: &BTreeSet<u64>) -> Option<u64> {
        let shared = |zone: u64| self.groups[zone as usize].intersection(known).count();
        let beside = left.iter().copied().filter(|&zone| shared(zone) > 0);
        beside.max_by_key(|&zone| (shared(zone), Reverse(zone)))
    }

    fn laid(&self, zones: &[u64], grid: bool) -> Vec<u8> {
        self.draft(zones, grid).expect("the large file is read").lay()
    }

    /// A file with these zones, in this order. A group that several name stands in it once.
    fn draft(&self, zones: &[u64], grid: bool) -> Said<Draft> {
        let mut shape = Shape::default();
        let mut known: BTreeMap<usize, usize> = BTreeMap::new();
        for &zone in zones {
            let mut zone = zone_of(&self.large, zone)?;
            for op in zone.iter_mut().flatten().flatten() {
                op.group = match known.get(&op.group) {
                    Some(&group) => group,
                    None => {
                        let chunks = Chunks(points_of(&self.large, op.group as u64)?);
                        let group = shape.add_group(chunks);
                        known.insert(op.group, group);
                        group
                    }
                };
            }
            shape.zones.push(zone);
        }
        let mut parts = shape.parts();
        let all: Vec<Vec<u8>> = zones.iter().map(|&zone| self.name(zone)).collect::<Said<_>>()?;
        parts.push(Part { typ: NAMES, bytes: names(&[], &all), gap: 0 });
        if grid {
            parts.push(Part { typ: GRID, bytes: self.grid(zones)?.bytes(), gap: 0 });
        }
        let mut draft = Draft::new(zones.len() as u32, parts);
        draft.version = self.bytes[24..40].to_vec();
        draft.chunk_target = word(self.bytes, 44);
        Ok(draft)
    }

    fn name(&self, zone: u64) -> Said<Vec<u8>> {
        let (start, length) = self.large.name(zone)?;
        Ok(self.bytes[start as usize..(start + length) as usize].to_vec())
    }

    /// The large file's cells over the boxes of these zones, with those candidates that are among them.
    fn grid(&self, zones: &[u64]) -> Said<Grid> {
        let boxes: Vec<rules::Bounds> =
            zones.iter().map(|&zone| Ok(self.large.zone_at(zone)?.bounds)).collect::<Said<_>>()?;
        let cell = |n: i64| n.div_euclid(100_000) as i16;
        let least = |of: fn(&rules::Bounds) -> i64| cell(boxes.iter().map(of).min().unwrap());
        let most = |of: fn(&rules::Bounds) -> i64| cell(boxes.iter().map(of).max().unwrap());
        let (west, east) = (least(|b| b.minx), most(|b| b.maxx));
        let (south, north) = (least(|b| b.miny), most(|b| b.maxy));
        let (mut words, mut candidates) = (Vec::new(), Vec::new());
        for (lat, lng) in (south..=north).flat_map(|lat| (west..=east).map(move |lng| (lat, lng))) {
            let before = candidates.len();
            if let Candidates::Cell { count, offset } =
                self.large.candidates(lng.into(), lat.into())?
            {
                for place in run(offset, count) {
                    let zone = self.large.candidate(place)?;
                    let own = zones.iter().position(|&one| one == zone);
                    candidates.extend(own.map(|place| place as u16));
                }
            }
            words.push(((candidates.len() - before) as u32) << 28 | before as u32);
        }
        let (columns, rows) = ((east - west + 1) as u16, (north - south + 1) as u16);
        Ok(Grid { lng: west, lat: south, columns, rows, words, candidates })
    }
}

#[cfg(test)]
mod tests {
    use super::*;

    const SAMPLE: &str = concat!(env!("CARGO_MANIFEST_DIR"), "/../sample/real-ne.tzb");

    /// The full check accepts them, they have no more than they may, and by GRID and without they hold what the sample's zones hold.
    #[test]
    fn relatives_answer_as_the_sample_does() {
        let sample = std::fs::read(SAMPLE).unwrap();
        let family = Family::of(&sample);
        let large = Judge::plain(family.large, &[]);
        let mut random = Random::new(5);
        let mut shared = 0;
        for (i, longest) in [6000, 30_000, 20_000, 65_536].into_iter().enumerate() {
            let wish = Wish { most: 3 + 2 * i, longest, under: i % 2 == 1, grid: i < 2 };
            let Relative { zones, file } = family.some(&mut random, wish);
            assert_eq!(rules::full_check(&file), Ok(()));
            assert!(file.len() <= longest && (3..=wish.most).contains(&zones.len()));
            let small = Judge::plain(rules::open(&file, &[]).ok().unwrap(), &[]);
            assert_eq!(small.opened.grid.is_some(), wish.grid);
            let text = |(start, length): (u64, u64)| start as usize..(start + length) as usize;
            let groups = groups_of(&small.opened).unwrap();
            shared += groups.iter().map(BTreeSet::len).sum::<usize>();
            shared -= small.opened.groups() as usize;
            let points =
                (0..small.opened.groups()).flat_map(|i| points_of(&small.opened, i).unwrap());
            let points: Vec<(i32, i32)> = points.flatten().collect();
            for (place, &zone) in zones.iter().enumerate() {
                let own = small.opened.name(place as u64).map(|name| &file[text(name)]);
                assert_eq!(own, family.large.name(zone).map(|name| &sample[text(name)]));
                let (a, b) = (zone_of(&family.large, zone), zone_of(&small.opened, place as u64));
                let turned = |zone: Zone| -> Vec<bool> {
                    zone.iter().flatten().flatten().map(|op| op.turned).collect()
                };
                assert_eq!(turned(a.unwrap()), turned(b.unwrap()));
                for &(x, y) in points.iter().step_by(3) {
                    for (x, y) in [(x, y), (x + 1, y), (x, y - 1)] {
                        let said = small.contains(place as u64, x, y);
                        assert_eq!(said, large.contains(zone, x, y), "{place} {x} {y}");
                    }
                }
            }
            if wish.grid {
                for &(x, y) in points.iter().step_by(5) {
                    let (lng, lat) = (f64::from(x) / 100_000.0, f64::from(y) / 100_000.0);
                    let listed = large.lookup_into(lng, lat, 99).unwrap();
                    let mut expected: Vec<u64> = (0..zones.len() as u64)
                        .filter(|&place| listed.contains(&zones[place as usize]))
                        .collect();
                    let mut said = small.lookup_into(lng, lat, 99).unwrap();
                    said.sort_unstable();
                    expected.sort_unstable();
                    assert_eq!(said, expected, "{x} {y}");
                }
            }
        }
        assert!(shared > 10, "{shared}");
    }
}
