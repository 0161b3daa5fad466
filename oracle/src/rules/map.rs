//! A zone as GeoJSON: document 02's request 2026-01, written straight from its words.

mod read;

pub use read::read;

use super::full::Broken;
use super::records::{Place, Step};
use super::{Opened, Said, full_check, need, open};

/// Positions as they are written: the first stands once more at the end.
pub type Ring = Vec<Place>;

/// Its outer ring, then its holes.
pub type Polygon = Vec<Ring>;

/// So many positions a ring may have at the most, and must have at the least, with the closing one. In an accepted file it has the least: three segments whose ends differ have four positions.
const MOST: usize = 10_000;
const LEAST: usize = 4;

/// The text of a zone. The full check's refusal comes first, then 45, then 48. Room is the caller's: 46 comes last.
pub fn map(file: &[u8], zone: u32) -> Result<String, Broken> {
    full_check(file)?;
    let refused = |number| Broken { number, rule: 0 };
    open(file, &[]).and_then(|opened| opened.map(zone.into())).map_err(refused)
}

impl Opened<'_> {
    /// The text of a zone of a file that the full check accepts.
    pub fn map(&self, zone: u64) -> Said<String> {
        self.drawn(zone).map(|polygons| text(&polygons))
    }

    /// What the text says: each ring as it runs there.
    pub fn drawn(&self, zone: u64) -> Said<Vec<Polygon>> {
        need(45, zone < self.zones)?;
        let zone = self.zone_at(zone)?;
        (zone.first..zone.first + zone.count).map(|i| self.drawn_polygon(i)).collect()
    }

    fn drawn_polygon(&self, index: u64) -> Said<Polygon> {
        let polygon = self.polygon_at(index)?;
        let rings = polygon.first..polygon.first + polygon.count;
        rings.map(|i| self.drawn_ring(i, i == polygon.first)).collect()
    }

    /// Outer rings run counterclockwise and holes clockwise. One that runs the other way is written from its first position backwards.
    fn drawn_ring(&self, index: u64, outer: bool) -> Said<Ring> {
        let mut ring = self.ring_positions(index)?;
        let area = doubled_area(&ring);
        need(48, (LEAST..=MOST).contains(&ring.len()) && area != 0)?;
        if (area > 0) != outer {
            ring.reverse();
        }
        Ok(ring)
    }

    /// The points of its legs in ring order. A leg's first point is left out where it equals the last position so far. The first
    /// position closes the ring, unless the last equals it already.
    fn ring_positions(&self, index: u64) -> Said<Ring> {
        let ring = self.ring_at(index, &[])?;
        let mut out = Ring::new();
        for op in ring.first..ring.first + ring.count {
            let leg = self.leg(self.op_at(op)?)?;
            let met = usize::from(out.last() == leg.first());
            out.extend(&leg[met..]);
            // It never gets shorter: a ring may name the same group 65,535 times.
            need(48, out.len() <= MOST)?;
        }
        if out.first() != out.last() {
            out.push(out[0]);
        }
        Ok(out)
    }

    /// A group's points, turned round where the op says so.
    fn leg(&self, step: Step) -> Said<Vec<Place>> {
        let group = self.group_at(step.group)?;
        let mut out = Vec::new();
        for chunk in group.first..group.first + group.count {
            out.extend(self.points(chunk)?);
        }
        if step.turned {
            out.reverse();
        }
        Ok(out)
    }
}

/// Twice the area, exact: above zero where the ring runs counterclockwise.
fn doubled_area(ring: &[Place]) -> i128 {
    let cross =
        |a: Place, b: Place| i128::from(a.0) * i128::from(b.1) - i128::from(b.0) * i128::from(a.1);
    ring.windows(2).map(|ends| cross(ends[0], ends[1])).sum()
}

/// No spaces, and five decimals always.
pub fn text(polygons: &[Polygon]) -> String {
    let position = |&(x, y): &Place| format!("[{},{}]", decimal(x), decimal(y));
    let ring = |ring: &Ring| listed(ring.iter().map(position));
    let polygon = |polygon: &Polygon| listed(polygon.iter().map(ring));
    let all = listed(polygons.iter().map(polygon));
    format!(r#"{{"type":"MultiPolygon","coordinates":{all}}}"#)
}

fn listed(all: impl Iterator<Item = String>) -> String {
    format!("[{}]", all.collect::<Vec<_>>().join(","))
}

/// Hundred-thousandths as a decimal. There is no minus before zero, since zero is not below zero.
fn decimal(n: i64) -> String {
    let sign = if n < 0 { "-" } else { "" };
    let size = n.unsigned_abs();
    format!("{sign}{}.{:05}", size / 100_000, size % 100_000)
}

#[cfg(test)]
mod tests {
    use super::*;
    use crate::exact::Exact;
    use crate::file::maps::{self, Drawn};
    use crate::file::{mostly_with_room, some};
    use crate::random::Random;

    /// Document 02's own text.
    const TRIANGLE: &str = r#"{"type":"MultiPolygon","coordinates":[[[[0.00000,0.00000],[0.00100,0.00000],[0.00000,0.00100],[0.00000,0.00000]]]]}"#;

    #[test]
    fn the_triangle_byte_for_byte() {
        let file = maps::one(&[(0, 0), (100, 0), (0, 100)]);
        assert_eq!(map(&file, 0), Ok(TRIANGLE.to_string()));
        assert_eq!(map(&file, 1), Err(Broken { number: 45, rule: 0 }));
    }

    #[test]
    fn decimals_by_hand() {
        let by_hand = [
            (0, "0.00000"),
            (1, "0.00001"),
            (-1, "-0.00001"),
            (99_999, "0.99999"),
            (100_000, "1.00000"),
            (-100_001, "-1.00001"),
            (1_000_000, "10.00000"),
            (-9_999_999, "-99.99999"),
            (9_000_000, "90.00000"),
            (18_000_000, "180.00000"),
            (-18_000_000, "-180.00000"),
        ];
        by_hand.iter().for_each(|&(n, text)| assert_eq!(decimal(n), text));
    }

    /// What is expected by hand of the kept files: the rings as they run in the text, or the refusal.
    #[test]
    fn the_cases_by_hand() {
        for case in maps::cases() {
            let by_rules = match map(&case.file, case.zone) {
                Ok(text) => Drawn::Rings(read(&text).expect("a text that can be read")),
                Err(broken) => Drawn::Refused(broken.number + 100 * broken.rule),
            };
            assert_eq!(by_rules, case.drawn, "{}", case.what);
        }
    }

    /// Of generated files: the text reads back to the rings, and before they were turned these were the segments of exact geometry.
    #[test]
    fn generated_zones_read_back() {
        let mut random = Random::new(6);
        let mut seen = [0; 3];
        for i in 0..2000 {
            let draft = match i % 3 {
                0 => some(&mut random),
                1 => mostly_with_room(&mut random),
                _ => maps::mostly_with_room(&mut random),
            };
            let file = draft.lay();
            if !draft.has_room() {
                assert_eq!(map(&file, 0), Err(Broken { number: 47, rule: 2 }));
                continue;
            }
            assert_eq!(full_check(&file), Ok(()));
            let opened = open(&file, &[]).ok().unwrap();
            let exact = Exact::of(&opened).unwrap();
            for zone in 0..opened.zones {
                let segments = exact.rings(zone);
                let positions = unturned(&opened, zone);
                assert!(positions.iter().all(|ring| ring.len() >= LEAST));
                let ends = |ring: &Ring| ring.windows(2).map(|w| (w[0], w[1])).collect();
                assert_eq!(positions.iter().map(ends).collect::<Vec<Vec<_>>>(), segments);
                match map(&file, zone as u32) {
                    Ok(text) => {
                        let drawn = read(&text).expect("a text that can be read");
                        assert_eq!(drawn, opened.drawn(zone).unwrap());
                        seen[turned(&drawn.concat(), &positions)] += 1;
                    }
                    Err(broken) => {
                        assert_eq!((broken.number, broken.rule), (48, 0));
                        assert!(positions.iter().any(|r| doubled_area(r) == 0));
                        seen[2] += 1;
                    }
                }
            }
        }
        assert!(seen.iter().all(|&count| count > 200), "{seen:?}");
    }

    /// A zone's rings in ring order, one polygon after another.
    fn unturned(opened: &Opened, zone: u64) -> Vec<Ring> {
        let zone = opened.zone_at(zone).unwrap();
        let polygons = (zone.first..zone.first + zone.count).map(|i| opened.polygon_at(i).unwrap());
        let rings = polygons.flat_map(|polygon| polygon.first..polygon.first + polygon.count);
        rings.map(|i| opened.ring_positions(i).unwrap()).collect()
    }

    /// 1 if one of the rings runs the other way; each runs one way or the other, from the same position.
    fn turned(drawn: &[Ring], positions: &[Ring]) -> usize {
        let mut any = 0;
        assert_eq!(drawn.len(), positions.len());
        for (ring, stored) in drawn.iter().zip(positions) {
            let mut back = stored.clone();
            back.reverse();
            assert!(ring == stored || *ring == back);
            any |= usize::from(ring != stored);
        }
        any
    }

    /// 10,000 positions and 10,001, with the closing one; and as many turns round the world as there may be, of either sign.
    #[test]
    fn the_longest_rings() {
        for case in maps::long() {
            let by_rules = match map(&case.file, case.zone) {
                Ok(text) => Drawn::Rings(read(&text).expect("a text that can be read")),
                Err(broken) => Drawn::Refused(broken.number + 100 * broken.rule),
            };
            assert!(by_rules == case.drawn, "{}", case.what);
        }
    }

    /// Every zone of the sample reads back to its rings.
    #[test]
    fn the_sample_reads_back() {
        let sample = concat!(env!("CARGO_MANIFEST_DIR"), "/../sample/real-ne.tzb");
        let file = std::fs::read(sample).expect("the sample");
        let opened = open(&file, &[]).ok().unwrap();
        for zone in 0..opened.zones {
            if let Ok(drawn) = opened.drawn(zone) {
                assert!(read(&text(&drawn)) == Some(drawn), "zone {zone}");
            }
        }
    }
}
