//! Exact geometry in whole numbers, over the points that decoding gives: no box, no skip, no float.

use crate::rules::{Opened, Said};

/// Products of two differences stay below 2^51.
type Place = (i64, i64);
type Segment = (Place, Place);
type Ring = Vec<Segment>;

/// Each zone's polygons: rings of segments, the outer one first.
pub struct Exact {
    zones: Vec<Vec<Vec<Ring>>>,
}

/// Twice the area of the triangle, with its sign.
fn cross(a: Place, b: Place, p: Place) -> i64 {
    (b.0 - a.0) * (p.1 - a.1) - (b.1 - a.1) * (p.0 - a.0)
}

fn between(a: i64, b: i64, x: i64) -> bool {
    a.min(b) <= x && x <= a.max(b)
}

fn on(&(a, b): &Segment, p: Place) -> bool {
    cross(a, b, p) == 0 && between(a.0, b.0, p.0) && between(a.1, b.1, p.1)
}

/// One end is above the point and the other is not, and the meeting place is strictly greater in x.
fn counts(&(a, b): &Segment, p: Place) -> bool {
    let (low, high) = if a.1 <= b.1 { (a, b) } else { (b, a) };
    low.1 <= p.1 && p.1 < high.1 && cross(low, high, p) > 0
}

fn on_ring(ring: &Ring, p: Place) -> bool {
    ring.iter().any(|s| on(s, p))
}

/// Not on any segment and an odd number counted.
fn inside(ring: &Ring, p: Place) -> bool {
    !on_ring(ring, p) && ring.iter().filter(|s| counts(s, p)).count() % 2 == 1
}

impl Exact {
    pub fn of(o: &Opened) -> Said<Self> {
        let mut groups = Vec::new();
        for i in 0..o.groups() {
            let group = o.group_at(i)?;
            let mut points: Vec<Place> = Vec::new();
            for chunk in group.first..group.first + group.count {
                points.extend(o.points(chunk)?.iter().map(|&(x, y)| (x.into(), y.into())));
            }
            groups.push(points);
        }
        let ring = |i: u64| -> Said<Ring> {
            let ring = o.ring_at(i, &[])?;
            let mut lines = Vec::new();
            for op in ring.first..ring.first + ring.count {
                let step = o.op_at(op)?;
                let mut line = groups[step.group as usize].clone();
                if step.turned {
                    line.reverse();
                }
                lines.push(line);
            }
            Ok(closed(&lines))
        };
        let mut zones = Vec::new();
        for i in 0..o.zones {
            let zone = o.zone_at(i)?;
            let mut polygons = Vec::new();
            for i in zone.first..zone.first + zone.count {
                let polygon = o.polygon_at(i)?;
                let rings = polygon.first..polygon.first + polygon.count;
                polygons.push(rings.map(&ring).collect::<Said<Vec<Ring>>>()?);
            }
            zones.push(polygons);
        }
        Ok(Self { zones })
    }

    /// A zone's rings, one polygon after another.
    #[cfg(test)]
    pub fn rings(&self, zone: u64) -> Vec<Vec<(Place, Place)>> {
        self.zones[zone as usize].concat()
    }

    /// On or inside the outer ring of one of its polygons, and strictly inside none of that polygon's holes.
    pub fn contains(&self, zone: u64, x: i32, y: i32) -> bool {
        let p = (x.into(), y.into());
        self.zones[zone as usize].iter().any(|rings| {
            (on_ring(&rings[0], p) || inside(&rings[0], p))
                && !rings[1..].iter().any(|hole| inside(hole, p))
        })
    }
}

/// The segments between neighbours, and from each end to the next start, round to the first, wherever the two differ.
fn closed(lines: &[Vec<Place>]) -> Ring {
    let mut out = Vec::new();
    for (i, line) in lines.iter().enumerate() {
        out.extend(line.windows(2).map(|ends| (ends[0], ends[1])));
        let (exit, entry) = (line[line.len() - 1], lines[(i + 1) % lines.len()][0]);
        if exit != entry {
            out.push((exit, entry));
        }
    }
    out
}

#[cfg(test)]
mod tests {
    use super::{counts, on};

    /// M9 to M14.
    #[test]
    fn the_marked_points() {
        let seen = |a, b, p| (on(&(a, b), p), counts(&(a, b), p));
        assert_eq!(seen((0, 0), (10, 10), (5, 5)).0, true);
        assert_eq!(seen((0, 0), (10, 10), (4, 5)), (false, true));
        assert_eq!(seen((0, 0), (10, 10), (6, 5)), (false, false));
        assert_eq!(seen((0, 0), (10, 0), (-1, 0)), (false, false));
        assert_eq!(seen((0, 0), (0, 10), (-1, 0)), (false, true));
        assert_eq!(seen((0, 0), (0, 10), (-1, 10)), (false, false));
    }
}
