//! What the full check demands: F1 to F6, rule by rule. F2 has two parts: the second, of request 2026-05, counts decoded points, so it is judged behind F3.

use super::records::Place;
use super::*;

/// Opening's number where F1 is broken, or 47 and the lowest broken rule.
#[derive(Debug, Clone, Copy, PartialEq, Eq)]
pub struct Broken {
    pub number: u32,
    pub rule: u32,
}

pub fn full_check(file: &[u8]) -> Result<(), Broken> {
    let opened = open(file, &[]).map_err(|number| Broken { number, rule: 0 })?;
    match opened.lowest_broken() {
        None => Ok(()),
        Some(rule) => Err(Broken { number: 47, rule }),
    }
}

/// So many segments that are not degenerate a ring has at the least.
const ROOM: usize = 3;

impl Opened<'_> {
    pub fn lowest_broken(&self) -> Option<u32> {
        if !self.f2() {
            return Some(2);
        }
        let Ok(points) = (0..self.chunks()).map(|i| self.points(i)).collect::<Placed<Vec<_>>>()
        else {
            return Some(3);
        };
        if !self.rings_have_room(&points) {
            return Some(2);
        }
        if !self.f4(&points) {
            return Some(4);
        }
        if !self.f5(&points) {
            return Some(5);
        }
        if self.f6() { None } else { Some(6) }
    }

    /// F2's older part: every zone, polygon and ring meets the record rule, every ring op names a group, every ring's groups' point counts, less its number of groups, add to its point count.
    fn f2(&self) -> bool {
        (0..self.zones).all(|i| self.zone_at(i).is_ok())
            && (0..self.polygons()).all(|i| self.polygon_at(i).is_ok())
            && (0..self.ops()).all(|i| self.op_at(i).is_ok())
            && (0..self.rings()).all(|i| self.ring_adds_up(i).unwrap_or(false))
    }

    fn ring_adds_up(&self, index: u64) -> Said<bool> {
        let ring = self.ring_at(index, &[])?;
        let mut points = 0;
        for i in ring.first..ring.first + ring.count {
            points += self.group_at(self.op_at(i)?.group)?.points;
        }
        Ok(points == ring.points + ring.count)
    }

    /// Every ring, also one that no polygon names, has at least three segments whose ends differ.
    fn rings_have_room(&self, points: &[Vec<Place>]) -> bool {
        let counted = |i| self.segments(i, points).filter(|(a, b)| a != b);
        (0..self.rings()).all(|i| counted(i).take(ROOM).count() == ROOM)
    }

    /// A ring's segments as exact geometry has them, and those joints beside whose ends do not differ.
    fn segments(&self, ring: u64, points: &[Vec<Place>]) -> impl Iterator<Item = (Place, Place)> {
        let ring = self.ring_at(ring, &[]).unwrap();
        let leg = move |i| self.leg_of(ring.first + i % ring.count, points);
        (0..ring.count).flat_map(move |i| {
            let mut line = leg(i);
            line.push(leg(i + 1)[0]);
            line.windows(2).map(|ends| (ends[0], ends[1])).collect::<Vec<_>>()
        })
    }

    /// The decoded points of an op's group, chunk by chunk, turned round where the op says so.
    fn leg_of(&self, op: u64, points: &[Vec<Place>]) -> Vec<Place> {
        let step = self.op_at(op).unwrap();
        let group = self.group_at(step.group).unwrap();
        let mut line = points[group.first as usize..(group.first + group.count) as usize].concat();
        if step.turned {
            line.reverse();
        }
        line
    }

    /// Each chunk's box covers its points and, within a group, the next chunk's first.
    fn f4(&self, points: &[Vec<Place>]) -> bool {
        let bounds = |i: u64| self.chunk_at(i).unwrap().bounds;
        let own = |i: u64| points[i as usize].iter().all(|&p| bounds(i).holds(p));
        let joints = |i: u64| {
            let group = self.group_at(i).unwrap();
            (group.first + 1..group.first + group.count)
                .all(|next| bounds(next - 1).holds(points[next as usize][0]))
        };
        (0..self.chunks()).all(own) && (0..self.groups()).all(joints)
    }

    /// Each group's box covers its chunks' boxes; entry and exit are its first and last point.
    fn f5(&self, points: &[Vec<Place>]) -> bool {
        (0..self.groups()).all(|i| {
            let group = self.group_at(i).unwrap();
            let mut chunks = group.first..group.first + group.count;
            let last = points[chunks.end as usize - 1].last();
            group.entry == points[chunks.start as usize][0]
                && Some(&group.exit) == last
                && chunks.all(|i| group.bounds.covers(self.chunk_at(i).unwrap().bounds))
        })
    }

    /// Each ring's box covers its groups', each polygon's its rings', each zone's its polygons'.
    fn f6(&self) -> bool {
        let ring = |i: u64| self.ring_at(i, &[]).unwrap();
        let group = |i: u64| self.group_at(self.op_at(i).unwrap().group).unwrap();
        let polygon = |i: u64| self.polygon_at(i).unwrap();
        let zone = |i: u64| self.zone_at(i).unwrap();
        let all = |of: records::Parent| of.first..of.first + of.count;
        (0..self.rings()).all(|i| all(ring(i)).all(|op| ring(i).bounds.covers(group(op).bounds)))
            && (0..self.polygons())
                .all(|i| all(polygon(i)).all(|below| polygon(i).bounds.covers(ring(below).bounds)))
            && (0..self.zones)
                .all(|i| all(zone(i)).all(|below| zone(i).bounds.covers(polygon(below).bounds)))
    }
}
