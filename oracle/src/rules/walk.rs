//! Containment, as document 01 has it: zones, polygons, rings, groups and chunks with their skips. A walk ends at a hit on an edge.

use super::chunk::Bytes;
use super::ray::{Seen, parity, ray};
use super::records::{Chunk, Group, Place};
use super::stripes::{Numbers, Way};
use super::{Departure, Opened, Placed, need};

#[derive(Clone, Copy)]
pub struct Point {
    pub x: f64,
    pub y: f64,
}

/// What is counted so far. `step` says whether an edge was hit.
#[derive(Default)]
struct Tally {
    odd: bool,
}

impl Tally {
    fn segment(&mut self, a: Place, b: Place, p: Point) -> bool {
        match ray(a, b, p.x, p.y) {
            Seen::On => return true,
            Seen::Off(counts) => self.odd ^= counts,
        }
        false
    }
}

/// One zone's walk at one point, with the original's departures, plainly or by stripes.
pub struct Walk<'a> {
    pub opened: Opened<'a>,
    pub original: &'a [Departure],
    pub way: Way<'a>,
    pub point: Point,
}

impl Walk<'_> {
    fn departs(&self, d: Departure) -> bool {
        self.original.contains(&d)
    }

    pub fn zone(&self, index: u64) -> Placed<bool> {
        let (o, Point { x, y }) = (&self.opened, self.point);
        let zone = o.zone_at(index)?;
        if !zone.bounds.contains(x, y) {
            return Ok(false);
        }
        for i in zone.first..zone.first + zone.count {
            let polygon = o.polygon_at(i)?;
            if polygon.bounds.contains(x, y)
                && self.ring(polygon.first, true)?
                && !self.holes(polygon.first + 1, polygon.count - 1)?
            {
                return Ok(true);
            }
        }
        Ok(false)
    }

    /// Whether one of the holes has the point strictly inside.
    fn holes(&self, first: u64, count: u64) -> Placed<bool> {
        for i in first..first + count {
            if self.ring(i, false)? {
                return Ok(true);
            }
        }
        Ok(false)
    }

    fn ring(&self, index: u64, on_edge: bool) -> Placed<bool> {
        let (o, p) = (&self.opened, self.point);
        let ring = o.ring_at(index, self.original)?;
        if !ring.bounds.contains(p.x, p.y) {
            return Ok(false);
        }
        let mut tally = Tally::default();
        let mut points = 0;
        let mut ends: Option<(Place, Place)> = None;
        for i in ring.first..ring.first + ring.count {
            let step = o.op_at(i)?;
            let group = o.group_at(step.group)?;
            points += group.points;
            let (entry, exit) =
                if step.turned { (group.exit, group.entry) } else { (group.entry, group.exit) };
            if let Some((_, before)) = ends
                && before != entry
                && tally.segment(before, entry, p)
            {
                return Ok(on_edge);
            }
            ends = Some((ends.map_or(entry, |(first, _)| first), exit));
            if !group.bounds.relevant(p.x, p.y) {
                continue;
            }
            if group.bounds.right(p.x) {
                tally.odd ^= parity(group.entry, group.exit, p.y);
            } else if self.group(step.group, &group, &mut tally)? {
                return Ok(on_edge);
            }
        }
        need(36, points == ring.points + ring.count)?;
        let (first, last) = ends.expect("a ring has a group");
        if first != last && tally.segment(last, first, p) {
            return Ok(on_edge);
        }
        Ok(tally.odd)
    }

    fn group(&self, index: u64, group: &Group, tally: &mut Tally) -> Placed<bool> {
        match self.way {
            Way::Plain => self.plain(group, tally),
            Way::Striped(numbers) => self.striped(Numbers(numbers), index, group, tally),
        }
    }

    /// The chunk numbers of the point's stripe in turn, as they stand. A record is read when its turn comes, and the next one's only where
    /// the chunk is looked at.
    fn striped(
        &self,
        numbers: Numbers,
        index: u64,
        group: &Group,
        tally: &mut Tally,
    ) -> Placed<bool> {
        let (o, p) = (&self.opened, self.point);
        let Some(places) = numbers.places(index, p.y)? else { return self.plain(group, tally) };
        for place in places {
            let chunk = numbers.chunk(place, group.count)?;
            let index = group.first + chunk;
            let record = o.chunk_at(index)?;
            if !record.bounds.relevant(p.x, p.y) {
                continue;
            }
            let follows = chunk + 1 < group.count;
            let next = if follows { Some(o.chunk_at(index + 1)?) } else { None };
            if self.chunk(group, index, record, next, tally)? {
                return Ok(true);
            }
        }
        Ok(false)
    }

    fn plain(&self, group: &Group, tally: &mut Tally) -> Placed<bool> {
        let o = &self.opened;
        let last = group.first + group.count - 1;
        let stripe = self.departs(Departure::Stripes) && group.count > 1;
        let mut chunk = o.chunk_at(group.first)?;
        for index in group.first..=last {
            let next = if index < last { Some(o.chunk_at(index + 1)?) } else { None };
            let looked_at = !stripe || in_stripe(group, &chunk, self.point.y);
            if looked_at
                && chunk.bounds.relevant(self.point.x, self.point.y)
                && self.chunk(group, index, chunk, next, tally)?
            {
                return Ok(true);
            }
            chunk = next.unwrap_or(chunk);
        }
        Ok(false)
    }

    /// A chunk's segments and the joint to the next.
    fn chunk(
        &self,
        group: &Group,
        index: u64,
        chunk: Chunk,
        next: Option<Chunk>,
        tally: &mut Tally,
    ) -> Placed<bool> {
        let (o, p) = (&self.opened, self.point);
        let mut bytes = o.chunk_bytes(index, chunk, next)?;
        let first_of_next = || match next {
            Some(next) => o.chunk_bytes(index + 1, next, None)?.first().map(Some),
            None => Ok(None),
        };
        if chunk.bounds.right(p.x) {
            let first = bytes.first()?;
            tally.odd ^= parity(first, first_of_next()?.unwrap_or(group.exit), p.y);
            return Ok(false);
        }
        let Some(last) = self.scan(&mut bytes, chunk.count, tally)? else { return Ok(true) };
        match first_of_next()? {
            Some(first) => Ok(tally.segment(last, first, p)),
            None => Ok(false),
        }
    }

    /// The last point, or none after a hit on an edge. The original reads on after a hit.
    fn scan(&self, bytes: &mut Bytes, count: u64, tally: &mut Tally) -> Placed<Option<Place>> {
        need(32, count > 0)?;
        let mut point = bytes.first()?;
        let mut on = false;
        for _ in 1..count {
            let next = bytes.next(point)?;
            on = on || tally.segment(point, next, self.point);
            if on && !self.departs(Departure::ReadsOn) {
                return Ok(None);
            }
            point = next;
        }
        bytes.end()?;
        Ok(if on { None } else { Some(point) })
    }
}

/// Whether the original's stripe of this latitude lists the chunk. Its sums wrap.
fn in_stripe(group: &Group, chunk: &Chunk, y: f64) -> bool {
    let stripes = (group.count / 4).clamp(1, 256);
    let (low, high) = (group.bounds.miny, group.bounds.maxy);
    let height = (high - low).max(1) as u64;
    let stripe = |y: i64| ((y - low) as u64).wrapping_mul(stripes) / height;
    let [from, to] = [chunk.bounds.miny, chunk.bounds.maxy].map(|y| stripe(y).min(stripes - 1));
    let asked = stripe((y.floor() as i64).max(low)).min(stripes - 1);
    (from..=to).contains(&asked)
}
