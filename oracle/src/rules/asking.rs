//! Lookups, and containment at a whole-number point.

use super::walk::{Point, Walk};
use super::{Candidates, Departure, Opened, Placed, Said, Way, need};

/// An opened file with the departures by which it is judged, walked plainly or by stripes.
#[derive(Clone, Copy)]
pub struct Judge<'a> {
    pub opened: Opened<'a>,
    original: &'a [Departure],
    way: Way<'a>,
}

impl<'a> Judge<'a> {
    pub fn plain(opened: Opened<'a>, original: &'a [Departure]) -> Self {
        Self { opened, original, way: Way::Plain }
    }

    /// By document 02, with these numbers.
    pub fn striped(opened: Opened<'a>, numbers: &'a [u32]) -> Self {
        Self { opened, original: &[], way: Way::Striped(numbers) }
    }
}

impl Judge<'_> {
    /// Any float point, without a look at the zone number or the domain.
    pub fn contains_at(&self, zone: u64, x: f64, y: f64) -> Placed<bool> {
        let Self { opened, original, way } = *self;
        Walk { opened, original, way, point: Point { x, y } }.zone(zone)
    }

    /// A zone number too large is 45, first of all; then a point outside the domain is no.
    pub fn contains(&self, zone: u64, x: i32, y: i32) -> Placed<bool> {
        need(45, zone < self.opened.zones)?;
        if x.unsigned_abs() > 18_000_000 || y.unsigned_abs() > 9_000_000 {
            return Ok(false);
        }
        self.contains_at(zone, x.into(), y.into())
    }

    /// How many candidates there are, and the zone of each.
    fn candidates(&self, lng: f64, lat: f64) -> Said<(u64, impl Fn(u64) -> Said<u64>)> {
        let (count, offset) = match self.opened.candidates(lng, lat)? {
            Candidates::Nothing => (0, None),
            Candidates::EveryZone => (self.opened.zones, None),
            Candidates::Cell { count, offset } => (count, Some(offset)),
        };
        let zone = move |i| match offset {
            Some(offset) => self.opened.candidate(offset + i),
            None => Ok(i),
        };
        Ok((count, zone))
    }

    /// Each coordinate is multiplied by 100,000, with one rounding.
    fn is_in(&self, zone: u64, lng: f64, lat: f64) -> Placed<bool> {
        self.contains_at(zone, lng * 100_000.0, lat * 100_000.0)
    }

    pub fn lookup(&self, lng: f64, lat: f64) -> Placed<Option<u64>> {
        let (count, zone) = self.candidates(lng, lat)?;
        let unlooked_at = self.opened.grid.is_some()
            && self.opened.flags & 2 == 0
            && -179.0 < lng
            && lng < 179.0
            && -89.0 < lat
            && lat < 89.0;
        if count == 1 && unlooked_at {
            return Ok(Some(zone(0)?));
        }
        for i in 0..count {
            let zone = zone(i)?;
            if self.is_in(zone, lng, lat)? {
                return Ok(Some(zone));
            }
        }
        Ok(None)
    }

    /// Every candidate, by name bytes; equal names in candidate order. Any other refusal comes before 46.
    pub fn lookup_into(&self, lng: f64, lat: f64, places: u64) -> Placed<Vec<u64>> {
        let (count, zone) = self.candidates(lng, lat)?;
        let mut found = Vec::new();
        for i in 0..count {
            let zone = zone(i)?;
            if self.is_in(zone, lng, lat)? {
                found.push(zone);
            }
        }
        let mut named = Vec::new();
        for zone in found {
            let (start, length) = self.opened.name(zone)?;
            named.push((&self.opened.file[start as usize..(start + length) as usize], zone));
        }
        named.sort_by_key(|&(name, _)| name);
        need(46, named.len() as u64 <= places)?;
        Ok(named.into_iter().map(|(_, zone)| zone).collect())
    }
}
