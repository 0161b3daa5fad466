//! The directories' records, for any opened record and any bytes: index (34), the record's bytes (44), the record rule (34; 35 for a ring op).

use super::bytes::{i32_at, u16_at, u32_at};
use super::*;

#[derive(Debug, Clone, Copy, PartialEq, Eq)]
pub struct Bounds {
    pub minx: i64,
    pub miny: i64,
    pub maxx: i64,
    pub maxy: i64,
}

/// A whole-number point.
pub type Place = (i64, i64);

impl Bounds {
    fn at(file: &[u8], at: u64) -> Self {
        let [minx, miny, maxx, maxy] = [0, 4, 8, 12].map(|i| i32_at(file, at + i));
        Self { minx, miny, maxx, maxy }
    }

    pub fn covers(self, other: Self) -> bool {
        self.minx <= other.minx
            && self.miny <= other.miny
            && self.maxx >= other.maxx
            && self.maxy >= other.maxy
    }

    pub fn holds(self, (x, y): Place) -> bool {
        self.covers(Self { minx: x, miny: y, maxx: x, maxy: y })
    }

    /// Of a float point.
    pub fn contains(self, x: f64, y: f64) -> bool {
        x >= self.minx as f64
            && x <= self.maxx as f64
            && y >= self.miny as f64
            && y <= self.maxy as f64
    }

    /// Whether the ray from the point to the right can meet it.
    pub fn relevant(self, x: f64, y: f64) -> bool {
        y >= self.miny as f64 && y <= self.maxy as f64 && self.maxx as f64 >= x
    }

    /// Whether it lies strictly right of the point.
    pub fn right(self, x: f64) -> bool {
        self.minx as f64 > x
    }
}

/// A zone, a polygon or a ring: which records below are its own, and its box. A ring has a point count.
#[derive(Debug, Clone, Copy)]
pub struct Parent {
    pub first: u64,
    pub count: u64,
    pub points: u64,
    pub bounds: Bounds,
}

#[derive(Debug, Clone, Copy)]
pub struct Group {
    pub first: u64,
    pub count: u64,
    pub points: u64,
    pub entry: Place,
    pub exit: Place,
    pub bounds: Bounds,
}

#[derive(Debug, Clone, Copy)]
pub struct Chunk {
    pub offset: u64,
    pub count: u64,
    pub bounds: Bounds,
}

#[derive(Debug, Clone, Copy)]
pub struct Step {
    pub group: u64,
    pub turned: bool,
}

fn place(file: &[u8], at: u64) -> Place {
    (i32_at(file, at), i32_at(file, at + 4))
}

impl Opened<'_> {
    pub fn polygons(&self) -> u64 {
        self.section(POLYDIR).len / 24
    }

    pub fn rings(&self) -> u64 {
        self.section(RINGDIR).len / 28
    }

    pub fn ops(&self) -> u64 {
        self.section(RINGOPS).len / 4
    }

    pub fn groups(&self) -> u64 {
        self.section(GROUPDIR).len / 44
    }

    pub fn chunks(&self) -> u64 {
        self.section(CHUNKDIR).len / 24
    }

    /// Where a record stands, if it is there and its bytes are lent.
    fn record(&self, typ: usize, count: u64, width: u64, index: u64) -> Said<u64> {
        need(34, index < count)?;
        self.read(self.section(typ).off + width * index, width, |_, at| at)
    }

    fn parent(&self, at: u64, counted: bool, below: u64) -> Said<Parent> {
        let skip = if counted { 4 } else { 0 };
        let parent = Parent {
            first: u32_at(self.file, at),
            points: if counted { u32_at(self.file, at + 4) } else { 0 },
            count: u16_at(self.file, at + 4 + skip),
            bounds: Bounds::at(self.file, at + 8 + skip),
        };
        need(34, parent.count >= 1 && parent.first + parent.count <= below)?;
        need(34, box_in_domain(self.file, at + 8 + skip))?;
        Ok(parent)
    }

    pub fn zone_at(&self, index: u64) -> Said<Parent> {
        let at = self.record(TZDIR, self.zones, 24, index)?;
        self.parent(at, false, self.polygons())
    }

    pub fn polygon_at(&self, index: u64) -> Said<Parent> {
        let at = self.record(POLYDIR, self.polygons(), 24, index)?;
        self.parent(at, false, self.rings())
    }

    pub fn ring_at(&self, index: u64, original: &[Departure]) -> Said<Parent> {
        let at = self.record(RINGDIR, self.rings(), 28, index)?;
        let ring = self.parent(at, true, self.ops())?;
        need(34, ring.points >= 3 || !original.contains(&Departure::ShortRing))?;
        Ok(ring)
    }

    pub fn op_at(&self, index: u64) -> Said<Step> {
        let at = self.record(RINGOPS, self.ops(), 4, index)?;
        let word = u32_at(self.file, at);
        let step = Step { group: word & 0x7fff_ffff, turned: word >> 31 == 1 };
        need(35, step.group < self.groups())?;
        Ok(step)
    }

    pub fn group_at(&self, index: u64) -> Said<Group> {
        let at = self.record(GROUPDIR, self.groups(), 44, index)?;
        let group = Group {
            first: u32_at(self.file, at),
            points: u32_at(self.file, at + 4),
            count: u16_at(self.file, at + 8),
            entry: place(self.file, at + 12),
            exit: place(self.file, at + 20),
            bounds: Bounds::at(self.file, at + 28),
        };
        need(34, group.count >= 1 && group.first + group.count <= self.chunks())?;
        need(34, point_in_domain(self.file, at + 12) && point_in_domain(self.file, at + 20))?;
        need(34, box_in_domain(self.file, at + 28))?;
        Ok(group)
    }

    pub fn chunk_at(&self, index: u64) -> Said<Chunk> {
        let at = self.record(CHUNKDIR, self.chunks(), 24, index)?;
        let chunk = Chunk {
            offset: u32_at(self.file, at),
            count: u16_at(self.file, at + 4),
            bounds: Bounds::at(self.file, at + 8),
        };
        need(34, box_in_domain(self.file, at + 8))?;
        Ok(chunk)
    }
}
