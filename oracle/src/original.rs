//! The original, in the shapes of the port's exports.

mod asking;
pub mod opening;
mod stripes;

use crate::bytes::{Reading, refused};
use crate::scene::{self, Scene};
use crate::tzb::{self, BBox, Error};
use geometry_rs::{I32Point, Point};

/// Into which the original decodes a chunk.
pub type Points = Vec<I32Point>;

pub fn crc32(data: &[u8]) -> u32 {
    tzb::crc32_ieee(data)
}

/// The original leaves UTF-8 to the standard library.
pub fn utf8(data: &[u8]) -> u32 {
    u32::from(std::str::from_utf8(data).is_ok())
}

/// A place past the end has no cursor in the original; the port's rule there is that the bytes run out.
pub fn reading(data: &[u8], at: usize) -> Reading {
    if at > data.len() {
        return refused(38);
    }
    match tzb::varint_at(data, at) {
        Ok((number, bytes)) => Reading { number, length: bytes as i32 },
        Err(e) => refused(refusal(&e)),
    }
}

#[cold]
fn refusal(e: &Error) -> i32 {
    match e {
        Error::Malformed("truncated varint") => 38,
        Error::Malformed("nonminimal varint") => 39,
        Error::Malformed("varint exceeds 32 bits") => 40,
        _ => panic!("no refusal of a number: {e}"),
    }
}

pub fn ray_at(ax: i32, ay: i32, bx: i32, by: i32, x: f64, y: f64) -> i32 {
    let a = Point { x: f64::from(ax), y: f64::from(ay) };
    let b = Point { x: f64::from(bx), y: f64::from(by) };
    match tzb::raycast_seg(a, b, Point { x, y }) {
        (_, true) => 2,
        (counts, false) => i32::from(counts),
    }
}

pub fn ray(s: &Scene) -> u64 {
    ray_at(s.ax, s.ay, s.bx, s.by, s.x, s.y) as u64
}

pub fn parity(s: &Scene) -> u64 {
    let a = I32Point { x: s.ax, y: s.ay };
    let b = I32Point { x: s.bx, y: s.by };
    u64::from(tzb::parity(a, b, s.y))
}

/// The original calls the standard library's.
pub fn next_up(s: &Scene) -> u64 {
    scene::bits(s.x.next_up())
}

fn bbox(s: &Scene) -> BBox {
    BBox { min_x: s.ax, min_y: s.ay, max_x: s.bx, max_y: s.by }
}

pub fn contains(s: &Scene) -> u64 {
    u64::from(bbox(s).contains(s.x, s.y))
}

pub fn relevant(s: &Scene) -> u64 {
    u64::from(bbox(s).ray_relevant(s.x, s.y))
}
