//! The port, through its archive's C exports. A `&[u8]` passes as pointer, then length.

pub mod asking;
pub mod exports;
#[cfg(test)]
mod header;
pub mod journal;
pub mod map;
pub mod opening;
pub mod places;
pub mod striped;

use crate::bytes::Reading;
use crate::scene::Scene;
use exports::*;

pub fn crc32(data: &[u8]) -> u32 {
    unsafe { tzb_crc32(data.as_ptr(), data.len()) }
}

pub fn utf8(data: &[u8]) -> u32 {
    unsafe { tzb_utf8(data.as_ptr(), data.len()) }
}

pub fn reading(data: &[u8], at: usize) -> Reading {
    unsafe {
        Reading {
            number: tzb_number(data.as_ptr(), data.len(), at),
            length: tzb_number_length(data.as_ptr(), data.len(), at),
        }
    }
}

pub fn ray(s: &Scene) -> u64 {
    tzb_ray(s.ax, s.ay, s.bx, s.by, s.x, s.y) as u64
}

pub fn parity(s: &Scene) -> u64 {
    u64::from(tzb_parity(s.ax, s.ay, s.bx, s.by, s.x, s.y))
}

pub fn next_up(s: &Scene) -> u64 {
    crate::scene::bits(tzb_next_up(s.x))
}

pub fn contains(s: &Scene) -> u64 {
    u64::from(tzb_box_contains(s.ax, s.ay, s.bx, s.by, s.x, s.y))
}

pub fn relevant(s: &Scene) -> u64 {
    u64::from(tzb_box_relevant(s.ax, s.ay, s.bx, s.by, s.x, s.y))
}
