//! A zone's text by the port. The two exports stand in a table, so that a test can put others in their place.

use super::exports::{tzb_map, tzb_map_length};
use super::opening::{CHANGED, said, unless_changed};
use crate::rules::Said;

type Map = unsafe extern "C" fn(*const u8, usize, u32, *mut u8, usize) -> i64;
type MapLength = unsafe extern "C" fn(*const u8, usize, u32) -> i64;

#[derive(Clone, Copy)]
pub struct Maps {
    pub map: Map,
    pub map_length: MapLength,
}

pub const PORT: Maps = Maps { map: tzb_map, map_length: tzb_map_length };

/// What lent memory holds before, and where nothing may be written. No text has it.
const GUARD: u8 = 0xa5;
/// So many bytes lie before the room, and as many behind it.
const AROUND: usize = 64;

impl Maps {
    /// How long the text is.
    pub fn length(&self, file: &[u8], zone: u32) -> Said<u64> {
        let code = unsafe { (self.map_length)(file.as_ptr(), file.len(), zone) };
        said(code).map(|length| length as u64)
    }

    /// The text into so much room. Nothing is written behind it or before the room, and nothing at all on a refusal.
    pub fn text(&self, file: &[u8], zone: u32, room: usize) -> Said<Vec<u8>> {
        let mut lent = vec![GUARD; AROUND + room + AROUND];
        let out = lent[AROUND..].as_mut_ptr();
        let code = unsafe { (self.map)(file.as_ptr(), file.len(), zone, out, room) };
        let (before, rest) = lent.split_at(AROUND);
        let written = code.max(0) as usize;
        unless_changed(code, rest, written, GUARD)?;
        let stays = before == [GUARD; AROUND];
        if stays { Ok(rest[..written].to_vec()) } else { Err(CHANGED) }
    }
}
