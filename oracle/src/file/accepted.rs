//! A second opinion on the full check, by the original's own records and decoder: every file of the builder is accepted whose rings have room, and of damaged ones the rules accept the same.

use super::damage::Aim;
use super::{
    CHUNKDIR, GROUPDIR, POLYDIR, RINGDIR, RINGOPS, TZDIR, broken, entries, maps, mostly_with_room,
    some, word,
};
use crate::random::Random;
use crate::rules::full_check;
use crate::tzb::{BBox, Reader};
use geometry_rs::I32Point;
use std::borrow::Cow;

fn covers(outer: BBox, inner: BBox) -> bool {
    outer.min_x <= inner.min_x
        && outer.min_y <= inner.min_y
        && outer.max_x >= inner.max_x
        && outer.max_y >= inner.max_y
}

fn holds(outer: BBox, p: I32Point) -> bool {
    covers(outer, BBox { min_x: p.x, min_y: p.y, max_x: p.x, max_y: p.y })
}

fn count(file: &[u8], typ: u32, width: u32) -> u32 {
    entries(file).iter().find(|entry| entry[0] == typ).unwrap()[2] / width
}

fn decoded(r: &Reader, chunk: u32) -> Option<Vec<I32Point>> {
    let mut out = Vec::new();
    r.decode_chunk_points(chunk, r.chunk_at(chunk).ok()?, &mut out).ok()?;
    Some(out)
}

/// F4 and F5 for one group.
fn group(r: &Reader, index: u32) -> Option<bool> {
    let g = r.group_at(index).ok()?;
    let chunks = g.first..g.first + u32::from(g.count);
    let points: Vec<Vec<I32Point>> =
        chunks.clone().map(|c| decoded(r, c)).collect::<Option<_>>()?;
    let mut good = true;
    for (i, c) in chunks.enumerate() {
        let bounds = r.chunk_at(c).ok()?.bbox;
        good &= points.get(i + 1).is_none_or(|next| holds(bounds, next[0]));
        good &= covers(g.bbox, bounds);
    }
    let all = points.concat();
    let (first, last) = (all[0], all[all.len() - 1]);
    let ends = (g.entry.x, g.entry.y, g.exit.x, g.exit.y);
    Some(good && ends == (first.x, first.y, last.x, last.y))
}

/// F3 and F4 for one chunk.
fn chunk(r: &Reader, index: u32) -> Option<bool> {
    let bounds = r.chunk_at(index).ok()?.bbox;
    Some(decoded(r, index)?.into_iter().all(|p| holds(bounds, p)))
}

fn ring(r: &Reader, index: u32) -> Option<bool> {
    let ring = r.ring_at(index).ok()?;
    let (mut points, mut good) = (0, true);
    for op in ring.first..ring.first + u32::from(ring.count) {
        let g = r.group_at(r.op_at(op).ok()? & 0x7fff_ffff).ok()?;
        good &= covers(ring.bbox, g.bbox);
        points += u64::from(g.point_count);
    }
    Some(good && points == u64::from(ring.count) + u64::from(ring.point_count))
}

/// How many segments of a ring count: its points in ring order, round to the first, each only where it is another than the one before.
/// The ring's record is read by hand, since the original refuses one with a point count below 3.
fn segments(r: &Reader, file: &[u8], index: u32) -> Option<usize> {
    let [_, off, _] = entries(file).into_iter().find(|entry| entry[0] == RINGDIR).unwrap();
    let at = (off + 28 * index) as usize;
    let (first, count) = (word(file, at), word(file, at + 8) & 0xffff);
    let mut walk = Vec::new();
    for op in first..first + count {
        let op = r.op_at(op).ok()?;
        let g = r.group_at(op & 0x7fff_ffff).ok()?;
        let mut line = Vec::new();
        for c in g.first..g.first + u32::from(g.count) {
            line.extend(decoded(r, c)?.into_iter().map(|p| (p.x, p.y)));
        }
        if op > 0x7fff_ffff {
            line.reverse();
        }
        walk.append(&mut line);
    }
    walk.push(*walk.first()?);
    walk.dedup();
    Some(walk.len() - 1)
}

/// The fewest of any ring.
pub fn fewest_segments(file: &[u8]) -> Option<usize> {
    let r = Reader::open(Cow::Borrowed(file)).ok()?;
    let rings = (0..count(file, RINGDIR, 28)).map(|i| segments(&r, file, i));
    rings.collect::<Option<Vec<usize>>>()?.into_iter().min()
}

fn polygon(r: &Reader, index: u32) -> Option<bool> {
    let polygon = r.poly_at(index).ok()?;
    let mut rings = polygon.first..polygon.first + u32::from(polygon.count);
    Some(rings.all(|i| r.ring_at(i).is_ok_and(|ring| covers(polygon.bbox, ring.bbox))))
}

fn zone(r: &Reader, index: u32) -> Option<bool> {
    let zone = r.tz_at(index).ok()?;
    let mut polygons = zone.first..zone.first + u32::from(zone.count);
    Some(polygons.all(|i| r.poly_at(i).is_ok_and(|polygon| covers(zone.bbox, polygon.bbox))))
}

fn accepts(r: &Reader, file: &[u8]) -> bool {
    let all = |typ, width, good: fn(&Reader, u32) -> Option<bool>| {
        (0..count(file, typ, width)).all(|i| good(r, i).unwrap_or(false))
    };
    all(CHUNKDIR, 24, chunk)
        && all(GROUPDIR, 44, group)
        && all(RINGOPS, 4, |r, i| Some(r.op_at(i).is_ok()))
        && all(RINGDIR, 28, ring)
        && fewest_segments(file).is_some_and(|fewest| fewest >= 3)
        && all(POLYDIR, 24, polygon)
        && all(TZDIR, 24, zone)
}

/// Whether a ring's point count is below 3: then the original's record rule is another.
fn has_short_ring(file: &[u8]) -> bool {
    let section = entries(file).into_iter().find(|entry| entry[0] == RINGDIR).unwrap();
    let (from, to) = (section[1] as usize, (section[1] + section[2]) as usize);
    (from..to).step_by(28).any(|at| word(file, at + 4) < 3)
}

/// A file made at random is accepted where each of its rings has room; else it breaks rule 2 and no other. At the border there are many: rings of 0, 2, 3 and 4 segments.
#[test]
fn the_full_check_accepts_every_file_made_whose_rings_have_room() {
    let mut random = Random::new(3);
    let mut met = [0; 6];
    for i in 0..3000 {
        let draft = match i % 3 {
            0 => some(&mut random),
            1 => mostly_with_room(&mut random),
            _ => maps::mostly_with_room(&mut random),
        };
        let (file, fewest) = (draft.lay(), draft.fewest.unwrap());
        let said = full_check(&file).map_err(|broken| broken.rule);
        assert_eq!(said, if fewest >= 3 { Ok(()) } else { Err(2) });
        met[fewest.min(5)] += 1;
        // The original does not open a file with a group of one point.
        let Ok(r) = Reader::open(Cow::Borrowed(&file)) else { continue };
        assert_eq!(fewest_segments(&file), Some(fewest));
        assert!(accepts(&r, &file) == said.is_ok() || has_short_ring(&file));
    }
    assert_eq!(met[1], 0);
    assert!([0, 2, 3, 4, 5].iter().all(|&n| met[n] > 50), "{met:?}");
}

#[test]
fn damaged_files_are_accepted_by_both_or_by_none() {
    let mut random = Random::new(4);
    let (mut judged, mut without_room) = ([0; 2], 0);
    for _ in 0..500 {
        let file = mostly_with_room(&mut random).lay();
        let aim = Aim::at_geometry(&file);
        for _ in 0..10 {
            let damaged = aim.damage(&mut random, &file, 1);
            let Ok(r) = Reader::open(Cow::Borrowed(&damaged)) else { continue };
            if full_check(&damaged).is_err_and(|broken| broken.number != 47)
                || has_short_ring(&damaged)
            {
                continue;
            }
            let accepted = full_check(&damaged).is_ok();
            assert_eq!(accepts(&r, &damaged), accepted);
            judged[usize::from(accepted)] += 1;
            without_room += usize::from(fewest_segments(&damaged).is_some_and(|n| n < 3));
        }
    }
    assert!(judged[0] > 1000 && judged[1] > 100, "{judged:?}");
    assert!(without_room > 100, "{without_room}");
}

#[test]
fn a_broken_rule_is_found() {
    for (rule, file) in broken::files() {
        assert_eq!(full_check(&file).err().map_or(0, |broken| broken.rule), rule);
    }
}
