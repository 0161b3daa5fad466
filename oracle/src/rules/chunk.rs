//! Chunk bytes: zigzag LEB128 numbers, points, decoding.

use super::records::{Chunk, Place};
use super::{Opened, POINTS, Placed, Refusal, Said, need};
use crate::bytes::{Reading, refused};

/// The number at a place, and how many bytes it has. At a place past the end no byte is left.
pub fn reading(data: &[u8], at: usize) -> Reading {
    let left = data.get(at..).unwrap_or_default();
    let mut rest = Bytes { left, place: at as u64 };
    match rest.number() {
        Ok(n) => Reading { number: n.value as i32, length: (left.len() - rest.left.len()) as i32 },
        Err(refusal) => refused(refusal.number as i32),
    }
}

/// What is left of a chunk's bytes, and the place of the first of them in the file; of none, where the chunk ends.
pub struct Bytes<'a> {
    left: &'a [u8],
    place: u64,
}

/// A number that was read, and the place of its first byte.
struct Number {
    value: i64,
    place: u64,
}

/// The refusal is about what starts at that place.
fn need_at(place: u64, number: u32, holds: bool) -> Placed<()> {
    if holds { Ok(()) } else { Err(Refusal { number, place: Some(place) }) }
}

impl Bytes<'_> {
    fn byte(&mut self) -> Option<u8> {
        let (&byte, rest) = self.left.split_first()?;
        *self = Bytes { left: rest, place: self.place + 1 };
        Some(byte)
    }

    /// 38 to 40, by "the place in the file of the first byte of the number that was being read".
    fn number(&mut self) -> Placed<Number> {
        let place = self.place;
        let mut sum = 0;
        for i in 0..5 {
            let byte = self.byte();
            need_at(place, 38, byte.is_some())?;
            let byte = byte.unwrap();
            need_at(place, 40, i < 4 || byte & 0xf0 == 0)?;
            sum += u64::from(byte % 128) << (7 * i);
            if byte < 128 {
                need_at(place, 39, i == 0 || byte != 0)?;
                break;
            }
        }
        let half = (sum / 2) as i64;
        Ok(Number { value: if sum % 2 == 0 { half } else { -half - 1 }, place })
    }

    /// The first point, whole.
    pub fn first(&mut self) -> Placed<Place> {
        let (x, y) = (self.number()?, self.number()?);
        in_domain((x.value, y.value), &y)
    }

    /// The point after this one. Both numbers are read before the sums are looked at; "41 names the number whose sum left i32".
    pub fn next(&mut self, (x, y): Place) -> Placed<Place> {
        let (dx, dy) = (self.number()?, self.number()?);
        let (x, y) = (x + dx.value, y + dy.value);
        for (sum, number) in [(x, &dx), (y, &dy)] {
            need_at(number.place, 41, i32::try_from(sum).is_ok())?;
        }
        in_domain((x, y), &dy)
    }

    /// "For 43 of the first byte left over".
    pub fn end(&self) -> Placed<()> {
        need_at(self.place, 43, self.left.is_empty())
    }
}

/// 42 names "the y number", also where x alone is outside.
fn in_domain((x, y): Place, number: &Number) -> Placed<Place> {
    let is = x.abs() <= 18_000_000 && y.abs() <= 9_000_000;
    need_at(number.place, 42, is)?;
    Ok((x, y))
}

impl<'a> Opened<'a> {
    /// From its offset up to the next chunk's, the last one's up to the end of POINTS: 37, then 44 for the whole range.
    pub fn chunk_bytes(&self, index: u64, chunk: Chunk, next: Option<Chunk>) -> Said<Bytes<'a>> {
        let points = self.section(POINTS);
        let end = match next {
            Some(next) => points.off + next.offset,
            None if index + 1 < self.chunks() => points.off + self.chunk_at(index + 1)?.offset,
            None => points.end(),
        };
        let start = points.off + chunk.offset;
        need(37, start < end)?;
        need(44, end <= self.file.len() as u64)?;
        Ok(Bytes { left: &self.file[start as usize..end as usize], place: start })
    }

    /// A chunk decodes into lent places, two a point: 34, 32 for a count of 0, 46 for room, then 37 and the rest.
    pub fn decode(&self, index: u64, room: u64) -> Placed<Vec<i64>> {
        let chunk = self.chunk_at(index)?;
        need(32, chunk.count > 0)?;
        need(46, 2 * chunk.count <= room)?;
        let points = self.points_of(index, chunk)?;
        Ok(points.into_iter().flat_map(|(x, y)| [x, y]).collect())
    }

    fn points_of(&self, index: u64, chunk: Chunk) -> Placed<Vec<Place>> {
        let mut bytes = self.chunk_bytes(index, chunk, None)?;
        let mut out = vec![bytes.first()?];
        for _ in 1..chunk.count {
            out.push(bytes.next(out[out.len() - 1])?);
        }
        bytes.end()?;
        Ok(out)
    }

    /// The points up to the first that is refused, to know where a question tells.
    pub fn readable(&self, index: u64) -> Vec<Place> {
        let mut out = Vec::new();
        let Ok(chunk) = self.chunk_at(index) else { return out };
        let Ok(mut bytes) = self.chunk_bytes(index, chunk, None) else { return out };
        let mut next = bytes.first();
        while let Ok(point) = next
            && (out.len() as u64) < chunk.count
        {
            out.push(point);
            next = bytes.next(point);
        }
        out
    }

    /// All points of a chunk.
    pub fn points(&self, index: u64) -> Placed<Vec<Place>> {
        let chunk = self.chunk_at(index)?;
        need(32, chunk.count > 0)?;
        self.points_of(index, chunk)
    }
}

#[cfg(test)]
mod tests {
    use super::reading;
    use crate::bytes::{OF_NUMBERS, Reading, all, refused};
    use crate::rules::{Refusal, open};
    use crate::{file, original};

    #[test]
    fn one_and_two_bytes_by_hand() {
        for (bytes, number, length) in [
            (&[0x00][..], 0, 1),
            (&[0x7f], -64, 1),
            (&[0x01, 0x01], -1, 1),
            (&[0x80, 0x01], 64, 2),
            (&[0xff, 0x7f], -8192, 2),
            (&[0xfe, 0x7f, 0x00], 8191, 2),
        ] {
            assert_eq!(reading(bytes, 0), Reading { number, length });
        }
        assert_eq!(reading(&[], 0), refused(38));
        assert_eq!(reading(&[0x80], 0), refused(38));
        assert_eq!(reading(&[0x80, 0x00], 0), refused(39));
        assert_eq!(reading(&[0x80, 0x01], 3), refused(38));
    }

    /// Of files that are told by hand.
    #[test]
    fn a_refusal_has_its_place() {
        for (i, (said, file)) in file::chunks().into_iter().enumerate() {
            let opened = open(&file, &[]).ok().unwrap();
            assert_eq!(opened.decode(0, u64::MAX).map(|_| ()), said, "chunk {i}");
            assert_eq!(opened.points(0).map(|_| ()), said, "chunk {i}");
            let too_short = Refusal { number: 46, place: None };
            assert_eq!(opened.decode(0, 3), Err(too_short), "chunk {i}");
        }
    }

    #[test]
    fn boundary_bytes_are_read_as_the_original_does() {
        for length in 0..=5 {
            all(&OF_NUMBERS, length, &mut |b| {
                (0..=length).for_each(|at| assert_eq!(reading(b, at), original::reading(b, at)));
            });
        }
    }
}
