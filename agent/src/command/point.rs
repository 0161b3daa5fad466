//! A position in whole hundred-thousandths of a degree, as a line or eight bytes have it.

use std::fmt;

use super::position::{NotAPosition, halves};

/// Longitude and latitude, times 100,000.
#[derive(Clone, Copy, Debug, PartialEq)]
pub struct Point {
    pub x: i32,
    pub y: i32,
}

/// How one is written.
const FORM: &str = "X Y or X,Y, in whole hundred-thousandths of a degree, as 868000 5011000";

impl Point {
    /// The size of its bytes.
    pub const SIZE: usize = 8;

    /// Reads `X Y` or `X,Y`, with blanks anywhere around the numbers.
    pub fn read(text: &str) -> Result<Self, NotAPosition> {
        let numbers = halves(text).and_then(|(x, y)| Some((x.parse().ok()?, y.parse().ok()?)));
        let (x, y) = numbers.ok_or_else(|| NotAPosition::new(text, FORM))?;
        Ok(Self { x, y })
    }

    /// Of its bytes, little-endian, x first. None where there are fewer.
    pub fn of_bytes(bytes: &[u8]) -> Option<Self> {
        let (x, rest) = bytes.split_first_chunk()?;
        let y = rest.first_chunk()?;
        Some(Self { x: i32::from_le_bytes(*x), y: i32::from_le_bytes(*y) })
    }
}

/// In degrees, digit for digit.
impl fmt::Display for Point {
    fn fmt(&self, f: &mut fmt::Formatter<'_>) -> fmt::Result {
        write!(f, "{} {}", Degrees(self.x), Degrees(self.y))
    }
}

struct Degrees(i32);

impl fmt::Display for Degrees {
    fn fmt(&self, f: &mut fmt::Formatter<'_>) -> fmt::Result {
        let sign = if self.0 < 0 { "-" } else { "" };
        let parts = self.0.unsigned_abs();
        write!(f, "{sign}{}.{:05}", parts / 100_000, parts % 100_000)
    }
}

#[cfg(test)]
mod tests {
    use super::*;

    #[test]
    fn reads_both_forms() {
        for text in ["868000 -5011000", "868000,-5011000", " +868000\t, -5011000 \r"] {
            assert_eq!(Point::read(text), Ok(Point { x: 868_000, y: -5_011_000 }), "{text:?}");
        }
        let far = Point { x: i32::MAX, y: i32::MIN };
        assert_eq!(Point::read("2147483647 -2147483648"), Ok(far));
        let refused =
            ["", "1", "1,", "1 2 3", "8.68 50.11", "1e5 0", "0x1 0", "2147483648 0", "one two"];
        for text in refused {
            let told = Point::read(text).unwrap_err().to_string();
            assert!(told.starts_with(&format!("{text:?} is no position: X Y or X,Y, ")), "{told}");
        }
    }

    #[test]
    fn reads_bytes() {
        let bytes = [1, 0, 0, 0, 255, 255, 255, 255];
        assert_eq!(bytes.len(), Point::SIZE);
        assert_eq!(Point::of_bytes(&bytes), Some(Point { x: 1, y: -1 }));
        assert_eq!(Point::of_bytes(&bytes[..7]), None);
    }

    #[test]
    fn in_degrees() {
        let shown = |x, y| Point { x, y }.to_string();
        assert_eq!(shown(868_000, 5_011_000), "8.68000 50.11000");
        assert_eq!(shown(1, -1), "0.00001 -0.00001");
        assert_eq!(shown(0, -99_999), "0.00000 -0.99999");
        assert_eq!(shown(-18_000_000, 9_000_000), "-180.00000 90.00000");
        assert_eq!(shown(i32::MIN, i32::MAX), "-21474.83648 21474.83647");
    }
}
