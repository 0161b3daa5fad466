//! A position, as a user writes it: two numbers, longitude first.

use std::fmt;

/// Longitude and latitude in degrees, both finite.
#[derive(Clone, Copy, Debug, PartialEq)]
pub struct Position {
    pub lng: f64,
    pub lat: f64,
}

impl Position {
    /// Reads `LNG LAT` or `LNG,LAT`, with blanks anywhere around the numbers.
    ///
    /// `nan` and `inf` are no positions: where a value was lost, "no zone here" would be a wrong answer.
    pub fn read(text: &str) -> Result<Self, NotAPosition> {
        let refused = || NotAPosition::new(text, FORM);
        let (lng, lat) = halves(text).ok_or_else(refused)?;
        let number = |half: &str| half.parse().ok().filter(|n: &f64| n.is_finite());
        match (number(lng), number(lat)) {
            (Some(lng), Some(lat)) => Ok(Self { lng, lat }),
            _ => Err(refused()),
        }
    }

    /// Whether it is a place on the earth. Elsewhere there is no zone.
    fn in_range(self) -> bool {
        self.lng.abs() <= 180.0 && self.lat.abs() <= 90.0
    }
}

/// How a position is written.
const FORM: &str = "LNG LAT or LNG,LAT, in degrees, as 8.68 50.11";

/// What stands on either side of the comma, or of the blanks where there is no comma.
pub fn halves(text: &str) -> Option<(&str, &str)> {
    let text = text.trim();
    let (lng, lat) = text.split_once(',').or_else(|| text.split_once(char::is_whitespace))?;
    Some((lng.trim(), lat.trim()))
}

/// In degrees, with a word on the range where it is left.
impl fmt::Display for Position {
    fn fmt(&self, f: &mut fmt::Formatter<'_>) -> fmt::Result {
        write!(f, "{} {}", self.lng, self.lat)?;
        if !self.in_range() {
            write!(f, ": longitude goes from -180 to 180, latitude from -90 to 90")?;
        }
        Ok(())
    }
}

/// A text that is no position.
#[derive(Debug, PartialEq)]
pub struct NotAPosition {
    text: String,
    /// How one is written.
    form: &'static str,
}

impl NotAPosition {
    pub fn new(text: &str, form: &'static str) -> Self {
        Self { text: text.to_string(), form }
    }
}

impl fmt::Display for NotAPosition {
    fn fmt(&self, f: &mut fmt::Formatter<'_>) -> fmt::Result {
        let start: String = self.text.chars().take(60).collect();
        let dots = if start.len() < self.text.len() { " ..." } else { "" };
        write!(f, "{start:?}{dots} is no position: {}", self.form)
    }
}

#[cfg(test)]
mod tests {
    use super::*;

    #[test]
    fn reads_both_forms() {
        let frankfurt = Ok(Position { lng: 8.68, lat: 50.11 });
        for text in
            ["8.68 50.11", "8.68,50.11", " 8.68\t 50.11 \r", "8.68 , 50.11", "+8.68,5011e-2"]
        {
            assert_eq!(Position::read(text), frankfurt, "{text:?}");
        }
        let rio = Ok(Position { lng: -43.2, lat: -22.9 });
        assert_eq!(Position::read("-43.2 -22.9"), rio);
        assert_eq!(Position::read("-43.2,-22.9"), rio);
    }

    #[test]
    fn leaves_out_of_range_to_the_reader() {
        let far = Position::read("1e300 -91").unwrap();
        assert_eq!(far, Position { lng: 1e300, lat: -91.0 });
        assert!(far.to_string().contains("from -180 to 180"));
        assert_eq!(Position::read("-180 90").unwrap().to_string(), "-180 90");
    }

    #[test]
    fn refuses_what_is_no_position() {
        let refused = [
            "",
            " ",
            "8.68",
            "8.68,",
            ",50.11",
            "8.68 50.11 3",
            "8.68,50.11,3",
            "8.68,,50.11",
            "8,68 50,11",
            "east north",
            "8.68;50.11",
            "nan 50",
            "8 NaN",
            "inf 0",
            "0,-infinity",
            "1e999 0",
            "0x10 0",
            "8.68° 50.11°",
        ];
        for text in refused {
            assert_eq!(Position::read(text), Err(NotAPosition::new(text, FORM)), "{text:?}");
        }
    }

    #[test]
    fn shows_a_long_text_cut() {
        let shown = NotAPosition::new(&"é\u{1b}".repeat(1000), FORM).to_string();
        assert!(
            shown.len() < 500 && shown.contains(" ...") && !shown.contains('\u{1b}'),
            "{shown}"
        );
    }
}
