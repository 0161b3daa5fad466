//! The text of a zone read back, by a definition of decimals: `[-]digits.ddddd` is a whole number of hundred-thousandths.
//! Nothing but what may be written is read: no spaces, no leading zeros but the one, no minus before zero, no empty list.

use super::Polygon;
use crate::rules::records::Place;

/// The polygons, or none where the text is not of that form.
pub fn read(text: &str) -> Option<Vec<Polygon>> {
    let mut rest = Rest(text);
    rest.word(r#"{"type":"MultiPolygon","coordinates":"#)?;
    let polygons = rest.list(|rest| rest.list(|rest| rest.list(Rest::position)))?;
    rest.word("}")?;
    rest.0.is_empty().then_some(polygons)
}

/// What is left of a text.
struct Rest<'a>(&'a str);

impl<'a> Rest<'a> {
    /// These letters stand next.
    fn word(&mut self, word: &str) -> Option<()> {
        self.0 = self.0.strip_prefix(word)?;
        Some(())
    }

    /// One or more, with commas between them.
    fn list<T>(&mut self, one: impl Fn(&mut Self) -> Option<T>) -> Option<Vec<T>> {
        self.word("[")?;
        let mut out = vec![one(self)?];
        while self.word(",").is_some() {
            out.push(one(self)?);
        }
        self.word("]")?;
        Some(out)
    }

    fn position(&mut self) -> Option<Place> {
        self.word("[")?;
        let x = self.decimal()?;
        self.word(",")?;
        let y = self.decimal()?;
        self.word("]")?;
        Some((x, y))
    }

    fn digits(&mut self) -> &'a str {
        let end = self.0.find(|c: char| !c.is_ascii_digit()).unwrap_or(self.0.len());
        let (digits, rest) = self.0.split_at(end);
        self.0 = rest;
        digits
    }

    fn decimal(&mut self) -> Option<i64> {
        let below_zero = self.word("-").is_some();
        let whole = self.digits();
        self.word(".")?;
        let part = self.digits();
        let n: i64 = format!("{whole}{part}").parse().ok()?;
        let leads = whole == "0" || !whole.is_empty() && !whole.starts_with('0');
        let fits = leads && part.len() == 5 && !(below_zero && n == 0);
        fits.then_some(if below_zero { -n } else { n })
    }
}

#[cfg(test)]
mod tests {
    use super::{Rest, read};

    fn decimal(text: &str) -> Option<i64> {
        let mut rest = Rest(text);
        rest.decimal().filter(|_| rest.0.is_empty())
    }

    #[test]
    fn decimals() {
        let read = ["0.00000", "0.00001", "-0.00001", "10.00000", "-180.00000", "1.02030"];
        let numbers = [0, 1, -1, 1_000_000, -18_000_000, 102_030];
        assert_eq!(read.map(decimal), numbers.map(Some));
        for other in [
            "",
            "-",
            ".",
            "0",
            "1.",
            "0.0000",
            "0.000000",
            ".00000",
            "-0.00000",
            "00.00000",
            "01.00000",
            "-01.00000",
            "+1.00000",
            " 1.00000",
            "1.00000 ",
            "--1.00000",
            "1,00000",
            "1.0000a",
            "1e0.00000",
            "1.00000.",
        ] {
            assert_eq!(decimal(other), None, "{other:?}");
        }
    }

    #[test]
    fn lists() {
        let of = |list: &str| read(&format!(r#"{{"type":"MultiPolygon","coordinates":{list}}}"#));
        let p = "[0.00000,0.00001]";
        assert_eq!(of(&format!("[[[{p}]]]")), Some(vec![vec![vec![(0, 1)]]]));
        let two = Some(vec![vec![vec![(0, 1), (0, 1)], vec![(0, 1)]], vec![vec![(0, 1)]]]);
        assert_eq!(of(&format!("[[[{p},{p}],[{p}]],[[{p}]]]")), two);
        for other in ["[]", "[[]]", "[[[]]]", "[[[[]]]]", "[[[[0.00000]]]]"] {
            assert_eq!(of(other), None, "{other}");
        }
        for other in ["[[[P,]]]", "[[[P P]]]", "[[[P]]", "[[[P]]]]", " [[[P]]]", "[[[P]] ]"] {
            assert_eq!(of(&other.replace('P', p)), None, "{other}");
        }
        assert_eq!(read(""), None);
        assert_eq!(read(r#"{"type":"MultiPolygon","coordinates":[[[[0.00000,0.00001]]]]"#), None);
    }
}
