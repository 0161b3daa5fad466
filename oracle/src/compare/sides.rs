//! One file opened on all sides: by document 01's rules, without and with the original's departures, by the original and by the port.

use crate::known::ALL;
use crate::rules::{self, Opened, Said};
use crate::{original, port};

pub struct Sides<'a> {
    pub document: Said<Opened<'a>>,
    pub departed: Said<Opened<'a>>,
    pub original: Said<original::opening::Opened<'a>>,
    pub port: Said<port::opening::Opened<'a>>,
}

/// A file's record, by the rules and by the port: it can be asked with any bytes.
pub struct Record<'a> {
    pub file: &'a [u8],
    pub document: Opened<'a>,
    pub port: port::opening::Opened<'a>,
}

/// The refusal's number, 0 where the file opens.
fn number<T>(said: &Said<T>) -> u32 {
    said.as_ref().err().copied().unwrap_or(0)
}

impl<'a> Sides<'a> {
    pub fn open(file: &'a [u8]) -> Self {
        let [document, departed] = rules::open_both(file, &ALL);
        Self {
            document,
            departed,
            original: original::opening::open(file),
            port: port::opening::open(file),
        }
    }

    /// Whether the original and the port open, or refuse, as the rules say of each; else what differs.
    pub fn agree(&self) -> Result<(), String> {
        let same = |who: &str, side: u32, rules: u32| {
            let text = || format!("opening: {who} says {side}, where the rules say {rules}");
            if side == rules { Ok(()) } else { Err(text()) }
        };
        same("the original", number(&self.original), number(&self.departed))?;
        same("the port", number(&self.port), number(&self.document))
    }

    /// Document 01's number and the original's.
    pub fn numbers(&self) -> [u32; 2] {
        [number(&self.document), number(&self.original)]
    }

    /// None where document 01 does not open the file.
    pub fn record(&self, file: &'a [u8]) -> Option<Record<'a>> {
        let (Ok(document), Ok(port)) = (&self.document, &self.port) else { return None };
        Some(Record { file, document: *document, port: port.asked_with(file) })
    }
}

#[cfg(test)]
mod tests {
    use super::Sides;
    use crate::file::{bases, broken, repair};
    use crate::port::opening::CHANGED;

    /// A side that opens what the rules refuse, refuses what they open, or says another number.
    #[test]
    fn a_side_that_opens_otherwise_is_found_out() {
        let good = broken::whole();
        let mut bad = good.clone();
        bad[48] = 1;
        repair(&mut bad);
        assert!(Sides::open(&good).agree().is_ok() && Sides::open(&bad).agree().is_ok());
        assert!(Sides { port: Sides::open(&bad).port, ..Sides::open(&good) }.agree().is_err());
        assert!(Sides { port: Sides::open(&good).port, ..Sides::open(&bad) }.agree().is_err());
        assert!(Sides { port: Err(4), ..Sides::open(&bad) }.agree().is_err());
        assert!(Sides { port: Err(CHANGED), ..Sides::open(&bad) }.agree().is_err());
        assert!(Sides { original: Err(4), ..Sides::open(&bad) }.agree().is_err());
    }

    #[test]
    fn sides_open_alike() {
        bases().iter().for_each(|base| assert!(Sides::open(base).agree().is_ok()));
    }
}
