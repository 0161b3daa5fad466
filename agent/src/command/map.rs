//! A zone as GeoJSON: which zone it is, and where the text goes.

use std::io::{self, ErrorKind, Write};
use std::path::Path;

use super::failure::{Failure, Status};
use super::words::Request;
use super::write_whole::write_whole;
use tzb::{Index, Refusal};

/// The zone that is to be drawn, as a user names it.
#[derive(Clone, Debug, PartialEq)]
pub enum Which {
    Number(u32),
    Name(String),
}

/// The refusal of a zone number that is too large.
const NO_SUCH_ZONE: u32 = 45;

impl Which {
    /// Digits alone are a number, anything else is a name.
    pub fn read(text: &str) -> Self {
        if text.is_empty() || text.contains(|c: char| !c.is_ascii_digit()) {
            return Self::Name(text.to_string());
        }
        // What does not fit is past the last zone, as the greatest number is.
        Self::Number(text.parse().unwrap_or(u32::MAX))
    }

    /// The numbers of all zones that it can mean.
    fn numbers(&self, index: &Index) -> Result<Vec<u32>, Refusal> {
        let wanted = match self {
            Self::Number(number) => return Ok(vec![*number]),
            Self::Name(name) => name,
        };
        let names = index.names().collect::<Result<Vec<_>, _>>()?;
        let same = names.into_iter().zip(0..).filter(|(name, _)| name == wanted);
        Ok(same.map(|(_, number)| number).collect())
    }
}

/// Writes the zone, one line, to the file that was asked for or to standard output.
pub fn draw(
    request: &Request,
    which: &Which,
    index: &Index,
    out: &mut impl Write,
) -> Result<Status, Failure> {
    let text = text(&request.file, which, index)?;
    match &request.output {
        Some(path) => write_beside_the_index(path, &request.file, format!("{text}\n").as_bytes())
            .map_err(|why| Failure::Unwritable(path.clone(), why))?,
        None => writeln!(out, "{text}").map_err(Failure::Output)?,
    }
    Ok(Status::Answered)
}

/// What the file has wrong comes first, whatever zone is asked for.
fn text(file: &Path, which: &Which, index: &Index) -> Result<String, Failure> {
    let refused = |refusal| Failure::Refused(file.to_path_buf(), refusal);
    let no_zone = |why| Failure::NoSuchZone(file.to_path_buf(), why);
    match which.numbers(index).map_err(refused)?.as_slice() {
        [number] => index.map(*number).map_err(|refusal| match refusal.number() {
            NO_SUCH_ZONE => no_zone(past_the_last(refusal, index)),
            _ => refused(refusal),
        }),
        several => {
            tzb::full_check(index.file()).map_err(refused)?;
            Err(no_zone(not_one(which, several)))
        }
    }
}

fn past_the_last(refusal: Refusal, index: &Index) -> String {
    format!("{refusal} The last is {}.", index.zone_count().saturating_sub(1))
}

/// Of a name that no zone has, or several have.
fn not_one(which: &Which, several: &[u32]) -> String {
    let Which::Name(name) = which else { return String::new() };
    let numbers: Vec<String> = several.iter().map(u32::to_string).collect();
    match several.len() {
        0 => format!("no zone is named {name:?}: 'tzb names' lists the names"),
        count => format!("{count} zones are named {name:?}: ask by number, {}", numbers.join(", ")),
    }
}

/// The index itself is never written over.
fn write_beside_the_index(path: &Path, index: &Path, bytes: &[u8]) -> io::Result<()> {
    let whole = |path: &Path| path.canonicalize().ok();
    if whole(path).is_some_and(|there| Some(there) == whole(index)) {
        return Err(io::Error::new(ErrorKind::InvalidInput, "that is the index file itself"));
    }
    write_whole(path, bytes)
}

#[cfg(test)]
mod tests {
    use super::*;

    #[test]
    fn digits_are_a_number_and_all_else_is_a_name() {
        for (text, number) in [("0", 0), ("82", 82), ("0082", 82), ("99999999999", u32::MAX)] {
            assert_eq!(Which::read(text), Which::Number(number));
        }
        for text in ["", "Germany", "-1", "+1", "1.0", "1 2", "Brazil/Rio de Janeiro", "١"] {
            assert_eq!(Which::read(text), Which::Name(text.to_string()));
        }
    }
}
