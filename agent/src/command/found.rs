//! The zones that answer a question, and how they are written.

use std::fmt::{self, Write as _};
use std::io::{self, Write};

use super::failure::Status;
use super::position::Position;
use super::words::Task;
use tzb::{Index, Refusal};

/// Zones with their names, in the order in which they are written.
#[derive(Debug, Default)]
pub struct Found<'a>(Vec<(u32, &'a str)>);

impl<'a> Found<'a> {
    /// At a position: for `zones` all, else the one that the reader answers, if any.
    pub fn at(index: &'a Index, task: Task, position: Position) -> Result<Self, Refusal> {
        let Position { lng, lat } = position;
        let zones = match task {
            Task::Zones => index.zones(lng, lat)?,
            _ => index.zone(lng, lat)?.into_iter().collect(),
        };
        let named = zones.into_iter().map(|zone| Ok((zone, index.name(zone)?)));
        named.collect::<Result<_, _>>().map(Self)
    }

    /// All that the index has, by number.
    pub fn all(index: &'a Index) -> Result<Self, Refusal> {
        let named = index.names().zip(0..).map(|(name, zone)| Ok((zone, name?)));
        named.collect::<Result<_, _>>().map(Self)
    }

    /// Whether a position has a zone.
    pub fn status(&self) -> Status {
        if self.0.is_empty() { Status::No } else { Status::Answered }
    }

    /// A line for each zone.
    pub fn write_lines(&self, out: &mut impl Write, numbered: bool) -> io::Result<()> {
        self.0.iter().try_for_each(|zone| {
            write_zone(out, zone, numbered)?;
            writeln!(out)
        })
    }

    /// One line for all, with tabs between; an empty line for none.
    pub fn write_line(&self, out: &mut impl Write, numbered: bool) -> io::Result<()> {
        for (place, zone) in self.0.iter().enumerate() {
            if place > 0 {
                write!(out, "\t")?;
            }
            write_zone(out, zone, numbered)?;
        }
        writeln!(out)
    }
}

/// A zone's name, with its number before it where that is wanted.
pub fn write_zone(out: &mut impl Write, zone: &(u32, &str), numbered: bool) -> io::Result<()> {
    let (number, name) = zone;
    if numbered {
        write!(out, "{number}\t")?;
    }
    write!(out, "{}", Shown(name))
}

/// A text from outside, on one line: control characters are written as `\u{a}`. So a name can break no line, and steer no
/// terminal.
pub struct Shown<'a>(pub &'a str);

impl fmt::Display for Shown<'_> {
    fn fmt(&self, f: &mut fmt::Formatter<'_>) -> fmt::Result {
        for c in self.0.chars() {
            if c.is_control() {
                write!(f, "{}", c.escape_unicode())?;
            } else {
                f.write_char(c)?;
            }
        }
        Ok(())
    }
}

#[cfg(test)]
mod tests {
    use super::*;

    fn written(zones: &[(u32, &str)], numbered: bool) -> [String; 2] {
        let found = Found(zones.to_vec());
        let (mut lines, mut line) = (Vec::new(), Vec::new());
        found.write_lines(&mut lines, numbered).unwrap();
        found.write_line(&mut line, numbered).unwrap();
        [lines, line].map(|bytes| String::from_utf8(bytes).unwrap())
    }

    #[test]
    fn lines_and_line() {
        assert_eq!(written(&[], false), ["", "\n"]);
        assert_eq!(written(&[(3, "A")], false), ["A\n", "A\n"]);
        assert_eq!(written(&[(3, "A"), (1, "B c")], false), ["A\nB c\n", "A\tB c\n"]);
        assert_eq!(written(&[(3, "A"), (1, "B")], true), ["3\tA\n1\tB\n", "3\tA\t1\tB\n"]);
    }

    #[test]
    fn a_name_breaks_no_line() {
        assert_eq!(Shown("Åland/São Tomé").to_string(), "Åland/São Tomé");
        assert_eq!(Shown("a\nb\t\u{1b}[31m\u{9b}").to_string(), r"a\u{a}b\u{9}\u{1b}[31m\u{9b}");
    }
}
