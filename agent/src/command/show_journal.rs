//! A journal in words, a line for each entry.

use std::fs::File;
use std::io::{self, Read, Write};
use std::path::Path;

use super::failure::{Failure, Status};
use super::found::{Shown, write_zone};
use super::pieces::Pieces;
use super::point::Point;
use super::progress::Progress;
use super::words::Request;
use tzb::journal::{ENTRY, Entry, PLACES};
use tzb::{Index, Refusal};

/// The reason of a position that is in more zones than an entry has places.
const TOO_MANY: u32 = 46;

/// Writes the journal in words.
pub fn show(request: &Request, out: &mut impl Write) -> Result<Status, Failure> {
    let index = request.index.as_deref().map(open_index).transpose()?;
    let (name, pieces) = open_journal(&request.file)?;
    let line = |bytes: &[u8], out: &mut _| write_line(bytes, index.as_ref(), request.numbered, out);
    show_all(&name, pieces, line, Progress::new("entries"), out)
}

/// A line for each entry: an empty one for what is none. That is told on standard error, with its place.
fn show_all<W: Write>(
    name: &str,
    mut pieces: Pieces<impl Read>,
    line: impl Fn(&[u8], &mut W) -> io::Result<Option<String>>,
    mut progress: Progress<impl Write>,
    out: &mut W,
) -> Result<Status, Failure> {
    let mut status = Status::Answered;
    let mut number: u64 = 0;
    while let Some(bytes) = pieces.next(out)? {
        let place = number * ENTRY as u64;
        number += 1;
        if let Some(why) = line(bytes, out).map_err(Failure::Output)? {
            progress.say(&format_args!("{name}: entry {number}, at byte {place}: {why}"));
            status = Status::No;
        }
        progress.at(number);
    }
    Ok(status)
}

/// The index that the names are from. No position is asked of it.
fn open_index(path: &Path) -> Result<Index, Failure> {
    let refused = |refusal| Failure::Refused(path.to_path_buf(), refusal);
    Index::open_plain(super::read(path)?).map_err(refused)
}

/// The journal, and what it is called. A minus stands for standard input.
fn open_journal(path: &Path) -> Result<(String, Pieces<Box<dyn Read>>), Failure> {
    if path.as_os_str() == "-" {
        let input: Box<dyn Read> = Box::new(io::stdin().lock());
        return Ok(("standard input".to_string(), Pieces::new(input, ENTRY, Failure::Input)));
    }
    let own = path.to_path_buf();
    let unreadable = move |why| Failure::Unreadable(own.clone(), why);
    let file: Box<dyn Read> = Box::new(File::open(path).map_err(&unreadable)?);
    let name = Shown(&path.to_string_lossy()).to_string();
    Ok((name, Pieces::new(file, ENTRY, unreadable)))
}

/// The line of one entry, and what to say where something is missing in it.
fn write_line(
    bytes: &[u8],
    index: Option<&Index>,
    numbered: bool,
    out: &mut impl Write,
) -> io::Result<Option<String>> {
    let entry = match Entry::read(bytes) {
        Ok(entry) => entry,
        Err(refusal) => {
            writeln!(out)?;
            return Ok(Some(why_none(refusal, bytes.len())));
        }
    };
    write!(out, "{}\t", Point { x: entry.x, y: entry.y })?;
    let mut missing = None;
    match &entry.answer {
        Ok(zones) if zones.is_empty() => write!(out, "no zone")?,
        Ok(zones) => missing = write_zones(zones, index, numbered, out)?,
        Err(refusal) => write_reason(*refusal, out)?,
    }
    writeln!(out)?;
    Ok(missing)
}

/// By name where there is an index, else by number; with tabs between. One that the index has no name for is told.
fn write_zones(
    zones: &[u32],
    index: Option<&Index>,
    numbered: bool,
    out: &mut impl Write,
) -> io::Result<Option<String>> {
    let mut missing = None;
    for (place, &zone) in zones.iter().enumerate() {
        if place > 0 {
            write!(out, "\t")?;
        }
        match index.map(|index| index.name(zone)) {
            Some(Ok(name)) => write_zone(out, &(zone, name), numbered)?,
            Some(Err(refusal)) => {
                write_zone(out, &(zone, &zone.to_string()), numbered)?;
                missing = missing.or(Some(format!("zone {zone} of the index: {refusal}")));
            }
            None => write!(out, "{zone}")?,
        }
    }
    Ok(missing)
}

/// The refusal of bytes that are no entry. Its own sentence speaks of writing, and of other places.
fn why_none(refusal: Refusal, length: usize) -> String {
    let number = refusal.number();
    if length == ENTRY {
        format!("refusal {number}: The bytes are no entry.")
    } else {
        format!("refusal {number}: The journal ends within it, after {length} of {ENTRY} bytes.")
    }
}

/// The refusal that an entry has. 46's own sentence speaks of lent room.
fn write_reason(refusal: Refusal, out: &mut impl Write) -> io::Result<()> {
    match refusal.number() {
        TOO_MANY => {
            write!(out, "refusal {TOO_MANY}: The position is in more than {PLACES} zones.")
        }
        _ => write!(out, "{refusal}"),
    }
}

#[cfg(test)]
mod tests {
    use super::*;

    /// The count is taken away before a message, and at the end.
    #[test]
    fn the_progress_of_a_long_journal() {
        let entry = Entry { x: 1, y: 1, answer: Ok(vec![]) }.to_bytes().unwrap();
        let journal = [entry.repeat(600), vec![7; ENTRY], entry.repeat(300)].concat();
        let pieces = Pieces::new(journal.as_slice(), ENTRY, Failure::Input);
        let line = |bytes: &[u8], out: &mut _| write_line(bytes, None, false, out);
        let (mut told, mut out) = (Vec::new(), Vec::new());
        let progress = Progress::of_test("entries", &mut told);
        let status = show_all("a", pieces, line, progress, &mut out).unwrap();
        assert_eq!(status, Status::No);
        assert_eq!(String::from_utf8(out).unwrap().lines().count(), 901);
        let told = String::from_utf8(told).unwrap();
        let (before, behind) = told.split_once("tzb: a: entry 601, at byte 9600: ").unwrap();
        assert_eq!(before, "\r256 entries\r512 entries\r\x1b[K");
        assert!(behind.ends_with("\n\r768 entries\r\x1b[K"), "{behind:?}");
    }
}
