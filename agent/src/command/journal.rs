//! Writing a journal: an entry for each position on standard input.

use std::io::{self, BufReader, IsTerminal, Read, Write};
use std::path::Path;

use super::failure::{Failure, Status};
use super::found::Shown;
use super::lines::next_line;
use super::pieces::Pieces;
use super::point::Point;
use super::progress::Progress;
use super::words::{Request, Task};
use tzb::journal::Entry;
use tzb::{Index, Refusal};

/// Writes the entries. Where the file does not open, opening's refusal stands in every one.
pub fn write(request: &Request, out: &mut impl Write) -> Result<Status, Failure> {
    leave_a_terminal_alone()?;
    let opened = open(&request.file)?;
    let judged = judge(request, &opened)?;
    let ask = |Point { x, y }| match &opened {
        Ok(index) => index.journal(x, y),
        Err(refusal) => Entry::refused(x, y, *refusal),
    };
    let progress = Progress::new("positions");
    let input = io::stdin().lock();
    let written = match request.binary {
        true => write_all(of_bytes(input), ask, progress, out),
        false => write_all(of_lines(input), ask, progress, out),
    }?;
    Ok(written.max(judged))
}

/// Entries are no text: a terminal would show nonsense, or be steered by it.
fn leave_a_terminal_alone() -> Result<(), Failure> {
    if !io::stdout().is_terminal() {
        return Ok(());
    }
    let why = "entries are bytes, and standard output is a terminal: \
               write them to a file, or show them by '| tzb show-journal -'";
    Err(Failure::Usage(Some(Task::Journal), why.to_string()))
}

/// Entries are asked without stripes, so none are built.
fn open(path: &Path) -> Result<Result<Index, Refusal>, Failure> {
    match super::read(path) {
        Ok(bytes) => Ok(Index::open_plain(bytes)),
        Err(Failure::Refused(_, refusal)) => Ok(Err(refusal)),
        Err(failure) => Err(failure),
    }
}

/// As for other runs of positions; a file that does not open is told too, and with `--check` it is refused.
fn judge(request: &Request, opened: &Result<Index, Refusal>) -> Result<Status, Failure> {
    match opened {
        Ok(index) => super::judge(request, index),
        Err(refusal) if request.checked => Err(Failure::Refused(request.file.clone(), *refusal)),
        Err(refusal) => {
            let name = request.file.to_string_lossy();
            super::say(&format_args!("{}: {refusal} Every entry has it.", Shown(&name)));
            Ok(Status::No)
        }
    }
}

/// The next position, or what to say where there should be one. None at the end.
type Next = Result<Option<Result<Point, String>>, Failure>;

fn of_lines<W: Write>(input: impl Read) -> impl FnMut(&mut W) -> Next {
    let mut input = BufReader::new(input);
    let mut line = Vec::new();
    let mut number = 0;
    move |out| {
        if !next_line(&mut input, &mut line, out)? {
            return Ok(None);
        }
        number += 1;
        let read = Point::read(&String::from_utf8_lossy(&line));
        Ok(Some(read.map_err(|why| format!("line {number}: {why}"))))
    }
}

fn of_bytes<W: Write>(input: impl Read) -> impl FnMut(&mut W) -> Next {
    let mut pieces = Pieces::new(input, Point::SIZE, Failure::Input);
    let mut number = 0;
    move |out| {
        let Some(piece) = pieces.next(out)? else { return Ok(None) };
        number += 1;
        let (length, size) = (piece.len(), Point::SIZE);
        let cut = || {
            format!(
                "position {number}: standard input ends within it, after {length} of {size} bytes"
            )
        };
        Ok(Some(Point::of_bytes(piece).ok_or_else(cut)))
    }
}

/// An entry for each position. What is no position is told on standard error, and has none.
fn write_all<W: Write>(
    mut next: impl FnMut(&mut W) -> Next,
    ask: impl Fn(Point) -> Entry,
    mut progress: Progress<impl Write>,
    out: &mut W,
) -> Result<Status, Failure> {
    let mut status = Status::Answered;
    let mut number = 0;
    while let Some(position) = next(out)? {
        number += 1;
        let met = match position {
            Ok(point) => put(&ask(point), out).map_err(Failure::Output)?,
            Err(why) => {
                progress.say(&why);
                Status::Mistaken
            }
        };
        status = status.max(met);
        progress.at(number);
    }
    Ok(status)
}

/// No zone is an answer here: the entry says so.
fn put(entry: &Entry, out: &mut impl Write) -> io::Result<Status> {
    out.write_all(&entry.to_bytes().map_err(io::Error::other)?)?;
    Ok(if entry.reason().is_some() { Status::No } else { Status::Answered })
}

#[cfg(test)]
mod tests {
    use super::*;
    use tzb::journal::ENTRY;

    /// The count is taken away before a message, and at the end.
    #[test]
    fn the_progress_of_a_long_input() {
        let lines = ["1 1\n".repeat(600), "east\n".to_string(), "1 1\n".repeat(300)].concat();
        let none = |Point { x, y }| Entry { x, y, answer: Ok(vec![]) };
        let (mut told, mut out) = (Vec::new(), Vec::new());
        let progress = Progress::of_test("positions", &mut told);
        let status = write_all(of_lines(lines.as_bytes()), none, progress, &mut out).unwrap();
        assert_eq!((status, out.len()), (Status::Mistaken, 900 * ENTRY));
        let told = String::from_utf8(told).unwrap();
        let (before, behind) = told.split_once("tzb: line 601: ").unwrap();
        assert_eq!(before, "\r256 positions\r512 positions\r\x1b[K");
        assert!(behind.ends_with("\n\r768 positions\r\x1b[K"), "{behind:?}");
    }
}
