//! Positions from standard input, one a line, and their answers, one a line, in the same order.

use std::io::{BufRead, BufReader, Read, Write};

use super::broken::Told;
use super::failure::{Failure, Status};
use super::found::Found;
use super::position::Position;
use super::progress::Progress;
use tzb::Refusal;

/// Answers every line of the input by one line: a line that has no zone, is refused or is no position by an empty one.
/// The last two are told on standard error, with the number of the line.
pub fn answer<'a>(
    mut input: BufReader<impl Read>,
    out: &mut impl Write,
    numbered: bool,
    ask: impl Fn(Position) -> Result<Found<'a>, Refusal>,
) -> Result<Status, Failure> {
    let mut progress = Progress::new("positions");
    let mut status = Status::Answered;
    let mut line = Vec::new();
    let mut number = 0;
    while next_line(&mut input, &mut line, out)? {
        number += 1;
        let (found, met) = answer_line(&line, &ask).unwrap_or_else(|(why, met)| {
            progress.say(&format_args!("line {number}: {why}"));
            (Found::default(), met)
        });
        found.write_line(out, numbered).map_err(Failure::Output)?;
        status = status.max(met);
        progress.at(number);
    }
    Ok(status)
}

/// The zones of one line, or what to say of it; with the status.
fn answer_line<'a>(
    line: &[u8],
    ask: &impl Fn(Position) -> Result<Found<'a>, Refusal>,
) -> Result<(Found<'a>, Status), (String, Status)> {
    let text = String::from_utf8_lossy(line);
    let position = Position::read(&text).map_err(|why| (why.to_string(), Status::Mistaken))?;
    let found = ask(position).map_err(|refusal| (Told(&refusal).to_string(), Status::No))?;
    let status = found.status();
    Ok((found, status))
}

/// Reads a line, without its end. Whoever waits for answers gets them all before this waits for input.
pub fn next_line(
    input: &mut BufReader<impl Read>,
    line: &mut Vec<u8>,
    out: &mut impl Write,
) -> Result<bool, Failure> {
    if !input.buffer().contains(&b'\n') {
        out.flush().map_err(Failure::Output)?;
    }
    line.clear();
    input.read_until(b'\n', line).map_err(Failure::Input)?;
    let read = !line.is_empty();
    if line.last() == Some(&b'\n') {
        line.pop();
    }
    Ok(read)
}
