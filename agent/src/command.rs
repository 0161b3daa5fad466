//! What the command does with the words it is given.

mod broken;
mod failure;
mod found;
mod help;
mod info;
mod journal;
mod lines;
mod map;
mod pieces;
mod point;
mod position;
mod progress;
mod show_journal;
mod words;
mod write_whole;

use std::ffi::OsString;
use std::fmt::Display;
use std::io::{self, BufReader, BufWriter, ErrorKind, Write};
use std::path::Path;
use std::process::ExitCode;

use broken::BrokenChunk;
use failure::{Failure, Status};
use found::{Found, Shown};
use position::Position;
use tzb::{Index, Refusal};
use words::{Request, Task, Wanted};

/// The rule of the full check that the points of every chunk can be read.
const EVERY_CHUNK_DECODES: u32 = 3;

/// Runs the command, and gives its exit status.
pub fn run(words: impl Iterator<Item = OsString>) -> ExitCode {
    let mut out = BufWriter::new(io::stdout().lock());
    let done = perform(words, &mut out).and_then(|status| {
        out.flush().map_err(Failure::Output)?;
        Ok(status)
    });
    match done {
        Ok(status) => status.into(),
        // Nobody reads on, as in `tzb names FILE | head -n 1`: that is no mistake.
        Err(Failure::Output(why)) if why.kind() == ErrorKind::BrokenPipe => ExitCode::SUCCESS,
        Err(failure) => {
            say(&failure);
            failure.status().into()
        }
    }
}

/// One line on standard error. Where that is closed there is nobody to tell.
fn say(what: &dyn Display) {
    say_to(&mut io::stderr(), what);
}

fn say_to(to: &mut impl Write, what: &dyn Display) {
    let _ = writeln!(to, "tzb: {what}");
}

fn perform(words: impl Iterator<Item = OsString>, out: &mut impl Write) -> Result<Status, Failure> {
    match words::read(words)? {
        Wanted::Help(task) => write!(out, "{}", help::text(task)),
        Wanted::Version => writeln!(out, "tzb {}", env!("CARGO_PKG_VERSION")),
        Wanted::Do(request) => return carry_out(&request, out),
    }
    .map_err(Failure::Output)?;
    Ok(Status::Answered)
}

fn carry_out(request: &Request, out: &mut impl Write) -> Result<Status, Failure> {
    match request.task {
        Task::Check => {
            let bytes = read(&request.file)?;
            check(&request.file, &bytes, out).map_err(Failure::Output)
        }
        Task::Journal => journal::write(request, out),
        Task::ShowJournal => show_journal::show(request, out),
        _ => ask_opened(request, out),
    }
}

/// The bytes of an index file.
fn read(path: &Path) -> Result<Vec<u8>, Failure> {
    tzb::read(path).map_err(|why| match why.downcast::<Refusal>() {
        Ok(refusal) => Failure::Refused(path.to_path_buf(), refusal),
        Err(why) => Failure::Unreadable(path.to_path_buf(), why),
    })
}

/// What is asked of an index that opens.
fn ask_opened(request: &Request, out: &mut impl Write) -> Result<Status, Failure> {
    let refused = |refusal| Failure::Refused(request.file.clone(), refusal);
    let bytes = read(&request.file)?;
    // Stripes are worth building for a run of positions. One position is answered sooner than they are built, and names and
    // maps make no use of them.
    let open = if request.many_positions() || request.task == Task::Info {
        Index::open
    } else {
        Index::open_plain
    };
    let index = open(bytes).map_err(refused)?;
    if let Some(which) = &request.zone {
        return map::draw(request, which, &index, out);
    }
    match request.task {
        Task::Names => {
            let all = Found::all(&index).map_err(refused)?;
            all.write_lines(out, request.numbered)
        }
        Task::Info => info::write(&index, out),
        _ => return ask(request, &index, out),
    }
    .map_err(Failure::Output)?;
    Ok(Status::Answered)
}

/// The zones of the position that was given, or of all those on standard input.
fn ask(request: &Request, index: &Index, out: &mut impl Write) -> Result<Status, Failure> {
    let found = |position| Found::at(index, request.task, position);
    let judged = judge(request, index)?;
    let asked = match request.position {
        Some(position) => {
            let refused = |refusal| Failure::Refused(request.file.clone(), refusal);
            let zones = found(position).map_err(refused)?;
            tell(&zones, position, request.numbered, out).map_err(Failure::Output)?
        }
        None => {
            let input = BufReader::new(io::stdin().lock());
            lines::answer(input, out, request.numbered, found)?
        }
    };
    Ok(asked.max(judged))
}

/// Makes the full check where it is asked for, and once before positions come from standard input. What it does not
/// accept is refused where it is asked for, and else told in a line.
fn judge(request: &Request, index: &Index) -> Result<Status, Failure> {
    if !request.checked && request.position.is_some() {
        return Ok(Status::Answered);
    }
    match tzb::full_check(index.file()) {
        Ok(()) => Ok(Status::Answered),
        Err(refusal) if request.checked => Err(Failure::Refused(request.file.clone(), refusal)),
        Err(refusal) => {
            let name = request.file.to_string_lossy();
            say(&format_args!("{}: not accepted: {refusal}", Shown(&name)));
            Ok(Status::No)
        }
    }
}

/// The zones of one position, a line each.
fn tell(
    found: &Found,
    position: Position,
    numbered: bool,
    out: &mut impl Write,
) -> io::Result<Status> {
    if found.status() == Status::No {
        say(&format_args!("no zone at {position}"));
    }
    found.write_lines(out, numbered)?;
    Ok(found.status())
}

/// The verdict of the full check is an answer too, so it goes to standard output either way.
fn check(path: &Path, bytes: &[u8], out: &mut impl Write) -> io::Result<Status> {
    let name = path.to_string_lossy();
    match tzb::full_check(bytes) {
        Ok(()) => {
            writeln!(out, "{}: accepted", Shown(&name))?;
            Ok(Status::Answered)
        }
        Err(refusal) => {
            writeln!(out, "{}: not accepted: {refusal}", Shown(&name))?;
            if refusal.rule() == Some(EVERY_CHUNK_DECODES) {
                tell_where(&name, bytes, out)?;
            }
            Ok(Status::No)
        }
    }
}

/// A line for the first chunk that cannot be read. It may be long in coming, so what stands before it is shown at once.
fn tell_where(name: &str, bytes: &[u8], out: &mut impl Write) -> io::Result<()> {
    out.flush()?;
    // The full check has opened it before.
    let opened = Index::open_plain(bytes).ok();
    match opened.and_then(|index| BrokenChunk::first(&index)) {
        Some(broken) => writeln!(out, "{}: {broken}", Shown(name)),
        None => Ok(()),
    }
}
