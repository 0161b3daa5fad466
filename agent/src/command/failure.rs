//! How the command ends: its exit status, and what goes wrong before there is an answer.

use std::fmt;
use std::io;
use std::path::PathBuf;
use std::process::ExitCode;

use super::broken::Told;
use super::found::Shown;
use super::words::Task;
use tzb::Refusal;

/// The exit status. Of several the greatest counts.
#[derive(Clone, Copy, Debug, PartialEq, Eq, PartialOrd, Ord)]
pub enum Status {
    /// 0: every position has a zone; the file is accepted; what was asked for is written.
    Answered,
    /// 1: a position has no zone, there is no such zone, or the reader refuses.
    No,
    /// 2: the words or a line are not understood, or something cannot be read or written.
    Mistaken,
}

impl From<Status> for ExitCode {
    fn from(status: Status) -> Self {
        ExitCode::from(status as u8)
    }
}

#[derive(Debug)]
pub enum Failure {
    /// The words of the command line are not understood.
    Usage(Option<Task>, String),
    /// The index file cannot be read.
    Unreadable(PathBuf, io::Error),
    /// The reader refuses.
    Refused(PathBuf, Refusal),
    /// The index has no zone of that number, or not one of that name.
    NoSuchZone(PathBuf, String),
    /// The file that was asked for cannot be written.
    Unwritable(PathBuf, io::Error),
    /// Standard input cannot be read.
    Input(io::Error),
    /// Standard output cannot be written.
    Output(io::Error),
}

impl Failure {
    pub fn status(&self) -> Status {
        match self {
            Self::Refused(..) | Self::NoSuchZone(..) => Status::No,
            _ => Status::Mistaken,
        }
    }
}

impl fmt::Display for Failure {
    fn fmt(&self, f: &mut fmt::Formatter<'_>) -> fmt::Result {
        match self {
            Self::Usage(None, why) => write!(f, "{why}\nTry 'tzb --help'."),
            Self::Usage(Some(task), why) => write!(f, "{why}\nTry 'tzb {} --help'.", task.word()),
            Self::Unreadable(file, why) | Self::Unwritable(file, why) => {
                write!(f, "{}: {why}", Shown(&file.to_string_lossy()))
            }
            Self::Refused(file, why) => {
                write!(f, "{}: {}", Shown(&file.to_string_lossy()), Told(why))
            }
            Self::NoSuchZone(file, why) => write!(f, "{}: {why}", Shown(&file.to_string_lossy())),
            Self::Input(why) => write!(f, "standard input: {why}"),
            Self::Output(why) => write!(f, "standard output: {why}"),
        }
    }
}
