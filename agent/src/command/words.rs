//! The words of the command line.

use std::ffi::OsString;
use std::path::PathBuf;

use super::failure::Failure;
use super::map::Which;
use super::position::Position;

/// What the command can be asked for.
#[derive(Clone, Copy, Debug, PartialEq, Eq)]
pub enum Task {
    Zone,
    Zones,
    Check,
    Names,
    Info,
    Map,
    Journal,
    ShowJournal,
}

impl Task {
    pub const ALL: [Self; 8] = [
        Self::Zone,
        Self::Zones,
        Self::Check,
        Self::Names,
        Self::Info,
        Self::Map,
        Self::Journal,
        Self::ShowJournal,
    ];

    pub fn word(self) -> &'static str {
        match self {
            Self::Zone => "zone",
            Self::Zones => "zones",
            Self::Check => "check",
            Self::Names => "names",
            Self::Info => "info",
            Self::Map => "map",
            Self::Journal => "journal",
            Self::ShowJournal => "show-journal",
        }
    }

    /// Whether one position can stand on the command line.
    fn takes_a_position(self) -> bool {
        matches!(self, Self::Zone | Self::Zones)
    }

    /// Whether positions come from standard input.
    fn takes_positions(self) -> bool {
        self.takes_a_position() || self == Self::Journal
    }

    fn takes_a_zone(self) -> bool {
        self == Self::Map
    }

    fn takes_a_journal(self) -> bool {
        self == Self::ShowJournal
    }

    /// Whether it writes names of zones.
    fn takes_number(self) -> bool {
        matches!(self, Self::Zone | Self::Zones | Self::Names | Self::ShowJournal)
    }
}

#[derive(Debug, PartialEq)]
pub enum Wanted {
    Help(Option<Task>),
    Version,
    Do(Request),
}

#[derive(Debug, PartialEq)]
pub struct Request {
    pub task: Task,
    /// The index; for a task that takes one, the journal.
    pub file: PathBuf,
    /// Zone numbers are written before the names.
    pub numbered: bool,
    /// A file that the full check does not accept is refused.
    pub checked: bool,
    /// Positions on standard input are bytes, and no lines.
    pub binary: bool,
    /// For a task that takes one. None: positions come from standard input.
    pub position: Option<Position>,
    /// There for a task that takes one, and for no other.
    pub zone: Option<Which>,
    /// The index beside a journal.
    pub index: Option<PathBuf>,
    /// The file that is written. None: standard output.
    pub output: Option<PathBuf>,
}

impl Request {
    /// Whether it asks for zones at positions from standard input.
    pub fn many_positions(&self) -> bool {
        self.task.takes_a_position() && self.position.is_none()
    }
}

pub fn read(mut words: impl Iterator<Item = OsString>) -> Result<Wanted, Failure> {
    let unknown = |why| Err(Failure::Usage(None, why));
    let Some(first) = words.next() else {
        return unknown("what is to be done?".to_string());
    };
    match first.to_str() {
        Some("-h" | "--help" | "help") => return Ok(Wanted::Help(None)),
        Some("-V" | "--version") => return Ok(Wanted::Version),
        _ => {}
    }
    match Task::ALL.into_iter().find(|task| first == task.word()) {
        Some(task) => of_task(task, words),
        None => unknown(format!("{first:?} is not known")),
    }
}

fn of_task(task: Task, words: impl Iterator<Item = OsString>) -> Result<Wanted, Failure> {
    let usage = |why| Failure::Usage(Some(task), why);
    let mut numbered = false;
    let mut checked = false;
    let mut binary = false;
    let mut output = None;
    let mut output_is_next = false;
    let mut options = true;
    let mut plain = Vec::new();
    for word in words {
        match word.to_str().filter(|_| options) {
            Some("--") => options = false,
            Some("-h" | "--help") => return Ok(Wanted::Help(Some(task))),
            Some("-n" | "--number") if task.takes_number() => numbered = true,
            Some("-c" | "--check") if task.takes_positions() => checked = true,
            Some("-b" | "--binary") if task == Task::Journal => binary = true,
            Some("-o" | "--output") if task.takes_a_zone() => output_is_next = true,
            Some(text) if is_option(text) => {
                return Err(usage(format!("there is no option {word:?}")));
            }
            _ if output_is_next => {
                output_is_next = false;
                output = Some(PathBuf::from(word)).filter(|path| path.as_os_str() != "-");
            }
            _ => plain.push(word),
        }
    }
    let request = request(task, plain).map_err(usage)?;
    if output_is_next {
        return Err(usage("which file is to be written?".to_string()));
    }
    Ok(Wanted::Do(Request { numbered, checked, binary, output, ..request }))
}

/// A minus before a digit or a dot starts a number, and one alone stands for standard input.
fn is_option(text: &str) -> bool {
    let number = |rest: &str| rest.starts_with(|c: char| c.is_ascii_digit() || c == '.');
    text.strip_prefix('-').is_some_and(|rest| !rest.is_empty() && !number(rest))
}

/// The file, and what stands behind it.
fn request(task: Task, plain: Vec<OsString>) -> Result<Request, String> {
    let mut plain = plain.into_iter();
    let which = if task.takes_a_journal() { "which journal?" } else { "which index file?" };
    let file = plain.next().ok_or(which)?.into();
    let rest: Vec<OsString> = plain.collect();
    let text = rest.join(" ".as_ref());
    let text = text.to_string_lossy();
    let (mut position, mut zone, mut index) = (None, None, None);
    match rest.as_slice() {
        [] if task.takes_a_zone() => return Err("which zone, by number or by name?".to_string()),
        [] => {}
        _ if task.takes_a_zone() => zone = Some(Which::read(&text)),
        [one] if task.takes_a_journal() => index = Some(one.into()),
        [_, more, ..] if task.takes_a_journal() => return Err(format!("{more:?} is too much")),
        [one] if task.takes_positions() && one == "-" => {}
        [first, ..] if !task.takes_a_position() => return Err(format!("{first:?} is too much")),
        _ => position = Some(Position::read(&text).map_err(|why| why.to_string())?),
    }
    let (numbered, checked, binary, output) = (false, false, false, None);
    Ok(Request { task, file, numbered, checked, binary, position, zone, index, output })
}

#[cfg(test)]
mod tests {
    use super::*;

    fn read_line(line: &str) -> Result<Wanted, Failure> {
        read(line.split(' ').filter(|word| !word.is_empty()).map(OsString::from))
    }

    fn asked(line: &str) -> Request {
        match read_line(line) {
            Ok(Wanted::Do(request)) => request,
            other => panic!("{line:?} is {other:?}"),
        }
    }

    #[test]
    fn positions_in_every_form() {
        let rio = Some(Position { lng: -43.2, lat: -22.9 });
        for words in
            ["-43.2 -22.9", "-43.2,-22.9", "-43.2, -22.9", "-- -43.2 -22.9", "-n -43.2 -22.9"]
        {
            let request = asked(&format!("zone a.tzb {words}"));
            assert_eq!((request.task, request.position), (Task::Zone, rio), "{words:?}");
            assert_eq!(request.numbered, words.starts_with("-n"));
        }
        assert_eq!(asked("zones a.tzb -.5 0").position, Some(Position { lng: -0.5, lat: 0.0 }));
        for words in ["zone a.tzb", "zone a.tzb -", "zones -n a.tzb"] {
            assert_eq!(asked(words).position, None, "{words:?}");
            assert!(asked(words).many_positions(), "{words:?}");
        }
        for words in
            ["zone a.tzb 1 2", "zones a.tzb 1,2", "info a.tzb", "names a.tzb", "map a.tzb 8"]
        {
            assert!(!asked(words).many_positions(), "{words:?}");
        }
    }

    #[test]
    fn options_stand_anywhere_and_end_at_two_dashes() {
        assert!(asked("names --number a.tzb").numbered);
        assert!(asked("zones a.tzb 1 2 -n").numbered);
        let both = asked("zone --check a.tzb -n 1 2");
        assert!(both.checked && both.numbered);
        assert!(asked("zones a.tzb -c").checked && !asked("zones a.tzb").checked);
        assert_eq!(asked("info -- --help").file, PathBuf::from("--help"));
        assert_eq!(read_line("zone a.tzb --help").unwrap(), Wanted::Help(Some(Task::Zone)));
        assert_eq!(read_line("-h").unwrap(), Wanted::Help(None));
        assert_eq!(read_line("--version").unwrap(), Wanted::Version);
    }

    #[test]
    fn a_zone_by_number_or_by_name() {
        let rio = Which::Name("Brazil/Rio de Janeiro".to_string());
        assert_eq!(asked("map a.tzb 82").zone, Some(Which::Number(82)));
        assert_eq!(asked("map a.tzb Brazil/Rio de Janeiro").zone, Some(rio));
        assert_eq!(asked("map a.tzb -- -x").zone, Some(Which::Name("-x".to_string())));
        assert_eq!(asked("zone a.tzb 1 2").zone, None);
    }

    #[test]
    fn the_file_that_is_written() {
        let to = |line| asked(line).output;
        let path = Some(PathBuf::from("b.json"));
        for line in
            ["map a.tzb 8 --output b.json", "map -o b.json a.tzb 8", "map a.tzb -o b.json 8"]
        {
            assert_eq!((to(line), asked(line).zone), (path.clone(), Some(Which::Number(8))));
        }
        assert_eq!(to("map a.tzb 8 -o -- -b"), Some(PathBuf::from("-b")));
        assert_eq!((to("map a.tzb 8"), to("map a.tzb 8 -o -")), (None, None));
    }

    #[test]
    fn positions_of_a_journal() {
        for words in ["journal a.tzb", "journal a.tzb -", "journal -c a.tzb", "journal a.tzb -b"] {
            let request = asked(words);
            assert_eq!((request.task, request.position), (Task::Journal, None));
            assert_eq!(request.file, PathBuf::from("a.tzb"));
            assert_eq!(request.checked, words.contains("-c"), "{words:?}");
            assert_eq!(request.binary, words.contains("-b"), "{words:?}");
            assert!(!request.many_positions());
        }
        assert!(asked("journal --binary --check a.tzb").binary);
    }

    #[test]
    fn a_journal_and_its_index() {
        let shown = |line| {
            let request = asked(line);
            (request.file, request.index, request.numbered)
        };
        let path = PathBuf::from;
        assert_eq!(shown("show-journal a"), (path("a"), None, false));
        assert_eq!(shown("show-journal - -n b"), (path("-"), Some(path("b")), true));
        assert_eq!(shown("show-journal -- -a -b"), (path("-a"), Some(path("-b")), false));
    }

    #[test]
    fn what_is_not_understood() {
        let lines = [
            "",
            "--nothing",
            "sone a.tzb 1 2",
            "zone",
            "zone --nothing a.tzb 1 2",
            "zone a.tzb 1",
            "zone a.tzb 1 2 3",
            "zone a.tzb nan 2",
            "zone a.tzb -inf 2",
            "zone a.tzb - 2",
            "check",
            "check a.tzb b.tzb",
            "check -n a.tzb",
            "info -n a.tzb",
            "names --check a.tzb",
            "check --check a.tzb",
            "names a.tzb 1 2",
            "map",
            "map a.tzb",
            "map -n a.tzb 8",
            "map --check a.tzb 8",
            "map a.tzb 8 --output",
            "map a.tzb -o 8",
            "map a.tzb 8 -o -b",
            "names a.tzb -o b.json",
            "journal",
            "journal a.tzb 1 2",
            "journal a.tzb b.tzb",
            "journal a.tzb - -",
            "journal -n a.tzb",
            "journal a.tzb -o b",
            "zone -b a.tzb",
            "show-journal",
            "show-journal a b c",
            "show-journal -b a",
            "show-journal -c a b",
        ];
        for line in lines {
            assert!(matches!(read_line(line), Err(Failure::Usage(..))), "{line:?}");
        }
    }
}
