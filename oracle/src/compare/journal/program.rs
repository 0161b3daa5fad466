//! The program `journal`: index files and positions go through it, and what it writes is what the export and the rules say. It is for
//! x86-64; under an emulator it is started as cargo starts one.

mod relatives;

use super::*;
use crate::compare::Tally;
use crate::port::journal::PORT;
use std::io::Write;
use std::path::Path;
use std::process::{Child, Command, Stdio};
use std::thread;

/// Where the program stands after 'rt run' in its folder, or 'rt ci'.
pub const PROGRAM: &str = concat!(env!("CARGO_MANIFEST_DIR"), "/../crates/journal/out/journal");
const SAMPLE: &str = concat!(env!("CARGO_MANIFEST_DIR"), "/../sample/real-ne.tzb");

/// The index that it is given.
const INDEX: &str = "target/journal-program.tzb";
/// An index has so many bytes at the most.
const LONGEST: usize = 65_536;
/// So many random files, and so many positions for each.
const FILES: usize = 60;
const POSITIONS: usize = 60;
/// More positions than any buffer holds.
const LONG: usize = 30_000;
/// Opening refuses with the numbers from 1 up to this one.
const NUMBERS: usize = 34;

type Points = Vec<(i32, i32)>;

/// What a run has left behind.
struct Ran {
    written: Vec<u8>,
    message: String,
    status: Option<i32>,
}

/// What differs: every entry that is expected must be written, and nothing else; and there is a message exactly where one is due. Where
/// none is, the program ends with status 0.
fn differs(ran: &Ran, entries: &[u8], due: bool) -> Option<String> {
    if ran.written != entries {
        let pairs = ran.written.chunks(WHOLE).zip(entries.chunks(WHOLE));
        let same = pairs.take_while(|(wrote, expected)| wrote == expected).count();
        let at = |all: &[u8]| all.chunks(WHOLE).nth(same).map_or("nothing".to_string(), hex);
        let (wrote, expected) = (at(&ran.written), at(entries));
        let Ran { message, status, .. } = ran;
        return Some(format!(
            "as entry {same} it writes {wrote}, expected is {expected}; message {message:?}, status {status:?}"
        ));
    }
    if due == ran.message.is_empty() {
        let what = if due { "no message" } else { "a message" };
        return Some(format!("{what}, where the status is {:?}: {}", ran.status, ran.message));
    }
    (!due && ran.status != Some(0)).then(|| format!("it ends with {:?}", ran.status))
}

/// Positions as the program reads them.
fn bytes_of(points: &[(i32, i32)]) -> Vec<u8> {
    points.iter().flat_map(|&(x, y)| [x.to_le_bytes(), y.to_le_bytes()].concat()).collect()
}

/// The entries of a file, by the export and by the rules.
fn entries_of(file: &[u8], points: &[(i32, i32)]) -> Held<Vec<u8>> {
    let record = open_into(file, SIZE);
    let opened = rules::open(file, &[]);
    let mut out = Vec::new();
    for &at in points {
        let (x, y) = at;
        let expected = match &opened {
            Ok(opened) => opened.entry(PLACES, x, y),
            Err(_) => rule::of_file(file, PLACES, x, y),
        };
        let expected = expected.write(PLACES).expect("an answer is of a form");
        let says = match &record {
            Ok(record) => PORT.ask(record, file, THREE, at, WHOLE),
            Err(number) => {
                let entry = Entry { x, y, zones: Vec::new(), reason: *number };
                PORT.write(&entry, THREE, WHOLE)
            }
        };
        if says.as_ref() != Ok(&expected) {
            let (says, expected) = (told(&says), hex(&expected));
            return Err(format!("{at:?}: the exports say {says}, the rules {expected}"));
        }
        out.extend(expected);
    }
    Ok(out)
}

/// The first two files of each refusal, which must be there.
fn of_each_refusal(cases: &[(u32, Vec<u8>)]) -> Vec<&[u8]> {
    let two = |number: u32| {
        let all = cases.iter().filter(|(n, _)| *n == number);
        let two: Vec<&[u8]> = all.take(2).map(|(_, file)| &file[..]).collect();
        assert_eq!(two.len(), 2, "files of refusal {number}");
        two
    };
    (1..=NUMBERS as u32).flat_map(two).collect()
}

struct Program<'a> {
    path: &'a Path,
    random: Random,
    tally: Tally,
    /// How it ended where a message was due.
    statuses: Vec<Option<i32>>,
}

impl Program<'_> {
    fn start(&self, index: &Path) -> Child {
        let mut command = match std::env::var("CARGO_TARGET_X86_64_UNKNOWN_LINUX_GNU_RUNNER") {
            Ok(emulator) => {
                let mut command = Command::new(emulator);
                command.arg(self.path);
                command
            }
            Err(_) => Command::new(self.path),
        };
        command.arg(index);
        command.stdin(Stdio::piped()).stdout(Stdio::piped()).stderr(Stdio::piped());
        command.spawn().unwrap_or_else(|why| panic!("{command:?}: {why}"))
    }

    /// Gives it the input in pieces of so many bytes.
    fn run(&self, index: &Path, input: &[u8], piece: usize) -> Ran {
        let mut child = self.start(index);
        let mut to = child.stdin.take().expect("a pipe");
        let input = input.to_vec();
        // What comes after its end is not read.
        let writer =
            thread::spawn(move || _ = input.chunks(piece).try_for_each(|p| to.write_all(p)));
        let output = child.wait_with_output().expect("what it writes");
        writer.join().expect("all is written");
        let message = String::from_utf8_lossy(&output.stderr).into_owned();
        Ran { written: output.stdout, message, status: output.status.code() }
    }

    fn judge(
        &mut self,
        kind: &str,
        index: &Path,
        input: &[u8],
        piece: usize,
        (entries, due): (&[u8], bool),
    ) -> Held<()> {
        let ran = self.run(index, input, piece);
        self.tally.add(kind, 1);
        self.tally.add("entries", (entries.len() / WHOLE) as u64);
        if due && !self.statuses.contains(&ran.status) {
            self.statuses.push(ran.status);
        }
        differs(&ran, entries, due).map_or(Ok(()), |why| Err(format!("{kind}: {why}")))
    }

    /// An index that the program reads, whether it opens or not; its entries.
    fn index(
        &mut self,
        kind: &str,
        file: &[u8],
        points: &[(i32, i32)],
        piece: usize,
    ) -> Held<Vec<u8>> {
        assert!(file.len() <= LONGEST, "an index that is too large");
        std::fs::write(INDEX, file).expect("a place for the index");
        let entries = entries_of(file, points)?;
        self.judge(kind, INDEX.as_ref(), &bytes_of(points), piece, (&entries, false))?;
        Ok(entries)
    }

    fn points(&mut self, file: &[u8], most: usize) -> Points {
        let opened = rules::open(file, &[]).ok();
        positions::of(opened.as_ref(), &mut self.random, most)
    }

    /// The kept index, small files of every kind, and random ones, whole and damaged.
    fn files(&mut self) -> Held<()> {
        let kept = journal::kept();
        self.index("the kept index", &kept, &journal::ANSWERS.map(|(at, _)| at), 8)?;
        for file in file::kinds() {
            let points = self.points(&file, POSITIONS);
            self.index("small files", &file, &points, 4096)?;
        }
        for i in 0..FILES {
            let draft = match i % 4 {
                0 => file::some(&mut self.random),
                1 => file::on_lattice(&mut self.random),
                2 => striped::some(&mut self.random),
                _ => journal::some(&mut self.random),
            };
            let mut file = draft.lay();
            if i % 3 == 2 {
                file = Aim::at_geometry(&file).damage(&mut self.random, &file, 1);
            }
            if file.len() <= LONGEST {
                let points = self.points(&file, POSITIONS);
                let piece = self.random.pick(&[1, 3, 8, 12, 100, 4096]);
                self.index("random files", &file, &points, piece)?;
            }
        }
        Ok(())
    }

    /// Two files of each refusal: it stands in every entry, also outside the domain.
    fn refused(&mut self) -> Held<()> {
        for file in of_each_refusal(&file::cases()) {
            let points = self.points(file, 6);
            self.index("files that do not open", file, &points, 8)?;
        }
        Ok(())
    }

    /// Of just so many bytes: the last of them are unread.
    fn of_length(length: usize) -> Vec<u8> {
        let mut draft = journal::kept_draft();
        draft.tail = length - draft.lay().len();
        let file = draft.lay();
        assert_eq!(file.len(), length);
        file
    }

    /// The longest index, whole and broken, and such as are too large or cannot be read.
    fn lengths(&mut self) -> Held<()> {
        for length in [LONGEST - 1, LONGEST] {
            let mut file = Self::of_length(length);
            let points = self.points(&file, POSITIONS);
            self.index("the longest files", &file, &points, 8)?;
            file[length / 2] ^= 1;
            self.index("the longest files, broken", &file, &points, 8)?;
        }
        let input = bytes_of(&[(1, 1), (2, 2)]);
        let too_large =
            [Self::of_length(LONGEST + 1), Self::of_length(2 * LONGEST), vec![0; 70_000]];
        for file in too_large {
            std::fs::write(INDEX, &file).expect("a place for the index");
            self.judge("files too large", INDEX.as_ref(), &input, 8, (&[], true))?;
        }
        self.judge("files too large", SAMPLE.as_ref(), &input, 8, (&[], true))?;
        for path in ["target/no-such-index.tzb", "target", "/no/such/folder/index.tzb"] {
            self.judge("files that cannot be read", path.as_ref(), &input, 8, (&[], true))?;
            self.judge("files that cannot be read", path.as_ref(), &[], 8, (&[], true))?;
        }
        Ok(())
    }

    /// No input, input that ends within a position, and more than any buffer holds.
    fn inputs(&mut self) -> Held<()> {
        let kept = journal::kept();
        for file in [kept.clone(), vec![0; 68]] {
            self.index("no input", &file, &[], 8)?;
            for whole in [0, 1, 5, 511, 512, 513] {
                let points: Points = (0..whole).map(|i| journal::ANSWERS[i % 47].0).collect();
                let entries = entries_of(&file, &points)?;
                for more in 1..8 {
                    let mut input = bytes_of(&points);
                    input.resize(input.len() + more, 0);
                    let due = (&entries[..], true);
                    self.judge("input cut within a position", INDEX.as_ref(), &input, 4096, due)?;
                }
            }
        }
        for piece in [7, 4095, 65_536] {
            let points = self.points(&kept, LONG);
            self.index("long input", &kept, &points, piece)?;
        }
        Ok(())
    }
}

/// Puts all of this to the program.
pub fn run(path: &Path, seed: u64) {
    println!("seed {seed}, {}", path.display());
    if !path.exists() {
        println!(
            "{} is not there: 'rt run' in crates/journal writes crates/journal/out/journal",
            path.display()
        );
        std::process::exit(1);
    }
    std::fs::create_dir_all("target").expect("a place for the index");
    let (random, tally) = (Random::new(seed), Tally::default());
    let mut program = Program { path, random, tally, statuses: Vec::new() };
    let said = program
        .files()
        .and_then(|()| program.relatives())
        .and_then(|()| program.refused())
        .and_then(|()| program.lengths())
        .and_then(|()| program.inputs());
    if let Err(why) = said {
        println!("found: {why}\nthe index is {INDEX}");
        std::process::exit(1)
    }
    program.tally.print();
    println!("where a message is due it ends with {:?}", program.statuses);
    println!("seed {seed}: 0 differences");
}

#[cfg(test)]
mod tests {
    use super::*;

    fn ran(written: &[u8], message: &str, status: i32) -> Ran {
        Ran { written: written.to_vec(), message: message.to_string(), status: Some(status) }
    }

    #[test]
    fn a_wrong_run_is_found_out() {
        let entries: Vec<u8> = (0..32).collect();
        let found = |ran: Ran, due| differs(&ran, &entries, due).is_some();
        assert!(!found(ran(&entries, "", 0), false));
        assert!(!found(ran(&entries, "cut", 0), true) && !found(ran(&entries, "cut", 1), true));
        assert!(found(ran(&entries, "", 1), false), "another status");
        assert!(found(ran(&entries, "cut", 0), false), "a message that is not due");
        assert!(found(ran(&entries, "", 1), true), "no message");
        assert!(found(ran(&entries[..31], "", 0), false), "a byte less");
        assert!(found(ran(&entries[..16], "", 0), false), "an entry less");
        assert!(found(ran(&[&entries[..], &[0]].concat(), "", 0), false), "a byte more");
        assert!(found(ran(&[0; 32], "", 0), false), "other bytes");
    }

    /// Each refusal has two files; where one has fewer, that is told.
    #[test]
    fn every_refusal_has_its_files() {
        let mut cases = file::cases();
        let files = of_each_refusal(&cases);
        let numbers = files.iter().map(|file| rules::open(file, &[]).err());
        let expected = (1..=34).flat_map(|number| [Some(number); 2]);
        assert!(numbers.eq(expected));
        let mut seen = 0;
        cases.retain(|(number, _)| {
            *number != 34 || {
                seen += 1;
                seen == 1
            }
        });
        assert!(std::panic::catch_unwind(|| of_each_refusal(&cases).len()).is_err());
    }

    /// The entries that are expected are the exports', for files that open and for those that do not.
    #[test]
    fn entries_are_told_alike() {
        let points = journal::ANSWERS.map(|(at, _)| at);
        assert_eq!(entries_of(&journal::kept(), &points).unwrap().len(), WHOLE * points.len());
        let of_none = entries_of(&[0; 68], &points[..1]).unwrap();
        assert_eq!(of_none[WHOLE - 2..], [0, 2]);
    }
}
