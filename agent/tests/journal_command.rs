//! The commands `tzb journal` and `tzb show-journal`, run as programs: what they write, where, and their exit status.

mod common;

use std::io::{Read, Write};
use std::sync::mpsc;
use std::time::Duration;

use common::program::{Gave, Kept, answered, ended, run, run_bytes, tzb};
use common::{RINGDIR, Squares, TZDIR, changed, drawn, start_of, words};
use tzb::Index;
use tzb::journal::{ENTRY, Entry};

const SAMPLE: &str = "../sample/real-ne.tzb";
/// In Germany, by Rio de Janeiro, at sea, and nowhere.
const POINTS: [[i32; 2]; 4] =
    [[868_000, 5_011_000], [-4_320_000, -2_290_000], [-3_000_000, 0], [18_000_001, 0]];

fn lines(points: &[[i32; 2]]) -> String {
    points.iter().map(|[x, y]| format!("{x} {y}\n")).collect()
}

fn bytes(points: &[[i32; 2]]) -> Vec<u8> {
    points.iter().flatten().flat_map(|n| n.to_le_bytes()).collect()
}

fn given(journal: Vec<u8>) -> Gave {
    (Some(0), journal, String::new())
}

fn journal_of(file: &str, points: &[[i32; 2]]) -> Vec<u8> {
    Index::open(std::fs::read(file).unwrap()).unwrap().journal_bytes(points).unwrap()
}

/// A journal of entries without zones, each with the refusal of that number.
fn refused(number: u8, points: &[[i32; 2]]) -> Vec<u8> {
    let entry = |&[x, y]: &[i32; 2]| {
        let mut bytes = Entry { x, y, answer: Ok(vec![]) }.to_bytes().unwrap();
        bytes[ENTRY - 1] = number;
        bytes
    };
    points.iter().flat_map(entry).collect()
}

#[test]
fn both_forms_of_input() {
    let journal = journal_of(SAMPLE, &POINTS);
    assert_eq!(journal.len(), ENTRY * POINTS.len());
    let commas = lines(&POINTS).replace(' ', ",").replace('\n', "\r\n");
    for input in [lines(&POINTS), commas, lines(&POINTS).trim_end().to_string()] {
        assert_eq!(run_bytes(&["journal", SAMPLE], input), given(journal.clone()));
    }
    assert_eq!(run_bytes(&["journal", SAMPLE, "-"], lines(&POINTS)), given(journal.clone()));
    for option in ["-b", "--binary"] {
        assert_eq!(run_bytes(&["journal", option, SAMPLE], bytes(&POINTS)), given(journal.clone()));
    }
    for words in [&["journal", SAMPLE][..], &["journal", "-b", SAMPLE]] {
        assert_eq!(run_bytes(words, ""), given(vec![]));
    }
}

/// Document 02's own: position (1, -1) in zone 5 alone.
#[test]
fn the_example() {
    let around: &[(i32, i32)] = &[(-9, -9), (9, -9), (9, 9), (-9, 9)];
    let all = drawn(&["A", "B", "C", "D", "E", "F"], &[&[around]]);
    // The five before it have their boxes elsewhere, so they are not looked into.
    let away = words(&[0, 1, 1_000, 1_000, 1_000, 1_000]).repeat(5);
    let file = Kept::new("example.tzb", &changed(&all, start_of(&all, TZDIR), &away));
    let (status, out, err) = run_bytes(&["journal", &file.0], "1 -1\n");
    assert_eq!(out, b"\x01\0\0\0\xff\xff\xff\xff\x05\0\xff\xff\xff\xff\x01\0");
    // It is answered as the file has it, and the file is not accepted.
    assert!(status == Some(1) && err.contains("not accepted: refusal 47: "), "{err}");
}

/// Lines behind one that is no position get their entries.
#[test]
fn a_bad_line_is_told_by_its_number() {
    let input = b"868000 5011000\n8.68 50.11\n\n1 2147483648\n\xff\n1 2 3\n-3000000,0\n";
    let (status, out, err) = run_bytes(&["journal", SAMPLE], input);
    let wanted = journal_of(SAMPLE, &[POINTS[0], POINTS[2]]);
    assert_eq!((status, out), (Some(2), wanted));
    let lines: Vec<&str> = err.lines().map(|line| line.split(" is ").next().unwrap()).collect();
    let told = [
        "tzb: line 2: \"8.68 50.11\"",
        "tzb: line 3: \"\"",
        "tzb: line 4: \"1 2147483648\"",
        "tzb: line 5: \"\u{fffd}\"",
        "tzb: line 6: \"1 2 3\"",
    ];
    assert_eq!(lines, told);
}

/// Whole positions before it have their entries.
#[test]
fn an_input_that_ends_within_a_position() {
    let (journal, input) = (journal_of(SAMPLE, &POINTS[..2]), bytes(&POINTS[..2]));
    for length in 0..input.len() {
        let (status, out, err) = run_bytes(&["journal", "-b", SAMPLE], &input[..length]);
        let (whole, rest) = (length / 8, length % 8);
        assert_eq!(out, journal[..ENTRY * whole], "{length} bytes");
        let line = format!(
            "tzb: position {}: standard input ends within it, after {rest} of 8 bytes\n",
            whole + 1
        );
        let told = if rest > 0 { (Some(2), line) } else { (Some(0), String::new()) };
        assert_eq!((status, err), told, "{length} bytes");
    }
}

#[test]
fn the_refusal_of_opening_stands_in_every_entry() {
    let broken = Kept::new("journal-broken.tzb", &[0; 60]);
    for (file, number) in [("Cargo.toml", 2), (broken.0.as_str(), 1)] {
        let words: [(&[&str], Vec<u8>); 2] = [
            (&["journal", file], lines(&POINTS).into()),
            (&["journal", "-b", file], bytes(&POINTS)),
        ];
        for (words, input) in words {
            let (status, out, err) = run_bytes(words, input);
            assert_eq!((status, out), (Some(1), refused(number, &POINTS)), "{words:?}");
            assert!(err.starts_with(&format!("tzb: {file}: refusal {number}: ")), "{err}");
            assert!(err.ends_with(" Every entry has it.\n") && err.lines().count() == 1, "{err}");
        }
        let (status, out, err) = run(&["journal", "--check", file], lines(&POINTS));
        assert_eq!((status, out.as_str()), (Some(1), ""));
        assert!(err.starts_with(&format!("tzb: {file}: refusal {number}: ")), "{err}");
    }
    // One that is too long to be an index is not read.
    let long = Kept::new("journal-long.tzb", b"");
    std::fs::File::options().write(true).open(&long.0).unwrap().set_len(1 << 40).unwrap();
    let (status, out, _) = run_bytes(&["journal", &long.0], "1 1\n");
    assert_eq!((status, out), (Some(1), refused(1, &[[1, 1]])));
}

#[test]
fn the_refusal_of_a_question_stands_in_its_entry() {
    let squares = Squares::new(&["A"]);
    let file = Kept::new("journal-ring.tzb", &squares.with(RINGDIR, 4, &words(&[5])));
    let points = [[50_000, 50_000], [300_000, 50_000]];
    let (status, out, err) = run_bytes(&["journal", &file.0], lines(&points));
    let journal = [refused(36, &points[..1]), refused(0, &points[1..])].concat();
    assert_eq!((status, out), (Some(1), journal));
    assert!(err.contains("not accepted: refusal 47: ") && err.lines().count() == 1, "{err}");
    let (status, out, err) = run(&["journal", "-c", &file.0], lines(&points));
    assert_eq!((status, out.as_str()), (Some(1), ""));
    assert!(err.starts_with(&format!("tzb: {}: refusal 47: ", file.0)), "{err}");
    // More zones than places: the file is accepted, and the entry has a refusal.
    let many = Kept::new("journal-many.tzb", &Squares::new(&["A", "B", "C", "D"]).bytes);
    let gave = run_bytes(&["journal", &many.0], lines(&points));
    let journal = [refused(46, &points[..1]), refused(0, &points[1..])].concat();
    assert_eq!(gave, (Some(1), journal, String::new()));
}

#[test]
fn in_words() {
    let journal = Kept::new("words.journal", &journal_of(SAMPLE, &POINTS));
    let shown = |zones: [&str; 3]| {
        let [germany, rio, sea] = zones;
        answered(&format!(
            "8.68000 50.11000\t{germany}\n-43.20000 -22.90000\t{rio}\n-30.00000 0.00000\t{sea}\n\
             180.00001 0.00000\tno zone\n"
        ))
    };
    let numbers = shown(["469\t126", "60\t465", "466"]);
    assert_eq!(run(&["show-journal", &journal.0], ""), numbers);
    assert_eq!(run(&["show-journal", "-n", &journal.0], ""), numbers);
    let names = shown(["Etc/GMT-1\tGermany", "Brazil/Rio de Janeiro\tEtc/GMT+3", "Etc/GMT+2"]);
    assert_eq!(run(&["show-journal", &journal.0, SAMPLE], ""), names);
    let input = std::fs::read(&journal.0).unwrap();
    assert_eq!(run(&["show-journal", "-", SAMPLE], &input), names);
    let both = shown([
        "469\tEtc/GMT-1\t126\tGermany",
        "60\tBrazil/Rio de Janeiro\t465\tEtc/GMT+3",
        "466\tEtc/GMT+2",
    ]);
    assert_eq!(run(&["show-journal", "--number", &journal.0, SAMPLE], ""), both);
    assert_eq!(run(&["show-journal", "-"], ""), answered(""));
}

/// A refusal in an entry is shown, and is none of the showing.
#[test]
fn refusals_in_words() {
    let at = [[1, -1]];
    let journal = [refused(11, &at), refused(46, &at), refused(0, &at)].concat();
    let lines = "0.00001 -0.00001\trefusal 11: The checksum (CRC-32) does not match the file's bytes.\n\
                 0.00001 -0.00001\trefusal 46: The position is in more than 3 zones.\n\
                 0.00001 -0.00001\tno zone\n";
    assert_eq!(run(&["show-journal", "-"], &journal), answered(lines));
    assert_eq!(run(&["show-journal", "-", SAMPLE], &journal), answered(lines));
}

#[test]
fn what_is_no_entry_is_told_by_its_place() {
    let mut journal = journal_of(SAMPLE, &POINTS);
    journal[2 * ENTRY - 1] = 1;
    journal.extend([7; 5]);
    let kept = Kept::new("broken.journal", &journal);
    let lines = "8.68000 50.11000\tEtc/GMT-1\tGermany\n\n-30.00000 0.00000\tEtc/GMT+2\n\
                 180.00001 0.00000\tno zone\n\n";
    let why = "refusal 50: The bytes are no entry.";
    let cut = "refusal 50: The journal ends within it, after 5 of 16 bytes.";
    for (path, name) in [(kept.0.as_str(), kept.0.as_str()), ("-", "standard input")] {
        let (status, out, err) = run(&["show-journal", path, SAMPLE], &journal);
        assert_eq!((status, out.as_str()), (Some(1), lines));
        let told = format!(
            "tzb: {name}: entry 2, at byte 16: {why}\ntzb: {name}: entry 5, at byte 64: {cut}\n"
        );
        assert_eq!(err, told);
    }
    // A text is no journal, and each line of what is shown stands for its bytes.
    let (status, out, err) = run(&["show-journal", "Cargo.toml"], "");
    let count = std::fs::read("Cargo.toml").unwrap().len().div_ceil(ENTRY);
    assert_eq!((status, out.as_str()), (Some(1), "\n".repeat(count).as_str()));
    assert_eq!(err.lines().count(), count);
}

/// The journal is of another index, which has more zones.
#[test]
fn a_zone_that_the_index_does_not_have() {
    let squares = Kept::new("few.tzb", &Squares::new(&["A", "new\nline"]).bytes);
    let entry = |zones: &[u32]| Entry { x: 1, y: 1, answer: Ok(zones.to_vec()) }.to_bytes();
    let journal = [entry(&[0, 2, 3]).unwrap(), entry(&[1]).unwrap()].concat();
    let told = "tzb: standard input: entry 1, at byte 0: zone 2 of the index: \
                refusal 45: There is no zone of that number.\n";
    let wanted = [
        (vec!["show-journal", "-"], "A\t2\t3", "new\\u{a}line"),
        (vec!["show-journal", "-n", "-"], "0\tA\t2\t2\t3\t3", "1\tnew\\u{a}line"),
    ];
    for (mut words, first, second) in wanted {
        words.push(&squares.0);
        let lines = format!("0.00001 0.00001\t{first}\n0.00001 0.00001\t{second}\n");
        assert_eq!(run(&words, &journal), (Some(1), lines, told.to_string()));
    }
}

#[test]
fn what_is_wrong_before_the_first_entry() {
    let cases: [(&[&str], i32, &str); 11] = [
        (&["journal"], 2, "which index file?\n"),
        (&["journal", SAMPLE, "1", "2"], 2, "\"1\" is too much\n"),
        (&["journal", "-n", SAMPLE], 2, "there is no option \"-n\"\n"),
        (&["journal", "no-such-file.tzb"], 2, "no-such-file.tzb: "),
        (&["journal", "src"], 2, "src: "),
        (&["show-journal"], 2, "which journal?\n"),
        (&["show-journal", "-", SAMPLE, "more"], 2, "\"more\" is too much\n"),
        (&["show-journal", "no-such-file"], 2, "no-such-file: "),
        (&["show-journal", "src"], 2, "src: "),
        (&["show-journal", "-", "no-such-file.tzb"], 2, "no-such-file.tzb: "),
        (&["show-journal", "-", "Cargo.toml"], 1, "Cargo.toml: refusal 2: "),
    ];
    for (words, wanted, why) in cases {
        let (status, out, err) = run(words, "1 1\n");
        assert_eq!((status, out.as_str()), (Some(wanted), ""), "{words:?}");
        assert!(err.starts_with(&format!("tzb: {why}")), "{err}");
    }
}

/// Nobody reads the entries: the command ends, without a word.
#[test]
fn a_broken_pipe_is_no_mistake() {
    let journal = journal_of(SAMPLE, &POINTS).repeat(2000);
    for (words, input) in [
        (&["journal", SAMPLE][..], lines(&POINTS).repeat(500).into_bytes()),
        (&["show-journal", "-"], journal),
    ] {
        let mut child = tzb(words).spawn().unwrap();
        drop(child.stdout.take());
        let _ = child.stdin.take().unwrap().write_all(&input);
        let (status, _, err) = ended(child);
        assert_eq!((status, err.as_str()), (Some(0), ""), "{words:?}");
    }
}

/// An entry is written before the next position is waited for, and shown before the next entry is.
#[test]
fn entries_do_not_wait() {
    let (journal, positions) = (journal_of(SAMPLE, &POINTS), bytes(&POINTS));
    let shown = run(&["show-journal", "-"], &journal).1;
    let written: Vec<&[u8]> = journal.chunks(ENTRY).collect();
    let told: Vec<&[u8]> = shown.split_inclusive('\n').map(str::as_bytes).collect();
    let eight: Vec<&[u8]> = positions.chunks(8).collect();
    for (words, given, wanted) in [
        (&["journal", "-b", SAMPLE][..], &eight, &written),
        (&["show-journal", "-"], &written, &told),
    ] {
        let mut child = tzb(words).spawn().unwrap();
        let mut input = child.stdin.take().unwrap();
        let mut output = child.stdout.take().unwrap();
        let (tell, told) = mpsc::channel();
        let lengths: Vec<usize> = wanted.iter().map(|part| part.len()).collect();
        std::thread::spawn(move || {
            for length in lengths {
                let mut part = vec![0; length];
                output.read_exact(&mut part).unwrap();
                tell.send(part).unwrap();
            }
        });
        for (given, wanted) in given.iter().zip(wanted) {
            input.write_all(given).unwrap();
            let part = told.recv_timeout(Duration::from_secs(30)).unwrap();
            assert_eq!(part, *wanted, "{words:?}");
        }
        drop(input);
        assert_eq!(ended(child).0, Some(0));
    }
}
