//! The command, run as a program: what it writes, where, and its exit status.

mod common;

use std::fs::File;
use std::io::{BufRead, BufReader, Write};
use std::sync::mpsc;
use std::time::Duration;

use common::program::{Kept, answered, ended, run, tzb};
use common::{
    CHUNKDIR, GROUPDIR, RINGDIR, Squares, TZDIR, changed, coast, drawn, in_chunks, start_of, words,
};

const SAMPLE: &str = "../sample/real-ne.tzb";

#[test]
fn one_position() {
    assert_eq!(run(&["zone", SAMPLE, "8.68", "50.11"], ""), answered("Germany\n"));
    assert_eq!(run(&["zone", "-n", SAMPLE, "8.68,50.11"], ""), answered("126\tGermany\n"));
    assert_eq!(run(&["zones", SAMPLE, "8.68", "50.11"], ""), answered("Germany\n"));
    let rio = answered("Brazil/Rio de Janeiro\n");
    assert_eq!(run(&["zone", SAMPLE, "-43.2", "-22.9"], ""), rio);
}

#[test]
fn no_zone_is_status_1() {
    let (status, out, err) = run(&["zone", SAMPLE, "200", "0"], "");
    assert_eq!((status, out.as_str()), (Some(1), ""));
    assert!(err.starts_with("tzb: no zone at 200 0: longitude goes from"), "{err}");
    let squares = Kept::new("no-zone.tzb", &Squares::new(&["A"]).bytes);
    let said = run(&["zones", &squares.0, "5", "5"], "");
    assert_eq!(said, (Some(1), String::new(), "tzb: no zone at 5 5\n".to_string()));
}

#[test]
fn positions_from_standard_input() {
    let input = "8.68 50.11\n-43.2,-22.9\r\n139.7\t35.7";
    let names = "Germany\nBrazil/Rio de Janeiro\nJapan\n";
    assert_eq!(run(&["zone", SAMPLE], input), answered(names));
    let all = "Germany\nBrazil/Rio de Janeiro\tEtc/GMT+3\nEtc/GMT-9\tJapan\n";
    assert_eq!(run(&["zones", SAMPLE, "-"], input), answered(all));
    assert_eq!(run(&["zone", SAMPLE], ""), answered(""));
    let (status, out, err) = run(&["zone", SAMPLE], "8.68 50.11\n200 0\n139.7 35.7\n");
    assert_eq!((status, out.as_str(), err.as_str()), (Some(1), "Germany\n\nJapan\n", ""));
}

#[test]
fn several_zones_stand_on_one_line() {
    let squares = Kept::new("several.tzb", &Squares::new(&["B", "A", "new\nline"]).bytes);
    let one = run(&["zones", &squares.0, "0.5", "0.5"], "");
    assert_eq!(one, answered("A\nB\nnew\\u{a}line\n"));
    let many = run(&["zones", "--number", &squares.0], "0.5 0.5\n0.1 0.1\n");
    let line = "1\tA\t0\tB\t2\tnew\\u{a}line\n";
    assert_eq!(many, answered(&line.repeat(2)));
}

/// Every line of the input gets its line, also behind one that is no position.
#[test]
fn a_bad_line_is_told_by_its_number() {
    let input = b"8.68 50.11\neast north\n\nnan 1\n\xff\xfe\n139.7 35.7\n";
    let (status, out, err) = run(&["zone", SAMPLE], input);
    assert_eq!((status, out.as_str()), (Some(2), "Germany\n\n\n\n\nJapan\n"));
    let lines: Vec<&str> = err.lines().map(|line| line.split(" is ").next().unwrap()).collect();
    let told = [
        "tzb: line 2: \"east north\"",
        "tzb: line 3: \"\"",
        "tzb: line 4: \"nan 1\"",
        "tzb: line 5: \"\u{fffd}\u{fffd}\"",
    ];
    assert_eq!(lines, told);
}

#[test]
fn a_refusal_is_status_1() {
    let squares = Squares::new(&["A"]);
    let broken = Kept::new("broken.tzb", &squares.with(RINGDIR, 4, &words(&[5])));
    let (status, out, err) = run(&["zone", &broken.0, "0.5", "0.5"], "");
    assert_eq!((status, out.as_str()), (Some(1), ""));
    assert!(err.contains("broken.tzb: refusal 36: A ring's point count"), "{err}");
    let (status, out, err) = run(&["zones", &broken.0], "0.5 0.5\n5 5\n");
    assert_eq!((status, out.as_str()), (Some(1), "\n\n"));
    let told: Vec<&str> = err.lines().collect();
    assert!(told.len() == 2 && told[1].starts_with("tzb: line 1: refusal 36: "), "{err}");
    for task in ["zone", "zones", "names", "info"] {
        let (status, out, err) = run(&[task, "Cargo.toml"], "1 1\n");
        assert_eq!((status, out.as_str()), (Some(1), ""), "{task}");
        assert!(err.starts_with("tzb: Cargo.toml: refusal 2: "), "{err}");
    }
}

#[test]
fn the_full_check() {
    assert_eq!(run(&["check", SAMPLE], ""), answered(&format!("{SAMPLE}: accepted\n")));
    let squares = Squares::new(&["A"]);
    let broken = Kept::new("unsound.tzb", &squares.with(CHUNKDIR, 16, &words(&[99_999])));
    let (status, out, err) = run(&["check", &broken.0], "");
    assert_eq!((status, err.as_str()), (Some(1), ""));
    assert!(out.contains("unsound.tzb: not accepted: refusal 47: "), "{out}");
    assert!(out.contains("Rule 4 is broken: a chunk's box"), "{out}");
    let (status, out, _) = run(&["check", "Cargo.toml"], "");
    assert_eq!(status, Some(1));
    assert!(out.starts_with("Cargo.toml: not accepted: refusal 2: "), "{out}");
}

/// A zone drawn as a line; and one as three points on a line, which are segments enough.
#[test]
fn the_full_check_of_a_line() {
    let line = Kept::new("line.tzb", &drawn(&["A"], &[&[&[(0, 0), (100, 100)]]]));
    let (status, out, err) = run(&["check", &line.0], "");
    assert_eq!((status, err.as_str()), (Some(1), ""));
    assert!(out.starts_with(&format!("{}: not accepted: refusal 47: ", line.0)), "{out}");
    assert!(
        out.contains("Rule 2 is broken: ") && out.contains("fewer than three segments"),
        "{out}"
    );
    assert_eq!(run(&["zone", &line.0, "0.0005", "0.0005"], ""), answered("A\n"));
    let three = Kept::new("three.tzb", &drawn(&["A"], &[&[&[(0, 0), (50, 50), (100, 100)]]]));
    assert_eq!(run(&["check", &three.0], ""), answered(&format!("{}: accepted\n", three.0)));
}

/// A square whose zone has a box that is too small: a question by its right edge is answered wrongly.
fn small_box(name: &str) -> Kept {
    Kept::new(name, &Squares::new(&["A"]).with(TZDIR, 16, &words(&[10])))
}

#[test]
fn with_check_a_file_that_is_not_accepted_is_refused() {
    let right = ["zone", "--check", SAMPLE, "8.68", "50.11"];
    assert_eq!(run(&right, ""), answered("Germany\n"));
    assert_eq!(run(&["zones", "-c", SAMPLE], "8.68 50.11\n"), answered("Germany\n"));
    let unsound = small_box("check.tzb");
    let wrong = (Some(1), String::new(), "tzb: no zone at 0.5 0.5\n".to_string());
    assert_eq!(run(&["zone", &unsound.0, "0.5", "0.5"], ""), wrong);
    let asked: [&[&str]; 3] = [
        &["zone", "--check", &unsound.0, "0.5", "0.5"],
        &["zones", &unsound.0, "-c", "0.5", "0.5"],
        &["zone", "-c", &unsound.0],
    ];
    for words in asked {
        let (status, out, err) = run(words, "0.5 0.5\n");
        assert_eq!((status, out.as_str()), (Some(1), ""), "{words:?}");
        let line = format!("tzb: {}: refusal 47: ", unsound.0);
        assert!(err.starts_with(&line) && err.contains("Rule 6 is broken"), "{err}");
        assert_eq!(err.lines().count(), 1, "{err}");
    }
    let (status, out, err) = run(&["zone", "--check", "Cargo.toml", "1", "1"], "");
    assert_eq!((status, out.as_str()), (Some(1), ""));
    assert!(err.starts_with("tzb: Cargo.toml: refusal 2: "), "{err}");
}

/// Many positions: what the full check says is told once, the answers come, and the status is not 0.
#[test]
fn standard_input_tells_once_that_a_file_is_not_accepted() {
    let unsound = small_box("told-once.tzb");
    let (status, out, err) = run(&["zone", &unsound.0], "0.00005 0.5\n0.5 0.5\n0.00005 0.1\n");
    assert_eq!((status, out.as_str()), (Some(1), "A\n\nA\n"));
    let line = format!("tzb: {}: not accepted: refusal 47: ", unsound.0);
    assert!(err.starts_with(&line) && err.contains("Rule 6 is broken"), "{err}");
    assert_eq!(err.lines().count(), 1, "{err}");
    let (status, out, _) = run(&["zone", &unsound.0], "0.00005 0.5\n");
    assert_eq!((status, out.as_str()), (Some(1), "A\n"));
}

/// A length above the limit is refused at once: the file has no bytes to read, and the memory is not there.
#[test]
fn a_file_that_is_too_long_is_not_read() {
    let long = Kept::new("long.tzb", b"");
    File::options().write(true).open(&long.0).unwrap().set_len(1 << 40).unwrap();
    let refusal = format!("{}: refusal 1: The file is shorter", long.0);
    for words in [&["zone", &long.0, "1", "1"][..], &["check", &long.0], &["info", &long.0]] {
        let (status, out, err) = run(words, "");
        assert_eq!((status, out.as_str()), (Some(1), ""), "{words:?}");
        assert!(err.starts_with(&format!("tzb: {refusal}")), "{err}");
    }
}

/// What has no length is read to its end.
#[test]
fn an_index_from_a_pipe() {
    let file = Squares::new(&["A"]).bytes;
    assert_eq!(run(&["zone", "/dev/stdin", "0.5", "0.5"], &file), answered("A\n"));
    assert_eq!(run(&["check", "/dev/stdin"], &file), answered("/dev/stdin: accepted\n"));
    let (status, _, err) = run(&["zone", "/dev/stdin", "0.5", "0.5"], &file[..60]);
    assert!(status == Some(1) && err.starts_with("tzb: /dev/stdin: refusal 1: "), "{err}");
}

#[test]
fn names_and_info() {
    let (status, out, err) = run(&["names", "-n", SAMPLE], "");
    assert_eq!((status, err.as_str(), out.lines().count()), (Some(0), "", 481));
    assert!(out.starts_with("0\tAfghanistan\n1\tAlbania\n"), "{out}");
    let (status, out, err) = run(&["info", SAMPLE], "");
    assert_eq!((status, err.as_str()), (Some(0), ""));
    for line in ["size      1984830 bytes", "version   real1", "zones     481", "sections  9"] {
        assert!(out.lines().any(|found| found == line), "{out}");
    }
    assert!(out.contains("361 x 181 cells from -180 -90"), "{out}");
    assert!(out.contains("CHUNKDIR  129792 bytes at 485564, 5408 records"), "{out}");
}

/// The line of `tzb info` on stripes: there, refused, and longer than the file.
#[test]
fn info_says_how_the_index_is_walked() {
    let walk = |name: &str, file: &[u8]| {
        let kept = Kept::new(name, file);
        let (status, out, err) = run(&["info", &kept.0], "");
        assert_eq!((status, err.as_str()), (Some(0), ""));
        out.lines().find_map(|line| line.strip_prefix("walk      ")).unwrap().to_string()
    };
    let (_, out, _) = run(&["info", SAMPLE], "");
    assert!(out.contains("\nwalk      by stripes: 26212 numbers, 104848 bytes\n"), "{out}");
    let file = in_chunks("A", &coast(9));
    assert!(walk("striped.tzb", &file).starts_with("by stripes: "));
    let unsound = changed(&file, start_of(&file, GROUPDIR) + 40, &words(&[8_999]));
    let told = walk("refused.tzb", &unsound);
    assert!(
        told.starts_with("plainly: refusal 49: A chunk's box reaches above or below"),
        "{told}"
    );
    let tall = vec![vec![(0, 0), (0, 90_000), (0, 0)]; 60];
    let told = walk("too-large.tzb", &in_chunks("A", &tall));
    let bytes = 4 * (5 + 3 * 15 + 60 * 15);
    assert_eq!(told, format!("plainly: the stripes would take {bytes} bytes, more than the file"));
}

/// One position is asked plainly, many by stripes.
#[test]
fn one_position_and_many_are_answered_alike() {
    let file = Kept::new("coast.tzb", &in_chunks("A", &coast(40)));
    let positions = ["0.5 0.2", "1.0001 0.2051", "1.0040 0.2051", "1.1 0.2", "0.5 0.4", "0.5 0.41"];
    for task in ["zone", "zones"] {
        let one = positions.map(|position| {
            let name = run(&[task, &file.0, position], "").1;
            if name.is_empty() { "\n".to_string() } else { name }
        });
        let (_, many, err) = run(&[task, &file.0], positions.join("\n"));
        assert_eq!((many, err.as_str()), (one.concat(), ""), "{task}");
        assert_eq!(one.iter().filter(|name| *name == "A\n").count(), 3, "{one:?}");
    }
}

#[test]
fn help_and_version() {
    let (status, out, err) = run(&["--help"], "");
    assert_eq!((status, err.as_str()), (Some(0), ""));
    assert!(out.contains("Exit status:"), "{out}");
    assert!(out.contains("tzb show-journal PATH [INDEX]"), "{out}");
    for task in ["zone", "zones", "check", "names", "info", "map", "journal"] {
        assert!(out.contains(&format!("tzb {task} FILE")), "{out}");
        let (status, own, _) = run(&[task, "--help"], "");
        assert_eq!(status, Some(0));
        assert!(own.starts_with(&format!("tzb {task} ")), "{own}");
    }
    let version = format!("tzb {}\n", env!("CARGO_PKG_VERSION"));
    assert_eq!(run(&["--version"], ""), answered(&version));
}

#[test]
fn bad_usage_is_status_2() {
    let cases: [&[&str]; 6] = [
        &[],
        &["sone", SAMPLE],
        &["zone", SAMPLE, "8.68"],
        &["zone", SAMPLE, "nan", "50.11"],
        &["zone", "--fast", SAMPLE],
        &["check", SAMPLE, "8.68", "50.11"],
    ];
    for words in cases {
        let (status, out, err) = run(words, "");
        assert_eq!((status, out.as_str()), (Some(2), ""), "{words:?}");
        assert!(err.starts_with("tzb: ") && err.contains("--help"), "{err}");
    }
    for path in ["no-such-file.tzb", "src"] {
        let (status, out, err) = run(&["zone", path, "1", "1"], "");
        assert_eq!((status, out.as_str()), (Some(2), ""));
        assert!(err.starts_with(&format!("tzb: {path}: ")), "{err}");
    }
}

/// Nobody reads the answers: the command ends, without a word.
#[test]
fn a_broken_pipe_is_no_mistake() {
    let mut child = tzb(&["zone", SAMPLE]).spawn().unwrap();
    drop(child.stdout.take());
    child.stdin.take().unwrap().write_all(&b"8.68 50.11\n".repeat(2000)).unwrap();
    let (status, _, err) = ended(child);
    assert_eq!((status, err.as_str()), (Some(0), ""));
}

/// An answer is written before the next position is waited for.
#[test]
fn answers_do_not_wait() {
    let mut child = tzb(&["zone", SAMPLE]).spawn().unwrap();
    let mut input = child.stdin.take().unwrap();
    let output = BufReader::new(child.stdout.take().unwrap());
    let (tell, told) = mpsc::channel();
    std::thread::spawn(move || output.lines().try_for_each(|line| tell.send(line.unwrap())));
    for (position, name) in [("8.68 50.11", "Germany"), ("139.7 35.7", "Japan")] {
        writeln!(input, "{position}").unwrap();
        assert_eq!(told.recv_timeout(Duration::from_secs(30)).as_deref(), Ok(name));
    }
    drop(input);
    assert_eq!(ended(child).0, Some(0));
}
