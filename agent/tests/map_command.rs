//! The command `tzb map`, run as a program: what it writes, where, and its exit status.

mod common;

use std::fs;
use std::os::unix::fs::symlink;
use std::process::{Command, Stdio};

use common::program::{Kept, answered, ended, run, tzb};
use common::{Squares, TZDIR, drawn, words};

const SAMPLE: &str = "../sample/real-ne.tzb";
const TRIANGLE: &[(i32, i32)] = &[(0, 0), (100, 0), (0, 100)];
const LINE: &str = "{\"type\":\"MultiPolygon\",\"coordinates\":[[[[0.00000,0.00000],[0.00100,0.00000],[0.00000,0.00100],[0.00000,0.00000]]]]}\n";

fn triangles(file: &str, names: &[&str]) -> Kept {
    Kept::new(file, &drawn(names, &[&[TRIANGLE]]))
}

/// A directory for the time of a test, and the names in it.
struct Room(String);

impl Room {
    fn new(name: &str) -> Self {
        let path = format!("{}/{name}", env!("CARGO_TARGET_TMPDIR"));
        let _ = fs::remove_dir_all(&path);
        fs::create_dir(&path).unwrap();
        Self(path)
    }

    fn path(&self, name: &str) -> String {
        format!("{}/{name}", self.0)
    }

    fn names(&self) -> Vec<String> {
        let entries = fs::read_dir(&self.0).unwrap().map(|entry| entry.unwrap().file_name());
        let mut names: Vec<String> = entries.map(|name| name.into_string().unwrap()).collect();
        names.sort();
        names
    }
}

impl Drop for Room {
    fn drop(&mut self) {
        let _ = fs::remove_dir_all(&self.0);
    }
}

#[test]
fn a_zone_by_number_and_by_name() {
    let file = triangles("map.tzb", &["A", "Rio de Janeiro", "-x", "7"]);
    let named: [&[&str]; 7] = [
        &["0"],
        &["A"],
        &["1"],
        &["Rio de Janeiro"],
        &["Rio", "de", "Janeiro"],
        &["--", "-x"],
        &["3"],
    ];
    for zone in named {
        let arguments = [&["map", &file.0], zone].concat();
        assert_eq!(run(&arguments, ""), answered(LINE), "{zone:?}");
    }
    let by_number = run(&["map", SAMPLE, "126"], "");
    assert_eq!((by_number.0, by_number.1.lines().count()), (Some(0), 1));
    assert_eq!(by_number, run(&["map", SAMPLE, "Germany"], ""));
    assert_eq!(by_number.1.trim_end(), tzb::map(&fs::read(SAMPLE).unwrap(), 126).unwrap());
}

#[test]
fn there_is_no_such_zone() {
    let file = triangles("no-such.tzb", &["A", "B", "A", "7"]);
    let named = |name| format!("no zone is named {name:?}: 'tzb names' lists the names");
    let past = "refusal 45: There is no zone of that number. The last is 3.".to_string();
    let cases = [
        ("4", past.clone()),
        ("7", past.clone()),
        ("99999999999999999999", past),
        ("a", named("a")),
        ("", named("")),
        ("-1", named("-1")),
        ("new\nline", named("new\nline")),
        ("A", "2 zones are named \"A\": ask by number, 0, 2".to_string()),
    ];
    for (zone, why) in cases {
        let said = run(&["map", &file.0, zone], "");
        let line = format!("tzb: {}: {why}\n", file.0);
        assert_eq!(said, (Some(1), String::new(), line), "{zone:?}");
    }
}

#[test]
fn a_refusal_is_status_1() {
    let (status, out, err) = run(&["map", SAMPLE, "Canada/Nunavut"], "");
    assert_eq!((status, out.as_str()), (Some(1), ""));
    let line = "refusal 48: A ring of the zone has under four positions, over 10,000, or no area.";
    assert_eq!(err, format!("tzb: {SAMPLE}: {line}\n"));
    // What the file has wrong is told before anything is said of the zone.
    let small_box = Squares::new(&["A"]).with(TZDIR, 16, &words(&[10]));
    let unsound = Kept::new("map-unsound.tzb", &small_box);
    for zone in ["0", "1", "A", "B"] {
        let (status, out, err) = run(&["map", &unsound.0, zone], "");
        assert_eq!((status, out.as_str()), (Some(1), ""));
        let line = format!("tzb: {}: refusal 47: ", unsound.0);
        assert!(err.starts_with(&line) && err.contains("Rule 6 is broken"), "{err}");
        let (status, out, err) = run(&["map", "Cargo.toml", zone], "");
        assert_eq!((status, out.as_str()), (Some(1), ""));
        assert!(err.starts_with("tzb: Cargo.toml: refusal 2: "), "{err}");
    }
}

#[test]
fn into_a_file() {
    let room = Room::new("map-file");
    let file = triangles("map-file.tzb", &["A"]);
    let path = room.path("a.geojson");
    for option in ["--output", "-o"] {
        assert_eq!(run(&["map", &file.0, "A", option, &path], ""), answered(""));
        assert_eq!(fs::read_to_string(&path).unwrap(), LINE);
        fs::write(&path, "something longer than the line that comes ".repeat(9)).unwrap();
    }
    symlink("a.geojson", room.path("link")).unwrap();
    assert_eq!(run(&["map", "-o", &room.path("link"), &file.0, "A"], ""), answered(""));
    assert_eq!(fs::read_to_string(&path).unwrap(), LINE);
    assert_eq!(room.names(), ["a.geojson", "link"]);
    assert_eq!(run(&["map", &file.0, "A", "-o", "-"], ""), answered(LINE));
}

/// What stood there stands there still, and nothing beside it.
#[test]
fn a_file_is_written_whole_or_not_at_all() {
    let room = Room::new("map-whole");
    let path = room.path("a.geojson");
    fs::write(&path, "old").unwrap();
    for zone in ["481", "82", "nowhere"] {
        let (status, out, _) = run(&["map", SAMPLE, zone, "-o", &path], "");
        assert_eq!((status, out.as_str()), (Some(1), ""), "{zone}");
    }
    // A file may have a block or two: Germany's map has more.
    let program = tzb(&["map", SAMPLE, "Germany", "--output", &path]);
    let mut short = Command::new("sh");
    short.args(["-c", "trap '' XFSZ; ulimit -f 2; exec \"$@\"", "sh"]);
    short.arg(program.get_program()).args(program.get_args());
    let short = short.stdin(Stdio::null()).stdout(Stdio::piped()).stderr(Stdio::piped());
    let (status, out, err) = ended(short.spawn().unwrap());
    assert_eq!((status, out.as_str()), (Some(2), ""));
    assert!(err.starts_with(&format!("tzb: {path}: File too large")), "{err}");
    assert_eq!(fs::read_to_string(&path).unwrap(), "old");
    assert_eq!(room.names(), ["a.geojson"]);
}

#[test]
fn a_file_that_cannot_be_written_is_status_2() {
    let room = Room::new("map-cannot");
    let file = triangles("map-cannot.tzb", &["A"]);
    let index = room.path("index.tzb");
    fs::copy(&file.0, &index).unwrap();
    let around = room.path("../map-cannot/index.tzb");
    let cases = [
        (room.0.clone(), "what is there is no plain file"),
        ("/dev/null".to_string(), "what is there is no plain file"),
        (room.path("no/such/place"), "No such file or directory"),
        (index.clone(), "that is the index file itself"),
        (around, "that is the index file itself"),
    ];
    for (path, why) in cases {
        let (status, out, err) = run(&["map", &index, "A", "-o", &path], "");
        assert_eq!((status, out.as_str()), (Some(2), ""), "{path}");
        assert!(err.starts_with(&format!("tzb: {path}: {why}")), "{err}");
    }
    assert_eq!(fs::read(&index).unwrap(), fs::read(&file.0).unwrap());
    assert_eq!(room.names(), ["index.tzb"]);
}

#[test]
fn bad_usage_is_status_2() {
    let cases: [(&[&str], &str); 6] = [
        (&["map"], "which index file?"),
        (&["map", "-o"], "which index file?"),
        (&["map", SAMPLE], "which zone, by number or by name?"),
        (&["map", SAMPLE, "126", "-o"], "which file is to be written?"),
        (&["map", "-n", SAMPLE, "126"], "there is no option \"-n\""),
        (&["map", SAMPLE, "126", "--output=a"], "there is no option \"--output=a\""),
    ];
    for (words, why) in cases {
        let line = format!("tzb: {why}\nTry 'tzb map --help'.\n");
        assert_eq!(run(words, ""), (Some(2), String::new(), line), "{words:?}");
    }
}
