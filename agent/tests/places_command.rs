//! Where a chunk is broken, as the command tells it: `tzb check`, `tzb zone` and the others, run as programs.

mod common;

use common::broken::{BY_THE_SEA, Damage, Shore};
use common::program::{Kept, answered, run, run_bytes};
use common::{
    CHUNKDIR, GROUPDIR, POINTS, Point, RINGDIR, Squares, TZDIR, changed, chunk_of, drawn, sample,
    start_of, words,
};
use tzb::journal::ENTRY;

/// What is wrong at the place, by the refusal's number.
const WORDS: [(u32, &str); 6] = [
    (38, "a number is cut off (38)"),
    (39, "a number is longer than it need be (39)"),
    (40, "a number does not fit in 32 bits (40)"),
    (41, "a coordinate, added up to here, does not fit in 32 bits (41)"),
    (42, "a point lies outside 180 degrees of longitude or 90 of latitude (42)"),
    (43, "bytes are left over behind the last point (43)"),
];

/// What the full check says of a file with a chunk that cannot be read.
const RULE_3: &str = "not accepted: refusal 47: The file opens, but does not pass the full check. Rule 3 is broken: the points of a chunk cannot be read. A question that meets it is refused.";

fn shore() -> Shore {
    Shore::new((100_000, 200_000))
}

/// The last damage to a chunk that gets this refusal.
fn damage(shore: &Shore, chunk: usize, refusal: u32) -> Damage {
    shore.damages(chunk).into_iter().rfind(|damage| damage.refusal == refusal).unwrap()
}

/// A position, as the command line has it.
fn position((x, y): Point) -> String {
    format!("{},{}", f64::from(x) / 100_000.0, f64::from(y) / 100_000.0)
}

/// Files with a chunk that is broken by each refusal, the byte, the words, the chunk and a position that meets it.
fn broken_files(name: &str) -> Vec<(Kept, String, usize, String)> {
    let shore = shore();
    let broken =
        WORDS.into_iter().zip([0, 3, BY_THE_SEA, 7, 1, 5]).map(|((number, words), chunk)| {
            let damage = damage(&shore, chunk, number);
            let file = shore.file(&[(chunk, &damage.bytes)]);
            let place = chunk_of(&file, chunk).start + damage.place;
            let kept = Kept::new(&format!("{name}-{number}.tzb"), &file);
            (kept, format!("byte {place}: {words}"), chunk, position(shore.beside(chunk)))
        });
    broken.collect()
}

#[test]
fn check_says_where() {
    for (file, told, chunk, _) in broken_files("check") {
        let name = &file.0;
        let lines = format!("{name}: {RULE_3}\n{name}: {told}, in chunk {chunk}\n");
        assert_eq!(run(&["check", name], ""), (Some(1), lines, String::new()));
    }
}

/// Of several chunks the first is told, and of several breaks in it the first.
#[test]
fn check_tells_the_first() {
    let shore = shore();
    let [late, early, left] =
        [(6, 40), (2, 39), (2, 43)].map(|(chunk, number)| damage(&shore, chunk, number).bytes);
    for more in [early.clone(), [early, left].concat()] {
        let file = shore.file(&[(6, &late), (2, &more)]);
        let kept = Kept::new("first.tzb", &file);
        let (status, out, err) = run(&["check", &kept.0], "");
        assert_eq!((status, err.as_str(), out.lines().count()), (Some(1), "", 2));
        let place = chunk_of(&file, 2).start + damage(&shore, 2, 39).place;
        let line = format!("{}: byte {place}: {}, in chunk 2", kept.0, WORDS[1].1);
        assert_eq!(out.lines().last(), Some(line.as_str()));
    }
}

/// Thousands have commas, of bytes and of chunks.
#[test]
fn check_of_the_sample() {
    let sound = sample();
    for (chunk, told) in [(1000, "chunk 1,000"), (5407, "chunk 5,407")] {
        let place = chunk_of(&sound, chunk).start;
        let kept = Kept::new("sample.tzb", &changed(&sound, place, &[0x80, 0x00]));
        let byte = format!("{},{:03},{:03}", place / 1_000_000, place / 1000 % 1000, place % 1000);
        let line = format!("byte {byte}: a number is longer than it need be (39), in {told}");
        let lines = format!("{0}: {RULE_3}\n{0}: {line}\n", kept.0);
        assert_eq!(run(&["check", &kept.0], ""), (Some(1), lines, String::new()));
    }
}

/// The repository's README shows what the command writes of the sample, where the second number of chunk 812 is 80 00.
#[test]
fn the_readme_shows_the_same() {
    let readme = std::fs::read_to_string("../README.md").unwrap();
    let sound = sample();
    let kept = Kept::new("readme.tzb", &changed(&sound, 1_203_725, &[0x80, 0x00]));
    let check = run(&["check", &kept.0], "").1;
    let zone = run(&["zone", &kept.0, "-124.72", "50.23"], "").2;
    assert_eq!((check.lines().count(), zone.lines().count()), (2, 1));
    for line in check.lines().chain(zone.lines()) {
        let line = format!("    {}", line.replace(&kept.0, "broken.tzb"));
        assert!(readme.lines().any(|shown| shown == line), "README.md has no line: {line}");
    }
    for words in ["check broken.tzb", "zone broken.tzb -124.72 50.23"] {
        assert!(readme.contains(&format!("\n    $ ./tzb {words}\n")), "{words}");
    }
}

/// Another rule is told in one line, also where a chunk cannot be read too.
#[test]
fn check_of_another_rule() {
    let squares = Squares::new(&["A"]);
    let cut = squares.with(POINTS, 0, &[0x80, 0x00]);
    let files = [
        (2, drawn(&["A"], &[&[&[(0, 0), (100, 100)]]])),
        (2, changed(&cut, start_of(&cut, RINGDIR) + 4, &words(&[5]))),
        (4, squares.with(CHUNKDIR, 16, &words(&[99_999]))),
        (5, squares.with(GROUPDIR, 20, &words(&[1]))),
        (6, squares.with(TZDIR, 16, &words(&[10]))),
    ];
    for (rule, file) in files {
        let kept = Kept::new("another-rule.tzb", &file);
        let (status, out, err) = run(&["check", &kept.0], "");
        assert_eq!((status, err.as_str(), out.lines().count()), (Some(1), "", 1), "{out}");
        assert!(out.contains(&format!("Rule {rule} is broken")), "{out}");
    }
}

#[test]
fn zone_and_zones_say_where() {
    for (file, told, _, position) in broken_files("zone") {
        let name = &file.0;
        for task in ["zone", "zones"] {
            let line = format!("tzb: {name}: {told}\n");
            let one = run(&[task, name, &position], "");
            assert_eq!(one, (Some(1), String::new(), line), "{task}");
            // From standard input the full check speaks first, and a position elsewhere is answered.
            let lines = format!("tzb: {name}: {RULE_3}\ntzb: line 2: {told}\n");
            let many = run(&[task, name], format!("0 0\n{position}\n-1 0\n"));
            assert_eq!(many, (Some(1), "\n\n\n".to_string(), lines), "{task}");
            // With --check the file is refused as a whole, and that has no place.
            let (status, out, err) = run(&[task, "--check", name, &position], "");
            assert_eq!((status, out.as_str()), (Some(1), ""));
            assert!(err.starts_with(&format!("tzb: {name}: refusal 47: ")), "{err}");
            assert!(!err.contains("byte"), "{err}");
        }
    }
}

/// A position that does not meet the broken chunk is answered.
#[test]
fn a_position_elsewhere_is_answered() {
    let shore = shore();
    let file = Kept::new("elsewhere.tzb", &shore.file(&[(3, &damage(&shore, 3, 43).bytes)]));
    assert_eq!(run(&["zone", &file.0, &position(shore.beside(5))], ""), answered("A\n"));
}

/// A refusal that has no place is told as ever.
#[test]
fn without_a_place() {
    let file = Kept::new("no-place.tzb", &Squares::new(&["A"]).with(RINGDIR, 4, &words(&[5])));
    let sentence = "refusal 36: A ring's point count is not what its groups' add up to.";
    let line = format!("tzb: {}: {sentence}\n", file.0);
    assert_eq!(run(&["zone", &file.0, "0.5 0.5"], ""), (Some(1), String::new(), line));
}

/// An entry has the number alone, so a journal in words has no place. A map is refused by the full check, and has none.
#[test]
fn journals_and_maps_have_no_place() {
    for (file, _, chunk, _) in broken_files("journal") {
        let (x, y) = shore().beside(chunk);
        let (status, journal, err) = run_bytes(&["journal", &file.0], format!("{x} {y}\n"));
        assert_eq!((status, journal.len()), (Some(1), ENTRY));
        assert_eq!(err, format!("tzb: {}: {RULE_3}\n", file.0));
        let number = journal[ENTRY - 1];
        assert!((38..=43).contains(&number), "{number}");
        let (status, out, err) = run(&["show-journal", "-"], journal);
        assert_eq!((status, err.as_str()), (Some(0), ""));
        assert!(out.contains(&format!("\trefusal {number}: ")) && !out.contains("byte "), "{out}");
        let (status, _, err) = run(&["map", &file.0, "0"], "");
        assert_eq!(status, Some(1));
        assert!(err.contains("refusal 47: ") && !err.contains("byte"), "{err}");
    }
}
