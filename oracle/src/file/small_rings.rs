//! Rings of few segments (document 02, 2026-05): small files with the lowest broken rule, read off the paper by hand. A ring needs three segments whose ends differ.

mod tables;

use super::*;
use tables::{Group, Leg, RINGS, Ring};

pub struct Case {
    pub what: String,
    pub file: Vec<u8>,
    /// The lowest broken rule, 0 for none.
    pub rule: u32,
    /// How many segments count in the ring that has the fewest.
    pub fewest: usize,
}

fn case(what: &str, file: Vec<u8>, rule: u32, fewest: usize) -> Case {
    Case { what: what.to_string(), file, rule, fewest }
}

/// Where the ring names the same points again it names the same group.
fn add_ring(shape: &mut Shape, ring: Ring) -> Vec<Op> {
    let mut ops: Vec<Op> = Vec::new();
    for (i, &Leg { group, turned }) in ring.iter().enumerate() {
        let earlier = ring[..i].iter().position(|leg| leg.group == group);
        let chunks = || Chunks(group.iter().map(|chunk| chunk.to_vec()).collect());
        let group = earlier.map_or_else(|| shape.add_group(chunks()), |leg| ops[leg].group);
        ops.push(Op { group, turned });
    }
    ops
}

/// Zones of one polygon each, of these rings.
fn file(zones: &[&[Ring]]) -> Vec<u8> {
    let mut shape = Shape::default();
    for zone in zones {
        let polygon = zone.iter().map(|ring| add_ring(&mut shape, ring)).collect();
        shape.zones.push(vec![polygon]);
    }
    striped::named(&shape).lay()
}

/// A field of a section's record: type, record, width, place; and what is written there.
type Field = (u32, usize, usize, usize, i32);

fn with(file: &[u8], fields: &[Field]) -> Vec<u8> {
    let mut out = file.to_vec();
    for &(typ, record, width, place, value) in fields {
        let [_, off, _] = entries(file).into_iter().find(|entry| entry[0] == typ).unwrap();
        put(&mut out, off as usize + record * width + place, value as u32);
    }
    repair(&mut out);
    out
}

/// What stands in a group's record for its entry, and for its exit.
fn entry(group: usize, (x, y): (i32, i32)) -> [Field; 2] {
    [(GROUPDIR, group, 44, 12, x), (GROUPDIR, group, 44, 16, y)]
}

fn exit(group: usize, (x, y): (i32, i32)) -> [Field; 2] {
    [(GROUPDIR, group, 44, 20, x), (GROUPDIR, group, 44, 24, y)]
}

const fn ahead<'a>(group: Group<'a>) -> Leg<'a> {
    Leg { group, turned: false }
}

const LINE: Ring = &[ahead(&[&[(5, 5), (6, 7)]])];
const TRIANGLE: Ring = &[ahead(&[&[(5, 5), (7, 5), (5, 7)]])];
const SQUARE: Ring = &[ahead(&[&[(0, 0), (9, 0), (9, 9), (0, 9), (0, 0)]])];

/// Each with the number of its segments that count; below three it is rule 2.
pub fn cases() -> Vec<Case> {
    let one = |&(what, ring, count): &(&str, Ring, usize)| {
        case(what, file(&[&[ring]]), if count < 3 { 2 } else { 0 }, count)
    };
    let mut out: Vec<Case> = RINGS.iter().map(one).collect();
    out.extend(among_others());
    out.extend(that_nothing_names());
    out.extend(with_other_ends());
    out.extend(beside_another_rule());
    out
}

/// One ring of several decides: the first, the last, a hole, another zone's.
fn among_others() -> Vec<Case> {
    vec![
        case("a square with a hole of three", file(&[&[SQUARE, TRIANGLE]]), 0, 3),
        case("a square with a hole that is a line", file(&[&[SQUARE, LINE]]), 2, 2),
        case("the last of three rings a line", file(&[&[SQUARE, TRIANGLE, LINE]]), 2, 2),
        case("the outer ring a line", file(&[&[LINE, TRIANGLE]]), 2, 2),
        case("the second zone a line", file(&[&[SQUARE], &[LINE]]), 2, 2),
        case("the first zone a line", file(&[&[LINE], &[SQUARE]]), 2, 2),
    ]
}

/// Of a polygon's two rings it names one alone; of two polygons the zone names one alone.
fn that_nothing_names() -> Vec<Case> {
    let only = |file: &[u8], typ, first| with(file, &[(typ, 0, 24, 0, first), (typ, 0, 24, 4, 1)]);
    let of_rings = |a, b| file(&[&[a, b]]);
    let two = |a, b| {
        let mut shape = Shape::default();
        let polygons = [a, b].map(|ring| vec![add_ring(&mut shape, ring)]);
        shape.zones.push(polygons.into());
        striped::named(&shape).lay()
    };
    vec![
        case("the second ring not named", only(&of_rings(SQUARE, TRIANGLE), POLYDIR, 0), 0, 3),
        case("a line not named", only(&of_rings(SQUARE, LINE), POLYDIR, 0), 2, 2),
        case("a line not named, the first ring", only(&of_rings(LINE, SQUARE), POLYDIR, 1), 2, 2),
        case("a line in a polygon not named", only(&two(SQUARE, LINE), TZDIR, 0), 2, 2),
        case("a line in the first polygon, not named", only(&two(LINE, SQUARE), TZDIR, 1), 2, 2),
        case("a triangle in a polygon not named", only(&two(SQUARE, TRIANGLE), TZDIR, 0), 0, 3),
    ]
}

/// Stored entries and exits that are not the first and last points: rule 5, unless the points themselves have too few segments. Counted by the stored ones each would be on the other side of three.
fn with_other_ends() -> Vec<Case> {
    let there_and_back: Ring = &[ahead(&[&[(0, 0), (4, 0)]]), ahead(&[&[(4, 0), (0, 0)]])];
    let closed: Ring = &[ahead(&[&[(0, 0), (4, 0), (0, 0)]])];
    let two: Ring = &[ahead(&[&[(0, 0), (4, 0)]]), ahead(&[&[(0, 4)]])];
    let open: Ring = &[ahead(&[&[(0, 0), (4, 0), (0, 4)]])];
    let points: Ring = &[ahead(&[&[(0, 0)]]), ahead(&[&[(4, 0)]]), ahead(&[&[(0, 4)]])];
    let turned: Ring = &[
        ahead(&[&[(0, 0), (4, 0)]]),
        Leg { group: &[&[(0, 0), (4, 0)], &[(4, 0)]], turned: true },
    ];
    let of = |what, ring, fields: [Field; 2], rule, fewest| {
        case(what, with(&file(&[&[ring]]), &fields), rule, fewest)
    };
    vec![
        of("a line, its exit stored elsewhere", there_and_back, exit(0, (4, 1)), 2, 2),
        of("a line, its entry stored elsewhere", there_and_back, entry(1, (3, 0)), 2, 2),
        of("a line, its last exit stored elsewhere", there_and_back, exit(1, (0, 1)), 2, 2),
        of("a closed line, its exit stored elsewhere", closed, exit(0, (1, 0)), 2, 2),
        of("a closed line, its entry stored elsewhere", closed, entry(0, (0, 1)), 2, 2),
        of("a line with a turned group, exit stored elsewhere", turned, exit(1, (3, 0)), 2, 2),
        of("a line with a turned group, entry stored elsewhere", turned, entry(1, (1, 0)), 2, 2),
        of("a joint that the stored entry hides", two, entry(1, (4, 0)), 5, 3),
        of("a closing joint that the stored exit hides", two, exit(1, (0, 0)), 5, 3),
        of("a closing joint that the stored entry hides", two, entry(0, (0, 4)), 5, 3),
        of("an open triangle stored as closed", open, exit(0, (0, 0)), 5, 3),
        of("an open triangle stored as closed, by its entry", open, entry(0, (0, 4)), 5, 3),
        of("three points, one stored as another by its exit", points, exit(1, (0, 4)), 5, 3),
        of("three points, one stored as another by its entry", points, entry(2, (4, 0)), 5, 3),
    ]
}

/// What breaks a rule, of a file whose zones have one ring of one group of one chunk each, with x from 5 on.
fn breaks(rule: u32, record: usize) -> Field {
    match rule {
        // A point count one off.
        2 => (RINGDIR, record, 28, 4, 9),
        // Boxes too small.
        4 => (CHUNKDIR, record, 24, 16, 5),
        5 => (GROUPDIR, record, 44, 36, 5),
        _ => (TZDIR, record, 24, 16, 5),
    }
}

/// The last number of a chunk, with its byte's place in POINTS, goes on past the chunk's end: rule 3.
fn running_on(file: &[u8], byte: usize) -> Vec<u8> {
    let [_, off, _] = entries(file).into_iter().find(|entry| entry[0] == POINTS).unwrap();
    let mut out = file.to_vec();
    out[off as usize + byte] |= 0x80;
    repair(&mut out);
    out
}

/// A line and a triangle. Beside the line's two segments another rule is broken, in the line's own records or in the triangle's: F3 comes before, the older part of F2 is rule 2 as well, F4 to F6 come after.
fn beside_another_rule() -> Vec<Case> {
    let mut out = Vec::new();
    for (rings, line, name) in [([LINE, TRIANGLE], 0, "first"), ([TRIANGLE, LINE], 1, "second")] {
        let both = file(&[&rings[..1], &rings[1..]]);
        for (record, whose) in [(line, "its own"), (1 - line, "another's")] {
            let what = |rule| format!("a line, the {name} zone, and rule {rule} broken, {whose}");
            // A line has four bytes of points, the triangle six.
            let byte = match (record, line) {
                (0, 0) => 3,
                (0, _) => 5,
                _ => 9,
            };
            out.push(case(&what(3), running_on(&both, byte), 3, 2));
            for rule in [2, 4, 5, 6] {
                out.push(case(&what(rule), with(&both, &[breaks(rule, record)]), 2, 2));
            }
        }
    }
    // The joint of two chunks, where each box covers its own points.
    let joint = (CHUNKDIR, 0, 24, 16, 0);
    let line: Ring = &[ahead(&[&[(0, 0)], &[(4, 0)]])];
    let triangle: Ring = &[ahead(&[&[(0, 0)], &[(4, 0), (0, 4)]])];
    out.push(case(
        "a line in two chunks, its joint not covered",
        with(&file(&[&[line]]), &[joint]),
        2,
        2,
    ));
    out.push(case(
        "a triangle in two chunks, its joint not covered",
        with(&file(&[&[triangle]]), &[joint]),
        4,
        3,
    ));
    // The same with no line: then the other rule is told.
    let triangles = file(&[&[TRIANGLE], &[TRIANGLE]]);
    for (record, byte) in [(0, 5), (1, 11)] {
        let what = |rule| format!("triangles, and rule {rule} broken");
        out.push(case(&what(3), running_on(&triangles, byte), 3, 3));
        for rule in [2, 4, 5, 6] {
            out.push(case(&what(rule), with(&triangles, &[breaks(rule, record)]), rule, 3));
        }
    }
    out
}

#[cfg(test)]
mod tests {
    use super::*;
    use crate::file::accepted::fewest_segments;
    use crate::rules::full_check;

    /// What is read off the paper by hand is what the rules say; and the second opinion counts the same, where the original opens the file and every chunk decodes.
    #[test]
    fn the_cases_are_as_the_rules_say() {
        let mut counted = [0; 5];
        for Case { what, file, rule, fewest } in cases() {
            assert_eq!(full_check(&file).err().map_or(0, |broken| broken.rule), rule, "{what}");
            if let Some(count) = fewest_segments(&file) {
                assert_eq!(count, fewest, "{what}");
                counted[count] += 1;
            }
        }
        assert_eq!(counted[1], 0);
        assert!([0, 2, 3, 4].iter().all(|&n| counted[n] >= 2), "{counted:?}");
    }
}
