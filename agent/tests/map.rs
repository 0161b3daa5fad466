//! Zones as GeoJSON: the text to its last byte, what a reader of it gets, and every refusal.

mod common;

use common::{
    CHUNKDIR, GROUPDIR, POINTS, RINGDIR, RINGOPS, Squares, TZDIR, changed, drawn, sample, words,
};
use tzb::{Index, Refusal, full_check, map};

type Point = (i32, i32);
/// Rings as a text has them: closed, in hundred-thousandths of a degree.
type Ring = Vec<Point>;

const TRIANGLE: [Point; 3] = [(0, 0), (100, 0), (0, 100)];
const SQUARE: [Point; 4] = [(0, 0), (1000, 0), (1000, 1000), (0, 1000)];

fn one(rings: &[&[Point]]) -> Result<String, Refusal> {
    map(&drawn(&["A"], &[rings]), 0)
}

fn whole(coordinates: &str) -> Result<String, Refusal> {
    Ok(format!(r#"{{"type":"MultiPolygon","coordinates":[{coordinates}]}}"#))
}

fn number(answer: Result<String, Refusal>) -> u32 {
    answer.unwrap_err().number()
}

/// A reader of just this form, with no room for a space or another decimal: what it reads it has written as it stood.
mod read {
    use super::{Point, Ring};

    pub fn polygons(text: &str) -> Option<Vec<Vec<Ring>>> {
        let text =
            text.strip_prefix(r#"{"type":"MultiPolygon","coordinates":"#)?.strip_suffix('}')?;
        let (all, rest) = list(text, |text| list(text, |text| list(text, point)))?;
        rest.is_empty().then_some(all)
    }

    type Read<'a, T> = Option<(T, &'a str)>;

    fn list<'a, T>(text: &'a str, item: impl Fn(&'a str) -> Read<'a, T>) -> Read<'a, Vec<T>> {
        let mut all = Vec::new();
        let mut rest = text.strip_prefix('[')?;
        loop {
            let (one, behind) = item(rest)?;
            all.push(one);
            if let Some(end) = behind.strip_prefix(']') {
                return Some((all, end));
            }
            rest = behind.strip_prefix(',')?;
        }
    }

    fn point(text: &str) -> Read<'_, Point> {
        let (x, rest) = decimal(text.strip_prefix('[')?)?;
        let (y, rest) = decimal(rest.strip_prefix(',')?)?;
        Some(((x, y), rest.strip_prefix(']')?))
    }

    /// A number as RFC 8259 has it, with five decimals.
    fn decimal(text: &str) -> Read<'_, i32> {
        let end = text.find([',', ']'])?;
        let (shown, rest) = text.split_at(end);
        let digits = shown.strip_prefix('-').unwrap_or(shown);
        let (ones, parts) = digits.split_once('.')?;
        let plain = |text: &str| !text.is_empty() && text.bytes().all(|b| b.is_ascii_digit());
        let least = ones.len() == 1 || !ones.starts_with('0');
        let value: i32 = format!("{ones}{parts}").parse().ok()?;
        let negative = digits.len() < shown.len();
        let right = plain(ones) && plain(parts) && parts.len() == 5 && least;
        (right && !(negative && value == 0))
            .then_some((if negative { -value } else { value }, rest))
    }
}

/// Twice the area: above 0 where the ring runs counterclockwise.
fn doubled_area(ring: &[Point]) -> i64 {
    let wide = |(x, y): Point| (i64::from(x), i64::from(y));
    let pairs = ring.windows(2).map(|pair| (wide(pair[0]), wide(pair[1])));
    pairs.map(|(a, b)| a.0 * b.1 - b.0 * a.1).sum()
}

/// What RFC 7946 and the request ask of every map.
fn hold_to_the_rules(text: &str) -> Vec<Vec<Ring>> {
    let polygons = read::polygons(text).expect(text);
    for (place, ring) in polygons.iter().flat_map(|rings| rings.iter().enumerate()) {
        assert!((4..=10_000).contains(&ring.len()), "{} positions", ring.len());
        assert_eq!(ring.first(), ring.last());
        assert!(ring.iter().all(|p| p.0.abs() <= 18_000_000 && p.1.abs() <= 9_000_000));
        let area = doubled_area(ring);
        assert!(if place == 0 { area > 0 } else { area < 0 }, "ring {place}: {area}");
    }
    polygons
}

#[test]
fn the_triangle() {
    let text = r#"{"type":"MultiPolygon","coordinates":[[[[0.00000,0.00000],[0.00100,0.00000],[0.00000,0.00100],[0.00000,0.00000]]]]}"#;
    assert_eq!(one(&[&TRIANGLE]), Ok(text.to_string()));
    let index = Index::open(drawn(&["A", "B"], &[&[&TRIANGLE]])).unwrap();
    assert_eq!([index.map(0), index.map(1)], [Ok(text.to_string()), Ok(text.to_string())]);
    hold_to_the_rules(text);
}

/// A ring that is stored the other way round starts at the same point.
#[test]
fn a_ring_is_turned_about_its_first_point() {
    let clockwise = [TRIANGLE[0], TRIANGLE[2], TRIANGLE[1]];
    assert_eq!(one(&[&clockwise]), one(&[&TRIANGLE]));
    let from_another = [TRIANGLE[1], TRIANGLE[0], TRIANGLE[2]];
    let text = "[[[0.00100,0.00000],[0.00000,0.00100],[0.00000,0.00000],[0.00100,0.00000]]]";
    assert_eq!(one(&[&from_another]), whole(text));
}

#[test]
fn polygons_and_holes() {
    let hole = [(10, 10), (20, 10), (10, 20)];
    let file = drawn(&["A"], &[&[&SQUARE, &hole], &[&[(-1, -2), (-3, -2), (-3, -4)]]]);
    let square = "[[0.00000,0.00000],[0.01000,0.00000],[0.01000,0.01000],[0.00000,0.01000],[0.00000,0.00000]]";
    let hole = "[[0.00010,0.00010],[0.00010,0.00020],[0.00020,0.00010],[0.00010,0.00010]]";
    let second =
        "[[-0.00001,-0.00002],[-0.00003,-0.00002],[-0.00003,-0.00004],[-0.00001,-0.00002]]";
    assert_eq!(map(&file, 0), whole(&format!("[{square},{hole}],[{second}]")));
}

#[test]
fn the_ends_of_the_earth() {
    let all =
        [(-18_000_000, -9_000_000), (18_000_000, -9_000_000), (18_000_000, 9_000_000), (99_999, 5)];
    let text = "[[[-180.00000,-90.00000],[180.00000,-90.00000],[180.00000,90.00000],[0.99999,0.00005],[-180.00000,-90.00000]]]";
    assert_eq!(one(&[&all]), whole(text));
}

#[test]
fn a_zone_number_too_large_is_45() {
    let file = drawn(&["A", "B"], &[&[&TRIANGLE]]);
    for zone in [2, 3, 65_535, u32::MAX] {
        assert_eq!(number(map(&file, zone)), 45);
        assert_eq!(number(Index::open(&file).unwrap().map(zone)), 45);
    }
}

/// Files with this ring: the outer one and a hole, of the first polygon and of the last.
fn files_with(ring: &[Point]) -> [Vec<u8>; 4] {
    let shapes: [&[&[&[Point]]]; 4] = [
        &[&[ring]],
        &[&[&SQUARE, ring]],
        &[&[&SQUARE], &[ring]],
        &[&[&SQUARE], &[&SQUARE, &TRIANGLE, ring]],
    ];
    shapes.map(|polygons| drawn(&["A"], polygons))
}

/// Three points on a line, a bow whose halves cancel out, two points there and back twice: segments enough, and no area.
#[test]
fn a_ring_without_area_is_48() {
    let line = [(0, 0), (5, 5), (10, 10)];
    let bow = [(0, 0), (10, 10), (10, 0), (0, 10)];
    let twice = [(0, 0), (10, 10), (0, 0), (10, 10)];
    let bad: [&[Point]; 3] = [&line, &bow, &twice];
    for ring in bad {
        for file in files_with(ring) {
            assert_eq!((full_check(&file), number(map(&file, 0))), (Ok(()), 48), "{ring:?}");
        }
    }
}

/// A line of two points and a point have fewer than three segments. So has a line some of whose points are stored twice.
#[test]
fn a_ring_with_fewer_than_three_segments_is_47() {
    let bad: [&[Point]; 3] = [&[(0, 0), (10, 10)], &[(7, 7)], &[(0, 0), (0, 0), (10, 1), (10, 1)]];
    for ring in bad {
        for file in files_with(ring) {
            let refusal = map(&file, 0).unwrap_err();
            assert_eq!((refusal.number(), refusal.rule()), (47, Some(2)), "{ring:?}");
            assert_eq!(full_check(&file), Err(refusal));
            assert_eq!(Index::open_checked(&file).err(), Some(refusal));
        }
    }
}

/// The closing position counts.
#[test]
fn ten_thousand_positions_and_one_more() {
    let ring = |positions: i32| -> Vec<Point> {
        (0..positions - 1).map(|n| (n, if n == 0 { 1 } else { n % 2 * 2 })).collect()
    };
    let text = one(&[&ring(10_000)]).unwrap();
    assert_eq!(hold_to_the_rules(&text)[0][0].len(), 10_000);
    assert_eq!(number(one(&[&ring(10_001)])), 48);
    assert_eq!(number(one(&[&SQUARE, &ring(10_001)])), 48);
}

/// Before anything is said of the zone.
#[test]
fn the_full_check_comes_first() {
    let squares = Squares::new(&["A"]);
    let side = words(&[99_999]);
    let cases = [
        (2, squares.with(RINGDIR, 4, &words(&[5]))),
        (2, squares.with(RINGOPS, 0, &words(&[1]))),
        (3, squares.with(POINTS, 0, &[0x80, 0x00])),
        (4, squares.with(CHUNKDIR, 16, &side)),
        (5, squares.with(GROUPDIR, 20, &words(&[1]))),
        (6, squares.with(TZDIR, 16, &words(&[10]))),
    ];
    for (rule, damaged) in cases {
        for zone in [0, 1, u32::MAX] {
            let refusal = map(&damaged, zone).unwrap_err();
            assert_eq!((refusal.number(), refusal.rule()), (47, Some(rule)));
            assert_eq!(Err(refusal), full_check(&damaged));
        }
    }
    let flags = changed(&squares.bytes, 8, &words(&[1]));
    for (opening, damaged) in [(1, vec![0; 67]), (2, vec![0; 100]), (18, flags)] {
        assert_eq!([0, 9].map(|zone| number(map(&damaged, zone))), [opening; 2]);
    }
}

/// Every seventh zone: `scripts/read_maps.py` takes all. One of them all is refused, Canada/Nunavut: it has an outer ring of
/// 10,888 positions.
#[test]
fn zones_of_the_sample() {
    let file = sample();
    let mut met = [0; 3];
    for zone in (0..481).step_by(7) {
        let polygons = hold_to_the_rules(&map(&file, zone).unwrap());
        met[0] += polygons.len();
        met[1] += polygons.iter().map(Vec::len).sum::<usize>();
        met[2] += polygons.iter().flatten().map(Vec::len).sum::<usize>();
    }
    // As the file has them, counted by scripts/index_file.py: polygons, rings, positions.
    assert_eq!(met, [866, 878, 53_738]);
    assert_eq!(number(map(&file, 82)), 48);
    assert_eq!(Index::open(&file).unwrap().name(82), Ok("Canada/Nunavut"));
}

/// A border belongs to its zone: so says the map, and so says containment.
#[test]
fn every_position_of_a_map_is_in_its_zone() {
    let index = Index::open(sample()).unwrap();
    for name in ["Germany", "South Africa", "Italy"] {
        let zone = (0..481).find(|&zone| index.name(zone) == Ok(name)).unwrap();
        let polygons = hold_to_the_rules(&index.map(zone).unwrap());
        for &(x, y) in polygons.iter().flatten().flatten() {
            assert_eq!(index.contains(zone, x, y), Ok(true), "{name} at {x} {y}");
        }
    }
}
