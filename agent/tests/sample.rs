//! The library's answers on the sample index.

mod common;

use common::sample;
use tzb::{Index, Refusal, full_check};

/// Positions whose country anyone can look up, and one at sea.
const KNOWN: [(f64, f64, &str); 8] = [
    (8.68, 50.11, "Germany"),
    (139.7, 35.7, "Japan"),
    (-43.2, -22.9, "Brazil/Rio de Janeiro"),
    (2.35, 48.86, "France"),
    (-0.12, 51.5, "United Kingdom"),
    (36.82, -1.29, "Kenya"),
    (7.42, 43.735, "Monaco"),
    (-30.0, 0.0, "Etc/GMT+2"),
];

#[test]
fn known_positions() {
    let file = sample();
    let index = Index::open(&file).unwrap();
    for (lng, lat, name) in KNOWN {
        assert_eq!(index.name_at(lng, lat), Ok(Some(name)), "{lng} {lat}");
        let zone = index.zone(lng, lat).unwrap().unwrap();
        assert_eq!(index.name(zone), Ok(name));
        assert!(index.zones(lng, lat).unwrap().contains(&zone), "{lng} {lat}");
    }
}

/// By the sea the sample has a strip of the ocean too: all zones come in the order of their names.
#[test]
fn several_zones() {
    let file = sample();
    let index = Index::open(&file).unwrap();
    assert_eq!(index.names_at(139.7, 35.7), Ok(vec!["Etc/GMT-9", "Japan"]));
    assert_eq!(index.names_at(8.68, 50.11), Ok(vec!["Germany"]));
}

#[test]
fn nothing_outside_the_range() {
    let file = sample();
    let index = Index::open(&file).unwrap();
    let beyond = [(180.1, 0.0), (-180.1, 0.0), (0.0, 90.1), (0.0, -90.1), (1e300, 0.0)];
    let odd = [(f64::NAN, 0.0), (0.0, f64::NAN), (f64::INFINITY, 0.0), (0.0, f64::NEG_INFINITY)];
    for (lng, lat) in beyond.into_iter().chain(odd) {
        assert_eq!(index.zone(lng, lat), Ok(None), "{lng} {lat}");
        assert_eq!(index.zones(lng, lat), Ok(vec![]), "{lng} {lat}");
        assert_eq!(index.name_at(lng, lat), Ok(None), "{lng} {lat}");
    }
}

/// At quarters of a degree a position is a point of whole numbers, so two ways of asking must agree. The strips of the
/// ocean reach below the land, where the grid does not list them.
#[test]
fn zones_are_those_that_contain_the_point() {
    let file = sample();
    let index = Index::open(&file).unwrap();
    let is_strip = |zone: u32| index.name(zone).unwrap().starts_with("Etc/");
    let quarters = |most: i32, step| (1 - most..most).step_by(step);
    let mut lands = 0;
    for (x, y) in quarters(720, 37).flat_map(|x| quarters(360, 31).map(move |y| (x, y))) {
        let listed = index.zones(f64::from(x) / 4.0, f64::from(y) / 4.0).unwrap();
        assert!(listed.is_sorted_by_key(|&zone| index.name(zone).unwrap()), "at {x} {y}");
        for zone in 0..481 {
            let inside = index.contains(zone, x * 25_000, y * 25_000).unwrap();
            let is_listed = listed.contains(&zone);
            assert!(is_listed == inside || is_strip(zone) && !is_listed, "{zone} at {x} {y}");
            lands += usize::from(inside && !is_strip(zone));
        }
    }
    assert!(lands > 200, "only {lands} times a country or state");
}

#[test]
fn names_and_what_the_file_says_of_itself() {
    let file = sample();
    let index = Index::open(&file).unwrap();
    assert_eq!((index.zone_count(), index.data_version()), (481, "real1"));
    let names: Vec<&str> = index.names().collect::<Result<_, _>>().unwrap();
    assert_eq!((names.len(), index.names().len()), (481, 481));
    assert_eq!((names[0], names[480]), ("Afghanistan", "Etc/GMT-12"));
    let grid = index.grid().unwrap();
    assert_eq!((grid.lng, grid.lat, grid.columns, grid.rows), (-180, -90, 361, 181));
    let sections: Vec<_> = index.sections().map(|s| (s.name().unwrap(), s.records())).collect();
    // The lengths in the file's table, over document 01's record sizes: 24, 24, 28, 4, 44 and 24 bytes.
    let expected = [
        ("NAMES", None),
        ("TZDIR", Some(11_544 / 24)),
        ("POLYDIR", Some(100_944 / 24)),
        ("RINGDIR", Some(118_776 / 28)),
        ("RINGOPS", Some(23_712 / 4)),
        ("GROUPDIR", Some(221_364 / 44)),
        ("CHUNKDIR", Some(129_792 / 24)),
        ("GRID", None),
        ("POINTS", None),
    ];
    assert_eq!(sections, expected);
}

#[test]
fn every_chunk_decodes() {
    let file = sample();
    let index = Index::open(&file).unwrap();
    let points: usize = (0..5408).map(|chunk| index.decode(chunk).unwrap().len()).sum();
    assert_eq!(points, 215_689);
    assert_eq!(index.decode(5408).unwrap_err().number(), 34);
}

#[test]
fn a_zone_number_too_large_is_45() {
    let file = sample();
    let index = Index::open(&file).unwrap();
    for zone in [481, 65_535, u32::MAX] {
        assert_eq!(index.name(zone).unwrap_err().number(), 45);
        assert_eq!(index.contains(zone, 0, 0).unwrap_err().number(), 45);
    }
}

#[test]
fn the_full_check_accepts_it() {
    assert_eq!(full_check(&sample()), Ok(()));
}

#[test]
fn an_index_goes_between_threads() {
    fn shared<T: Send + Sync + Clone>(_: &T) {}
    fn error<T: std::error::Error + Send + Sync + 'static>(_: T) {}
    let index = Index::open(sample()).unwrap();
    shared(&index);
    let asked =
        std::thread::scope(|scope| scope.spawn(|| index.name_at(8.68, 50.11)).join().unwrap());
    assert_eq!(asked, Ok(Some("Germany")));
    error::<Refusal>(Index::open([0; 0]).unwrap_err());
}
