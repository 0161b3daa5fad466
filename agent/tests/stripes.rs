//! Stripes: where an index has them, what it says where it has none, and that no answer tells the difference.

mod common;

use common::{
    CHUNKDIR, GROUPDIR, Point, Squares, changed, coast, in_chunks, same_at, sample, start_of, words,
};
use tzb::{Index, Walk, WhyPlain, full_check};

/// How many numbers the stripes of these stretches take, if they are the only group: 5 for it, 3 for each stripe, and a chunk's
/// own number in each stripe that its box meets.
fn need(stretches: &[Vec<Point>]) -> usize {
    let count = stretches.len() as i64;
    if count < 2 {
        return 5;
    }
    let heights = |points: &[Point]| {
        let all = points.iter().map(|point| i64::from(point.1));
        (all.clone().min().unwrap(), all.max().unwrap())
    };
    let (bottom, top) = heights(&stretches.concat());
    let stripes = (count / 4).clamp(1, 256);
    let stripe = |y: i64| ((y - bottom) * stripes / (top - bottom).max(1)).min(stripes - 1);
    let next = |place: usize| stretches.get(place + 1).map(|next| next[0]);
    let boxes = (0..stretches.len()).map(|n| [&stretches[n][..], next(n).as_slice()].concat());
    let met =
        boxes.map(|points| heights(&points)).map(|(low, high)| stripe(high) + 1 - stripe(low));
    (5 + 3 * stripes + met.sum::<i64>()) as usize
}

/// Chunks that all reach from the bottom to the top, but the last.
fn fence(chunks: usize) -> Vec<Vec<Point>> {
    let post = |n: i32| vec![(100 * n, 0), (100 * n + 50, 90_000)];
    let last = chunks as i32 - 1;
    let back = vec![(100 * last, 0), (100 * last, -10), (0, -10), (0, 0)];
    (0..last).map(post).chain([back]).collect()
}

fn both(file: &[u8]) -> [Index<&[u8]>; 2] {
    let plain = Index::open_plain(file).unwrap();
    assert_eq!(plain.walk(), Walk::Plain(WhyPlain::Chosen));
    [Index::open(file).unwrap(), plain]
}

/// At points of whole numbers, and half way to the next on either side.
fn same_around(indexes: &[Index<&[u8]>; 2], (x, y): (i32, i32)) {
    for (right, up) in [(0, 0), (1, 0), (-1, 1), (0, -1), (-2, -2), (2, 2)] {
        let degrees = |n: i32, half: i32| (f64::from(n) + f64::from(half) / 2.0) / 100_000.0;
        same_at(&indexes[0], &indexes[1], (degrees(x, right), degrees(y, up)));
    }
}

/// Odd floats, and heights at and beyond the ends of the earth.
fn same_at_odd_positions(indexes: &[Index<&[u8]>; 2]) {
    let odd = [f64::NAN, f64::INFINITY, f64::NEG_INFINITY, 1e300, -1e300, 0.0, -0.0, 5e-324];
    let edges = [90.0, -90.0, 90.1, -90.1, 180.0, -180.0, 180.1, -180.1, 0.5];
    let all = || odd.into_iter().chain(edges);
    for position in all().flat_map(|lng| all().map(move |lat| (lng, lat))) {
        same_at(&indexes[0], &indexes[1], position);
    }
}

#[test]
fn the_sample_has_stripes() {
    let file = sample();
    // Counted from the records of the file: 5 × 5,031 groups, 3 × 147 stripes, 616 chunk numbers.
    let striped = Walk::Striped { numbers: 5 * 5031 + 3 * 147 + 616 };
    assert_eq!(Index::open(&file).unwrap().walk(), striped);
    assert_eq!(Index::open_checked(&file).unwrap().walk(), striped);
    assert_eq!(striped.to_string(), "by stripes: 26212 numbers, 104848 bytes");
    let shown = format!("{:?}", Index::open(&file).unwrap());
    assert!(shown.contains("walk: Striped { numbers: 26212 }"), "{shown}");
}

#[test]
fn the_sample_answers_the_same() {
    let file = sample();
    let indexes = both(&file);
    let degrees = |most: i32, step| (1 - most..most).step_by(step);
    for (x, y) in degrees(180, 13).flat_map(|x| degrees(90, 7).map(move |y| (x, y))) {
        same_at(&indexes[0], &indexes[1], (f64::from(x) + 0.3, f64::from(y) + 0.7));
    }
    // By the borders: at the first points of chunks.
    for chunk in (0..5408).step_by(11) {
        let points = indexes[1].decode(chunk).unwrap();
        same_around(&indexes, points[0].into());
    }
    same_at_odd_positions(&indexes);
}

#[test]
fn a_long_coast_answers_the_same() {
    let stretches = coast(100);
    let file = in_chunks("A", &stretches);
    assert_eq!(full_check(&file), Ok(()));
    let indexes = both(&file);
    assert_eq!(indexes[0].walk(), Walk::Striped { numbers: need(&stretches) });
    for &point in stretches.iter().flatten() {
        same_around(&indexes, point);
    }
    for y in (-30..100_100).step_by(331) {
        same_around(&indexes, (99_900, y));
        same_around(&indexes, (100_100, y));
    }
    same_at_odd_positions(&indexes);
    assert_eq!(indexes[0].name_at(1.0001, 0.505), Ok(Some("A")));
    assert_eq!(indexes[0].name_at(1.01, 0.505), Ok(None));
}

/// No stripes of its own for a chunk alone, then one stripe, then a stripe for every four chunks.
#[test]
fn every_count_of_chunks() {
    for chunks in (1..=18).chain([255, 256, 1023, 1024, 1028, 1100]) {
        let stretches = coast(chunks);
        let file = in_chunks("A", &stretches);
        let indexes = both(&file);
        let numbers = need(&stretches);
        assert_eq!(indexes[0].walk(), Walk::Striped { numbers }, "{chunks} chunks");
        let top = 1000 * chunks as i32;
        for y in [-1, 0, 1, 500, top / 2, top - 501, top - 1, top, top + 1] {
            same_around(&indexes, (100_000, y));
        }
    }
}

/// The stripes of tall chunks grow by the square of their number, and the file does not.
#[test]
fn stripes_that_are_longer_than_the_file_are_not_built() {
    let mut met = [0; 2];
    for (chunks, letters) in (2..80).flat_map(|chunks| [(chunks, 1), (chunks, 40)]) {
        let stretches = fence(chunks);
        let file = in_chunks(&"A".repeat(letters), &stretches);
        assert_eq!(full_check(&file), Ok(()));
        let indexes = both(&file);
        let numbers = need(&stretches);
        let longer = 4 * numbers > file.len();
        let walk = match longer {
            true => Walk::Plain(WhyPlain::TooLarge { numbers }),
            false => Walk::Striped { numbers },
        };
        assert_eq!(indexes[0].walk(), walk, "{chunks} chunks, {} bytes", file.len());
        met[usize::from(longer)] += 1;
        for (x, y) in [(0, 0), (75, 5), (125, 44_999), (100 * chunks as i32, 90_000)] {
            same_around(&indexes, (x, y));
        }
    }
    assert!(met[0] > 20 && met[1] > 20, "{met:?}");
    let told = WhyPlain::TooLarge { numbers: 1000 }.to_string();
    assert_eq!(told, "the stripes would take 4000 bytes, more than the file");
}

/// The sides of a group's box in its record: least x, least y, greatest x, greatest y.
const SIDES: [usize; 4] = [28, 32, 36, 40];

#[test]
fn a_box_that_leaves_its_group_in_height_is_49() {
    let file = in_chunks("A", &coast(9));
    let group = start_of(&file, GROUPDIR);
    let with = |side: usize, to: i32| changed(&file, group + SIDES[side], &to.to_le_bytes());
    // The box goes from (0, 0) to (100,272, 9,000), and is made smaller on one side.
    let cases = [(0, 1, false), (1, 1, true), (2, 100_271, false), (3, 8_999, true)];
    for (side, to, refused) in cases {
        let unsound = with(side, to);
        assert_eq!(full_check(&unsound).unwrap_err().rule(), Some(5), "side {side}");
        let indexes = both(&unsound);
        match indexes[0].walk() {
            Walk::Plain(WhyPlain::Refused(refusal)) => {
                assert!(refused && refusal.number() == 49, "side {side}: {refusal}");
                let told = indexes[0].walk().to_string();
                assert!(told.starts_with("plainly: refusal 49: A chunk's box reaches"), "{told}");
            }
            walk => {
                assert!(!refused && matches!(walk, Walk::Striped { .. }), "side {side}: {walk}")
            }
        }
        for &point in coast(9).iter().flatten() {
            same_around(&indexes, point);
        }
        same_at_odd_positions(&indexes);
    }
    // A larger box is no matter, whatever the stripes then are.
    for (side, to) in [(1, -1_000_000), (3, 9_000_000)] {
        let larger = with(side, to);
        let indexes = both(&larger);
        assert!(matches!(indexes[0].walk(), Walk::Striped { .. }), "side {side}");
        for &point in coast(9).iter().flatten() {
            same_around(&indexes, point);
        }
    }
}

/// It is asked of every group, but of a chunk that is alone in its group it is not.
#[test]
fn a_chunk_alone_leaves_its_group_as_it_likes() {
    let squares = Squares::new(&["A"]);
    for (side, to) in [(1, 10_i32), (3, 90_000)] {
        let unsound = squares.with(GROUPDIR, SIDES[side], &to.to_le_bytes());
        assert_eq!(full_check(&unsound).unwrap_err().rule(), Some(5));
        let indexes = both(&unsound);
        assert_eq!(indexes[0].walk(), Walk::Striped { numbers: 5 });
        same_around(&indexes, (50_000, 50_000));
    }
}

/// In the sample: the last group of several chunks, where only one box of a chunk is too tall.
#[test]
fn one_box_of_the_sample_is_49() {
    let file = sample();
    let (groups, chunks) = (start_of(&file, GROUPDIR), start_of(&file, CHUNKDIR));
    let word = |at: usize| u32::from_le_bytes(*file[at..].first_chunk().unwrap()) as usize;
    let group = (0..5031).map(|n| groups + 44 * n).rfind(|at| word(at + 8) > 1).unwrap();
    let top = word(group + SIDES[3]) as u32 + 1;
    let last = chunks + 24 * (word(group) + word(group + 8) - 1);
    let unsound = changed(&file, last + 20, &words(&[top]));
    let indexes = both(&unsound);
    let Walk::Plain(WhyPlain::Refused(refusal)) = indexes[0].walk() else {
        panic!("{}", indexes[0].walk());
    };
    assert_eq!(refusal.number(), 49);
    assert_eq!(Index::open_checked(&unsound).unwrap_err().rule(), Some(5));
    assert_eq!(indexes[0].name_at(8.68, 50.11), Ok(Some("Germany")));
}

/// A clone has the stripes too, and goes on where the first is gone.
#[test]
fn a_clone_has_the_same_stripes() {
    let index = Index::open(sample()).unwrap();
    let walk = index.walk();
    let clone = index.clone();
    drop(index);
    assert_eq!(clone.walk(), walk);
    assert_eq!(clone.name_at(8.68, 50.11), Ok(Some("Germany")));
}
