//! Small files whose numbers, or refusals, are read off document 02 by hand.

use super::*;

pub struct Case {
    pub what: &'static str,
    pub file: Vec<u8>,
    /// The numbers, or the refusal.
    pub numbers: Result<Vec<u32>, u32>,
}

/// So many points, one in each chunk, at these heights.
fn climbing(heights: &[i32]) -> Chunks {
    Chunks(heights.iter().enumerate().map(|(i, &y)| vec![(i as i32, y)]).collect())
}

/// One zone of one ring of these groups.
fn ring_of(groups: Vec<Chunks>) -> Draft {
    let mut shape = Shape::default();
    let op = |chunks| Op { group: shape.add_group(chunks), turned: false };
    let ring = groups.into_iter().map(op).collect();
    shape.zones.push(vec![vec![ring]]);
    Draft { version: Vec::new(), ..named(&shape) }
}

fn one(heights: &[i32]) -> Draft {
    ring_of(vec![climbing(heights)])
}

/// A field of a record set: the section, the record's width, which one, the place in it.
fn set(mut draft: Draft, typ: u32, width: usize, which: usize, at: usize, value: i32) -> Draft {
    put(part(&mut draft, typ), width * which + at, value as u32);
    draft
}

/// A chunk's least y, its greatest, a group's greatest.
fn low(draft: Draft, chunk: usize, y: i32) -> Draft {
    set(draft, CHUNKDIR, 24, chunk, 12, y)
}

fn high(draft: Draft, chunk: usize, y: i32) -> Draft {
    set(draft, CHUNKDIR, 24, chunk, 20, y)
}

fn group_high(draft: Draft, group: usize, y: i32) -> Draft {
    set(draft, GROUPDIR, 44, group, 40, y)
}

/// Groups, then stripes, then chunk numbers.
fn numbers(groups: &[[i32; 5]], stripes: &[[u32; 3]], chunks: &[u32]) -> Result<Vec<u32>, u32> {
    let groups: Vec<u32> = groups.concat().into_iter().map(|n| n as u32).collect();
    Ok([groups, stripes.concat(), chunks.to_vec()].concat())
}

const NONE: [i32; 5] = [0; 5];

pub fn cases() -> Vec<Case> {
    let mut out = built();
    out.extend(of_several_groups());
    out.extend(refused());
    out
}

fn case(what: &'static str, draft: Draft, numbers: Result<Vec<u32>, u32>) -> Case {
    Case { what, file: draft.lay(), numbers }
}

fn built() -> Vec<Case> {
    let first = |count: u32| (0..count).collect::<Vec<u32>>();
    let triangle = || Chunks(vec![vec![(0, 0), (4, 0), (0, 4)]]);
    let up_and_down = [0, 9, 0, 9, 0, 9, 0, 9];
    vec![
        case("one chunk", ring_of(vec![triangle()]), numbers(&[NONE], &[], &[])),
        case("two chunks", one(&[-3, 5]), numbers(&[[-3, 8, 1, 5, 0]], &[[8, 0, 2]], &[0, 1])),
        case("all level", one(&[7, 7, 7]), numbers(&[[7, 1, 1, 5, 0]], &[[8, 0, 3]], &first(3))),
        case(
            "the least and the greatest y",
            one(&[-9_000_000, 9_000_000]),
            numbers(&[[-9_000_000, 18_000_000, 1, 5, 0]], &[[8, 0, 2]], &[0, 1]),
        ),
        case(
            "seven chunks, one stripe",
            one(&[0, 1, 2, 3, 4, 5, 6]),
            numbers(&[[0, 6, 1, 5, 0]], &[[8, 0, 7]], &first(7)),
        ),
        // A chunk's box reaches up to the next one's point. Of the heights 0 to 7 the first four lie in stripe 0.
        case(
            "eight chunks, two stripes",
            one(&[0, 1, 2, 3, 4, 5, 6, 7]),
            numbers(&[[0, 7, 2, 5, 0]], &[[11, 0, 4], [15, 0, 5]], &[0, 1, 2, 3, 3, 4, 5, 6, 7]),
        ),
        // (y + 11) · 3 / 11: from -7 on it is 1, from -3 on 2.
        case(
            "twelve chunks, falling",
            one(&[0, -1, -2, -3, -4, -5, -6, -7, -8, -9, -10, -11]),
            numbers(
                &[[-11, 11, 3, 5, 0]],
                &[[14, 0, 5], [19, 0, 5], [24, 0, 4]],
                &[7, 8, 9, 10, 11, 3, 4, 5, 6, 7, 0, 1, 2, 3],
            ),
        ),
        // The last chunk has the greatest height alone.
        case(
            "tall chunks, in every stripe",
            one(&up_and_down),
            numbers(
                &[[0, 9, 2, 5, 0]],
                &[[11, 0, 7], [18, 0, 8]],
                &[0, 1, 2, 3, 4, 5, 6, 0, 1, 2, 3, 4, 5, 6, 7],
            ),
        ),
        case(
            "stripes without chunks",
            group_high(one(&[0; 12]), 0, 90),
            numbers(&[[0, 90, 3, 5, 0]], &[[14, 0, 12], [26, 0, 0], [26, 0, 0]], &first(12)),
        ),
        // Height 1 and two stripes: 0 lies in the first, 1 is held to the second.
        case(
            "lower than it has stripes",
            one(&[0, 0, 0, 0, 1, 1, 1, 1]),
            numbers(&[[0, 1, 2, 5, 0]], &[[11, 0, 4], [15, 0, 5]], &[0, 1, 2, 3, 3, 4, 5, 6, 7]),
        ),
        case(
            "boxes as high as the group's",
            high(low(one(&[2, 2, 2, 3, 3, 3, 3, 4]), 7, 2), 0, 4),
            numbers(
                &[[2, 2, 2, 5, 0]],
                &[[11, 0, 4], [15, 0, 7]],
                &[0, 1, 2, 7, 0, 2, 3, 4, 5, 6, 7],
            ),
        ),
        // A group of one chunk is not looked at in y.
        case(
            "one chunk, below its group's box",
            low(ring_of(vec![triangle()]), 0, -1),
            Ok(vec![0; 5]),
        ),
        case(
            "one chunk, above its group's box",
            high(ring_of(vec![triangle()]), 0, 5),
            Ok(vec![0; 5]),
        ),
    ]
}

fn of_several_groups() -> Vec<Case> {
    let (one, two) = (|| climbing(&[1, 4]), || Chunks(vec![vec![(0, 0), (4, 0), (0, 4)]]));
    let eight = || climbing(&[0, 1, 2, 3, 4, 5, 6, 7]);
    vec![
        case(
            "without stripes, with, without",
            ring_of(vec![two(), one(), two()]),
            numbers(&[NONE, [1, 3, 1, 15, 0], NONE], &[[18, 0, 2]], &[0, 1]),
        ),
        case(
            "two chunks, then eight",
            ring_of(vec![one(), eight()]),
            numbers(
                &[[1, 3, 1, 10, 0], [0, 7, 2, 13, 0]],
                &[[19, 0, 2], [21, 0, 4], [25, 0, 5]],
                &[0, 1, 0, 1, 2, 3, 3, 4, 5, 6, 7],
            ),
        ),
        case(
            "eight chunks, then two",
            ring_of(vec![eight(), one()]),
            numbers(
                &[[0, 7, 2, 10, 0], [1, 3, 1, 16, 0]],
                &[[19, 0, 4], [23, 0, 5], [28, 0, 2]],
                &[0, 1, 2, 3, 3, 4, 5, 6, 7, 0, 1],
            ),
        ),
    ]
}

/// A box that leaves its group's in y, by one.
fn refused() -> Vec<Case> {
    let (two, eight) = (|| one(&[1, 4]), || one(&[0, 1, 2, 3, 4, 5, 6, 7]));
    let groups = || ring_of(vec![climbing(&[1, 4]), climbing(&[0, 1, 2])]);
    [
        ("the first of two, below", low(two(), 0, 0)),
        ("the first of two, above", high(two(), 0, 5)),
        ("the second of two, below", low(two(), 1, 0)),
        ("the second of two, above", high(two(), 1, 5)),
        ("the last of eight, below", low(eight(), 7, -1)),
        ("the first of eight, above", high(eight(), 0, 8)),
        ("both ways", high(low(two(), 0, 0), 0, 5)),
        ("the group's own box is too low", group_high(two(), 0, 3)),
        ("the second group's", high(groups(), 4, 3)),
    ]
    .map(|(what, draft)| case(what, draft, Err(49)))
    .into()
}
