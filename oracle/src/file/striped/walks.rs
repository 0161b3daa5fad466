//! Walks by numbers, right ones and others, whose answers are read off document 02 by hand.

use super::*;
use crate::rules::Said;
use crate::voice::{Answer, Question};

pub struct Walk {
    pub what: &'static str,
    pub numbers: Vec<u32>,
    pub question: Question,
    pub answer: Said<Answer>,
}

/// A square of 8 by 8 in eight chunks of a point each: (0, 0), (4, 0), (8, 0), (8, 4), (8, 8), (4, 8), (0, 8), (0, 4). A chunk's box reaches
/// to the next one's point; the last one is joined to the first by the ring.
pub fn square() -> Vec<u8> {
    let corners = [(0, 0), (4, 0), (8, 0), (8, 4), (8, 8), (4, 8), (0, 8), (0, 4)];
    let mut shape = Shape::default();
    let group = shape.add_group(Chunks(corners.map(|corner| vec![corner]).to_vec()));
    shape.zones.push(vec![vec![vec![Op { group, turned: false }]]]);
    Draft { version: Vec::new(), ..named(&shape) }.lay()
}

/// Two stripes, below 4 and from there on. The first has chunks 0 to 2, the second 2 to 7.
pub const OF_SQUARE: [u32; 20] = [0, 8, 2, 5, 0, 11, 0, 3, 14, 0, 6, 0, 1, 2, 2, 3, 4, 5, 6, 7];

/// The square's numbers with some set.
fn with(set: &[(usize, u32)]) -> Vec<u32> {
    let mut out = OF_SQUARE.to_vec();
    set.iter().for_each(|&(at, number)| out[at] = number);
    out
}

const FAR: u32 = u32::MAX;
const YES: Said<bool> = Ok(true);
const NO: Said<bool> = Ok(false);

/// At (2, 2) the first stripe is walked. Chunks 0 and 1 are not relevant, and chunk 2 lies strictly right: from (8, 0) to (8, 4), it counts.
fn in_the_first() -> Vec<(&'static str, Vec<u32>, Said<bool>)> {
    vec![
        ("the numbers that are built", with(&[]), YES),
        ("more behind them", [with(&[]), vec![9; 3]].concat(), YES),
        ("none lent", vec![], Err(44)),
        ("four of the group's five", OF_SQUARE[..4].to_vec(), Err(44)),
        ("the group's alone", OF_SQUARE[..5].to_vec(), Err(44)),
        ("two of the stripe's three", OF_SQUARE[..7].to_vec(), Err(44)),
        ("the entries alone", OF_SQUARE[..11].to_vec(), Err(44)),
        ("a chunk number too few", OF_SQUARE[..13].to_vec(), Err(44)),
        ("those of the first stripe alone", OF_SQUARE[..14].to_vec(), YES),
        ("no stripes: plainly", with(&[(2, 0)]), YES),
        ("no stripes and no height: plainly", with(&[(1, 0), (2, 0), (3, FAR), (4, FAR)]), YES),
        ("no stripes, and nothing else", vec![0; 5], YES),
        ("no height", with(&[(1, 0)]), Err(34)),
        ("no height, and no stripes' entries", vec![0, 0, 2, FAR, FAR], Err(34)),
        ("an empty stripe", with(&[(7, 0)]), NO),
        ("an empty stripe, far away", with(&[(5, FAR), (6, FAR), (7, 0)]), NO),
        ("without the chunk that counts", with(&[(7, 2)]), NO),
        ("that chunk twice", with(&[(7, 4)]), NO),
        ("the same three times", with(&[(11, 2), (12, 2)]), YES),
        ("falling", with(&[(11, 2), (12, 1), (13, 0)]), YES),
        ("a chunk past the group", with(&[(11, 8)]), Err(34)),
        ("past the group, behind one that counts", with(&[(12, 8)]), Err(34)),
        ("the last of all numbers past the group", with(&[(13, FAR)]), Err(34)),
        ("a stripe that goes on past the numbers", with(&[(7, 10)]), Err(44)),
        ("a stripe that goes on for ever", with(&[(7, FAR)]), Err(44)),
        ("past the group before past the numbers", with(&[(7, FAR), (12, 8)]), Err(34)),
        ("a stripe's place at 2^64 - 1", with(&[(5, FAR), (6, FAR)]), Err(44)),
        ("a stripe's place at 2^32 and 11", with(&[(6, 1)]), Err(44)),
        ("the stripes' place at 2^64 - 1", with(&[(3, FAR), (4, FAR)]), Err(44)),
        ("the stripes' place at 2^64 - 3", with(&[(3, FAR - 2), (4, FAR)]), Err(44)),
        ("the stripes' place at 2^32 and 5", with(&[(4, 1)]), Err(44)),
        (
            "the stripes' place at 2^64 - 1, the second one",
            with(&[(0, 0x8000_0000), (3, FAR), (4, FAR)]),
            Err(44),
        ),
        // Other heights than the group's: 2 is held to the first stripe, and to the last.
        ("a least y far above", with(&[(0, 0x7fff_ffff)]), YES),
        ("a least y far below: the second stripe", with(&[(0, 0x8000_0000)]), YES),
        ("a height of 1: the second stripe", with(&[(1, 1)]), YES),
        ("the greatest height: the first", with(&[(1, FAR)]), YES),
        ("as many stripes as a number can say", with(&[(2, FAR)]), Err(44)),
        ("one stripe", with(&[(1, 1), (2, 1)]), YES),
        // Read from other places, an entry says something else: nothing, chunk 0, two numbers from 2^33 and 1 on.
        ("the stripes' entries from 9 on", with(&[(3, 9)]), NO),
        ("the stripes' entries from 10 on", with(&[(3, 10)]), NO),
        ("the stripes' entries from 12 on", with(&[(3, 12)]), Err(44)),
    ]
}

/// At (2, 6) the second. Chunks 2, 4, 5 and 7 are not relevant; chunk 3 counts; chunk 6 is not relevant, it lies left.
fn in_the_second() -> Vec<(&'static str, Vec<u32>, Said<bool>)> {
    vec![
        ("the numbers that are built", with(&[]), YES),
        ("the second stripe's entry cut", OF_SQUARE[..10].to_vec(), Err(44)),
        ("its last chunk number cut", OF_SQUARE[..19].to_vec(), Err(44)),
        ("one stripe: the first", with(&[(2, 1)]), NO),
        ("the first one's chunks", with(&[(8, 11)]), YES),
        ("a least y of 6: the first stripe", with(&[(0, 6)]), NO),
        ("a least y of 1: the second", with(&[(0, 1)]), YES),
        ("a height of 13: the first stripe", with(&[(1, 13)]), NO),
        ("a height of 12: the second", with(&[(1, 12)]), YES),
    ]
}

/// At (8, 2), on the edge of chunk 2: the hit ends the walk.
fn on_an_edge() -> Vec<(&'static str, Vec<u32>, Said<bool>)> {
    vec![
        ("the numbers that are built", with(&[]), YES),
        ("a hit before the numbers end", [&with(&[(7, FAR)])[..14]].concat(), YES),
        ("a hit before a chunk past the group", with(&[(11, 2), (12, 8)]), YES),
        ("a chunk past the group before the hit", with(&[(12, 8)]), Err(34)),
        ("without the chunk", with(&[(7, 2)]), NO),
    ]
}

pub fn walks() -> Vec<Walk> {
    let mut out = Vec::new();
    for (all, (x, y)) in
        [(in_the_first(), (2, 2)), (in_the_second(), (2, 6)), (on_an_edge(), (8, 2))]
    {
        for (what, numbers, is) in all {
            let question = Question::Contains(0, x, y);
            out.push(Walk { what, numbers, question, answer: is.map(Answer::Is) });
        }
    }
    out.extend(between());
    out
}

/// A point's stripe is that of the whole number at or below its y: the first up to 4, the second from there on. The first stripe is emptied,
/// or the second.
fn between() -> Vec<Walk> {
    let heights = [(3.5, 7), (3.0, 7), (0.5, 7), (4.0, 10), (4.5, 10), (7.5, 10)];
    let mut out = Vec::new();
    for (y, stripe) in heights {
        for (emptied, zones) in [(stripe, vec![]), (17 - stripe, vec![0])] {
            out.push(Walk {
                what: "between whole numbers",
                numbers: with(&[(emptied, 0)]),
                question: Question::LookupInto(2.0 / 100_000.0, y / 100_000.0, 4),
                answer: Ok(Answer::Zones(zones)),
            });
        }
    }
    // Whatever the numbers are, what is asked first is told first.
    let first = [
        (Question::Contains(1, 2, 2), Err(45)),
        (Question::Contains(0, 18_000_001, 2), Ok(Answer::Is(false))),
        (Question::Contains(0, 9, 2), Ok(Answer::Is(false))),
        (Question::Contains(0, -1, 2), Ok(Answer::Is(false))),
        (Question::Lookup(f64::NAN, 0.0), Ok(Answer::Zone(None))),
        (Question::Lookup(0.0, f64::INFINITY), Ok(Answer::Zone(None))),
        (Question::Lookup(0.0, 0.0), Err(44)),
        (Question::Lookup(-0.0, -0.0), Err(44)),
        (Question::LookupInto(0.0, 0.0, 0), Err(44)),
    ];
    out.extend(first.map(|(question, answer)| Walk {
        what: "asked with no numbers",
        numbers: Vec::new(),
        question,
        answer,
    }));
    out
}
