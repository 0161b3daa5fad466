//! Broken chunks (document 02, 2026-06). Who makes one knows its refusal, and where the number starts that it is about.

mod cases;
mod ground;

pub use cases::cases;
pub use ground::{Ground, Lies, Made};

use super::*;

/// A chunk with one thing wrong.
#[derive(Debug, Clone, PartialEq)]
pub struct Broken {
    pub bytes: Vec<u8>,
    pub count: u16,
    pub refusal: u32,
    /// Among its bytes.
    pub place: usize,
}

/// What is wrong with a number, or with the point that it ends.
#[derive(Debug, Clone, Copy, PartialEq)]
pub enum Wrong {
    /// 38: no byte of it is there.
    Missing,
    /// 38: so many of its bytes are there, 1 to 4, and it goes on.
    Cut(usize),
    /// 39: it has so many bytes, 2 to 5, and the last is 0.
    Long(usize),
    /// 40: this is its fifth byte.
    Wide(u8),
    /// 41: the sum of x leaves i32, that of y, or both.
    Sum(Of),
    /// 42: x lies outside the domain, y, or both.
    Outside(Of),
    /// 43: so many bytes stand where no number is due.
    Over(usize),
}

#[derive(Debug, Clone, Copy, PartialEq)]
pub enum Of {
    X,
    Y,
    Both,
}

const ANY: [Wrong; 13] = [
    Wrong::Missing,
    Wrong::Cut(1),
    Wrong::Cut(2),
    Wrong::Cut(3),
    Wrong::Cut(4),
    Wrong::Long(2),
    Wrong::Long(3),
    Wrong::Long(4),
    Wrong::Long(5),
    Wrong::Wide(0x10),
    Wrong::Wide(0x7f),
    Wrong::Wide(0x80),
    Wrong::Wide(0xff),
];
const OF_X: [Wrong; 2] = [Wrong::Sum(Of::X), Wrong::Sum(Of::Both)];
const OF_Y: [Wrong; 4] =
    [Wrong::Outside(Of::X), Wrong::Outside(Of::Y), Wrong::Outside(Of::Both), Wrong::Sum(Of::Y)];

impl Wrong {
    /// All that a refusal can name this number for. The first point's are 0 and 1, and it is no sum; a chunk without bytes is 37.
    pub fn of(number: usize) -> Vec<Self> {
        let own = if number.is_multiple_of(2) { &OF_X[..] } else { &OF_Y };
        let first = |wrong: &Self| match wrong {
            Self::Missing => number == 0,
            Self::Sum(_) => number < 2,
            _ => false,
        };
        ANY.iter().chain(own).copied().filter(|wrong| !first(wrong)).collect()
    }
}

type Point = (i64, i64);

const EAST: i64 = 18_000_000;
const NORTH: i64 = 9_000_000;
const END: i64 = 1 << 31;

/// A number of one byte, two, three or four.
fn some_number(random: &mut Random) -> i64 {
    let bits = random.pick(&[6, 6, 13, 20, 24]);
    let n = (random.bits() % (1 << bits)) as i64;
    if random.below(2) == 0 { n } else { -n }
}

/// So many points of the domain. None lies at 0 in x or y: a sum can leave i32 from each.
fn points(random: &mut Random, count: usize) -> Vec<Point> {
    let mut now = (0, 0);
    let mut next = || {
        let held = |n: i64, end: i64| if n == 0 { 1 } else { n.clamp(-end, end) };
        let (x, y) = (some_number(random), some_number(random));
        now = (held(now.0 + x, EAST), held(now.1 + y, NORTH));
        now
    };
    (0..count).map(|_| next()).collect()
}

/// Its zigzag form, seven bits a byte.
fn push(bytes: &mut Vec<u8>, n: i64) {
    let mut n = (n << 1 ^ n >> 63) as u64;
    while n >= 128 {
        bytes.push(n as u8 | 128);
        n >>= 7;
    }
    bytes.push(n as u8);
}

/// The numbers of these points, x and y in turn: the first point's, and then how far it is to the next.
fn numbers(points: &[Point]) -> Vec<i64> {
    let before = [(0, 0)].into_iter().chain(points.iter().copied());
    points.iter().zip(before).flat_map(|(p, q)| [p.0 - q.0, p.1 - q.1]).collect()
}

/// Added to n, which is not 0, it leaves i32.
fn leaving(random: &mut Random, n: i64) -> i64 {
    let any = random.below(n.unsigned_abs() as usize) as i64;
    let more = random.pick(&[0, n.abs() - 1, any]);
    if n > 0 { END - n + more } else { -END - n - 1 - more }
}

/// Added to n it stays in i32: often at its ends, outside the domain.
fn staying(random: &mut Random, n: i64) -> i64 {
    let ends = if n > 0 { [END - 1 - n, -END] } else { [-END - n, END - 1] };
    let any = [some_number(random), i64::from(random.bits() as i32)];
    let one = random.pick(&[ends[0], ends[1], 0, any[0], any[1]]);
    if i32::try_from(n + one).is_ok() { one } else { 0 }
}

/// Added to n it leaves the domain, which ends there, and stays in i32.
fn outside(random: &mut Random, n: i64, end: i64) -> i64 {
    let any = random.below(1 << 30) as i64;
    let far = end + 1 + random.pick(&[0, 0, any]);
    let to = if random.below(2) == 0 { far } else { -far };
    to - n
}

/// The two numbers of a point behind this one that is wrong so.
fn wrong_point(random: &mut Random, wrong: Wrong, (x, y): Point) -> [i64; 2] {
    let stays = |random: &mut Random, n: i64, end: i64| {
        let by = some_number(random);
        if (n + by).abs() <= end { by } else { 0 }
    };
    match wrong {
        Wrong::Sum(Of::X) => [leaving(random, x), staying(random, y)],
        Wrong::Sum(Of::Y) => [staying(random, x), leaving(random, y)],
        Wrong::Sum(Of::Both) => [leaving(random, x), leaving(random, y)],
        Wrong::Outside(Of::X) => [outside(random, x, EAST), stays(random, y, NORTH)],
        Wrong::Outside(Of::Y) => [stays(random, x, EAST), outside(random, y, NORTH)],
        _ => [outside(random, x, EAST), outside(random, y, NORTH)],
    }
}

/// The bytes in the place of one number.
fn wrong_number(random: &mut Random, wrong: Wrong) -> Vec<u8> {
    let going_on = |random: &mut Random, count: usize| -> Vec<u8> {
        (0..count).map(|_| random.byte() | 128).collect()
    };
    match wrong {
        Wrong::Cut(count) => going_on(random, count),
        Wrong::Long(count) => [going_on(random, count - 1), vec![0]].concat(),
        Wrong::Wide(last) => [going_on(random, 4), vec![last]].concat(),
        _ => Vec::new(),
    }
}

/// What may stand behind a number that is refused: nothing, numbers, any bytes.
fn behind(random: &mut Random) -> Vec<u8> {
    let count = random.pick(&[0, 1, 2, 12]);
    match random.below(3) {
        0 => Vec::new(),
        1 => crate::bytes::numbers(random, count, false),
        _ => random.bytes(count),
    }
}

/// A chunk of so many points whose number of this place in it is wrong so, by `Wrong::of`; or, behind the last, bytes left over.
pub fn broken(random: &mut Random, count: u16, number: usize, wrong: Wrong) -> Broken {
    let points = points(random, count.into());
    let numbers = numbers(&points);
    let mut bytes = Vec::new();
    let of_point = matches!(wrong, Wrong::Sum(_) | Wrong::Outside(_));
    let fine = if of_point { number / 2 * 2 } else { number };
    numbers[..fine].iter().for_each(|&n| push(&mut bytes, n));
    let mut place = bytes.len();
    if of_point {
        let before = if fine == 0 { (0, 0) } else { points[fine / 2 - 1] };
        let [x, y] = wrong_point(random, wrong, before);
        push(&mut bytes, x);
        place = if number.is_multiple_of(2) { place } else { bytes.len() };
        push(&mut bytes, y);
    }
    bytes.extend(wrong_number(random, wrong));
    let refusal = match wrong {
        Wrong::Missing | Wrong::Cut(_) => 38,
        Wrong::Long(_) => 39,
        Wrong::Wide(_) => 40,
        Wrong::Sum(_) => 41,
        Wrong::Outside(_) => 42,
        Wrong::Over(_) => 43,
    };
    match wrong {
        Wrong::Missing | Wrong::Cut(_) => {}
        Wrong::Over(count) => bytes.extend(random.bytes(count)),
        _ => bytes.extend(behind(random)),
    }
    Broken { bytes, count, refusal, place }
}

/// Any of them, in a chunk of few points or, now and then, of many.
pub fn some(random: &mut Random) -> Broken {
    let few = 1 + random.below(6) as u16;
    let count = if random.below(64) == 0 { random.pick(&[40, 255, 256, 257, 300]) } else { few };
    if random.below(10) == 0 {
        let over = 1 + random.below(12);
        return broken(random, count, 2 * usize::from(count), Wrong::Over(over));
    }
    let numbers = 2 * usize::from(count);
    let number = match random.below(3) {
        0 => numbers - 1 - random.below(2),
        _ => random.below(numbers),
    };
    let wrong = random.pick(&Wrong::of(number));
    broken(random, count, number, wrong)
}

#[cfg(test)]
mod tests {
    use super::*;
    use crate::rules::{self, Judge, Opened, Refusal};

    /// What who makes a chunk knows of it is what the rules say, with the file's own record and as the file opens.
    fn holds(random: &mut Random, ground: &Ground, chunk: &Broken) {
        let which = random.below(ground.chunks());
        let mut made = ground.with(which, chunk, &vec![Lies::Around; ground.chunks()], (0, 0));
        let place = Some((made.bytes.start + chunk.place) as u64);
        let said = Refusal { number: chunk.refusal, place };
        let read = Opened::of_record(&made.record, &made.file).ok().unwrap();
        assert_eq!(read.decode(which as u64, u64::MAX), Err(said), "{chunk:02x?}");
        made.seal();
        let opened = rules::open(&made.file, &[]).ok().expect("a file that opens");
        assert_eq!(opened.decode(which as u64, u64::MAX), Err(said), "{chunk:02x?}");
    }

    #[test]
    fn the_rules_say_what_the_maker_knows() {
        let mut random = Random::new(6);
        for _ in 0..300 {
            let ground = Ground::some(&mut random);
            (0..10).for_each(|_| {
                let chunk = some(&mut random);
                holds(&mut random, &ground, &chunk);
            });
        }
        let ground = Ground::some(&mut random);
        for (count, number) in (1..4).flat_map(|count| (0..2 * count).map(move |i| (count, i))) {
            for wrong in Wrong::of(number) {
                let chunk = broken(&mut random, count as u16, number, wrong);
                holds(&mut random, &ground, &chunk);
            }
        }
    }

    /// Every refusal names every number that it can.
    #[test]
    fn every_number_can_be_wrong() {
        assert_eq!([0, 1, 2, 3].map(|number| Wrong::of(number).len()), [12, 16, 15, 17]);
    }

    #[test]
    fn the_cases_are_as_the_rules_say() {
        for case in cases() {
            let opened = rules::open(&case.file, &[]).ok().expect("a file that opens");
            let numbers = opened.stripes(u64::MAX).unwrap();
            for (i, (lent, told)) in case.with.into_iter().enumerate() {
                let opened = opened.asked_with(&lent);
                for (question, said) in told {
                    for judge in [Judge::plain(opened, &[]), Judge::striped(opened, &numbers)] {
                        let answer = judge.answer(question).map(|_| ());
                        assert_eq!(answer, said, "{i}: {question:?}");
                    }
                }
            }
        }
    }
}
