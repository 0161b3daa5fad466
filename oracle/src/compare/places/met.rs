//! What was met: each refusal 38 to 43 by the number that it names, by that number's bytes, by question, and by how a walk came to it.

use crate::port::places::{Asked, Way};
use crate::rules::Refusal;
use crate::voice::Question;

/// The refusals, and of 38 both kinds.
pub const ROWS: [&str; 7] =
    ["38, no byte left", "38, within a number", "39", "40", "41", "42", "43"];

/// Which number is named.
pub const POSITIONS: [&str; 7] =
    ["first x", "first y", "later x", "later y", "last x", "last y", "left over"];

const QUESTIONS: [&str; 8] = [
    "tzb_decode",
    "tzb_contains",
    "tzb_ask",
    "tzb_ask_all",
    "tzb_contains_striped",
    "tzb_ask_striped",
    "tzb_ask_all_striped",
    "tzb_lookup",
];

/// What a question was answered: a refusal with a place, one without, something else.
const ANSWERS: [&str; 8] = ["38", "39", "40", "41", "42", "43", "no place", "answered"];

/// How a walk came to a chunk.
pub const WAYS: [&str; 3] = ["scanned", "first point alone", "as the next one's"];

/// A place in a chunk's bytes.
#[derive(Debug, Clone, Copy)]
pub struct Spot {
    row: usize,
    /// How many numbers stand before it.
    pub number: usize,
    position: usize,
    /// How many bytes of its number there are.
    length: usize,
}

impl Spot {
    /// Of a chunk's bytes and its count of points. All numbers before the place can be read: each ends with its first byte below 128.
    pub fn of(bytes: &[u8], count: u64, refusal: u32, place: usize) -> Self {
        let (before, from) = bytes.split_at(place);
        let number = before.iter().filter(|&&byte| byte < 128).count();
        let ends = from.iter().position(|&byte| byte < 128).map_or(from.len(), |last| last + 1);
        let row = match refusal {
            38 if from.is_empty() => 0,
            number => number as usize - 37,
        };
        let last = 2 * count as usize - 2;
        let position = match number {
            _ if refusal == 43 => 6,
            0 | 1 => number,
            _ if number >= last => 4 + number % 2,
            _ => 2 + number % 2,
        };
        Self { row, number, position, length: ends.min(5) }
    }
}

#[derive(Default)]
pub struct Met {
    /// Of chunks that were decoded.
    pub positions: [[u64; 7]; 7],
    lengths: [[u64; 6]; 7],
    pub asked: [[u64; 8]; 8],
    pub ways: [[u64; 3]; 7],
}

fn which(asked: Asked) -> usize {
    let plain = match asked.question {
        Question::Decode(..) => 0,
        Question::Contains(..) => 1,
        Question::Lookup(..) => 2,
        _ => 3,
    };
    match asked.way {
        Way::Plain => plain,
        Way::Striped => plain + 3,
        Way::Opening => 7,
    }
}

impl Met {
    /// Whatever was said to a question.
    pub fn answer(&mut self, asked: Asked, refusal: Option<Refusal>) {
        let answer = match refusal {
            Some(Refusal { number, place: Some(_) }) => number as usize - 38,
            Some(_) => 6,
            None => 7,
        };
        self.asked[which(asked)][answer] += 1;
    }

    pub fn decoded(&mut self, spot: Spot) {
        self.positions[spot.row][spot.position] += 1;
        if spot.position < 6 {
            self.lengths[spot.row][spot.length] += 1;
        }
    }

    pub fn walked(&mut self, spot: Spot, way: usize) {
        self.ways[spot.row][way] += 1;
    }

    pub fn chunks(&self) -> u64 {
        self.positions.as_flattened().iter().sum()
    }

    pub fn questions(&self) -> u64 {
        self.asked.as_flattened().iter().sum()
    }

    pub fn print(&self) {
        print("broken chunks, decoded, by the number that is named", &POSITIONS, &ROWS, |row| {
            &self.positions[row]
        });
        let lengths = ["no byte", "1 byte", "2", "3", "4", "5 bytes"];
        print("by the bytes of that number", &lengths, &ROWS[..6], |row| &self.lengths[row]);
        print("by how a walk came to the chunk", &WAYS, &ROWS, |row| &self.ways[row]);
        print("every question, by what was said", &ANSWERS, &QUESTIONS, |row| &self.asked[row]);
        println!("{:>12}  broken chunks decoded", self.chunks());
        println!("{:>12}  questions in all, each with its place", self.questions());
    }
}

/// A table, unless there is nothing in it.
fn print<'a>(what: &str, columns: &[&str], rows: &[&str], of: impl Fn(usize) -> &'a [u64]) {
    if (0..rows.len()).all(|row| of(row).iter().all(|&count| count == 0)) {
        return;
    }
    println!("  {what}:");
    let wide = |name: &&str| name.len().max(12) + 2;
    let head: String = columns.iter().map(|name| format!("{name:>0$}", wide(name))).collect();
    println!("{:<22}{head}", "");
    for (row, name) in rows.iter().enumerate() {
        let line = columns.iter().zip(of(row));
        let line: String = line.map(|(name, count)| format!("{count:>0$}", wide(name))).collect();
        println!("{name:<22}{line}");
    }
}
