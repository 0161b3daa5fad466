//! Where a file is broken, for whoever has to tell its supplier: which byte, what is wrong there, and in which chunk.

use std::fmt;
use std::io::Write;

use super::progress::Progress;
use crate::commas::Commas;
use tzb::{Index, Refusal};

/// A refusal in words. One that has a place starts with it: `byte 1,204,331: a number is longer than it need be (39)`.
pub struct Told<'a>(pub &'a Refusal);

impl fmt::Display for Told<'_> {
    fn fmt(&self, f: &mut fmt::Formatter<'_>) -> fmt::Result {
        match self.0.place() {
            Some(place) => write!(f, "byte {}: {}", Commas(place), meaning(self.0)),
            None => write!(f, "{}", self.0),
        }
    }
}

/// A chunk whose points cannot be read.
#[derive(Debug, PartialEq)]
pub struct BrokenChunk {
    number: u32,
    why: Refusal,
}

impl BrokenChunk {
    /// The first that the index has, if any.
    pub fn first(index: &Index<&[u8]>) -> Option<Self> {
        let refused = |chunk| index.decode(chunk).err();
        first_of(index.chunk_count(), refused, Progress::new("chunks"))
    }
}

/// `byte 1,204,331: a number is longer than it need be (39), in chunk 812`; where there is no place the chunk comes first.
impl fmt::Display for BrokenChunk {
    fn fmt(&self, f: &mut fmt::Formatter<'_>) -> fmt::Result {
        let chunk = Commas(self.number.into());
        match self.why.place() {
            Some(_) => write!(f, "{}, in chunk {chunk}", Told(&self.why)),
            None => write!(f, "chunk {chunk}: {}", meaning(&self.why)),
        }
    }
}

/// The first of so many chunks that is refused. None behind it is asked.
fn first_of(
    count: u32,
    refused: impl Fn(u32) -> Option<Refusal>,
    mut progress: Progress<impl Write>,
) -> Option<BrokenChunk> {
    (0..count).find_map(|number| {
        progress.at(number.into());
        refused(number).map(|why| BrokenChunk { number, why })
    })
}

/// What a refusal means, within a line, with its number: `a number is longer than it need be (39)`.
fn meaning(refusal: &Refusal) -> String {
    let number = refusal.number();
    let words = match number {
        38 => "a number is cut off",
        39 => "a number is longer than it need be",
        40 => "a number does not fit in 32 bits",
        41 => "a coordinate, added up to here, does not fit in 32 bits",
        42 => "a point lies outside 180 degrees of longitude or 90 of latitude",
        43 => "bytes are left over behind the last point",
        _ => return format!("{} ({number})", within_a_line(refusal.sentence())),
    };
    format!("{words} ({number})")
}

/// A sentence without its great first letter and its end.
fn within_a_line(sentence: &str) -> String {
    let mut rest = sentence.trim_end_matches('.').chars();
    let first = rest.next().map(|c| c.to_ascii_lowercase());
    first.into_iter().chain(rest).collect()
}

#[cfg(test)]
mod tests {
    use super::*;
    use tzb::journal::{ENTRY, Entry};

    /// A refusal by its number, as an entry has it: without a place.
    fn refusal(number: u8) -> Refusal {
        let mut bytes = Entry { x: 0, y: 0, answer: Ok(vec![]) }.to_bytes().unwrap();
        bytes[ENTRY - 1] = number;
        Entry::read(&bytes).unwrap().reason().unwrap()
    }

    #[test]
    fn a_refusal_without_a_place_shows_none() {
        for number in 1..=46 {
            let why = refusal(number);
            assert_eq!(Told(&why).to_string(), why.to_string());
            let shown = BrokenChunk { number: 1812, why }.to_string();
            assert!(shown.starts_with("chunk 1,812: "), "{shown}");
            assert!(shown.ends_with(&format!(" ({number})")), "{shown}");
            assert!(!shown.contains("byte 1") && !shown.contains('.'), "{shown}");
        }
        let cases = [
            (37, "a chunk's stretch of bytes is empty or ends before it starts"),
            (44, "the bytes lent end before what is to be read"),
            (39, "a number is longer than it need be"),
        ];
        for (number, words) in cases {
            let broken = BrokenChunk { number: 812, why: refusal(number) };
            assert_eq!(broken.to_string(), format!("chunk 812: {words} ({number})"));
        }
    }

    #[test]
    fn the_first_chunk_and_the_progress_up_to_it() {
        let refused = |chunk| (chunk >= 700).then(|| refusal(37));
        let mut told = Vec::new();
        let progress = Progress::of_test("chunks", &mut told);
        let first = first_of(9000, refused, progress).unwrap();
        assert_eq!(first, BrokenChunk { number: 700, why: refusal(37) });
        let told = String::from_utf8(told).unwrap();
        assert_eq!(told, "\r0 chunks\r256 chunks\r512 chunks\r\x1b[K");
        assert_eq!(first_of(700, refused, Progress::of_test("chunks", Vec::new())), None);
    }
}
