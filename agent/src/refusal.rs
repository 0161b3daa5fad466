//! What the reader says where it gives no answer: a number, 1 to 50, for 38 to 43 the place in the file, and for 47 the rule
//! that is broken.

use std::fmt;
use std::ops::RangeInclusive;

use crate::commas::Commas;
use crate::sys;

/// Why there is no answer. Every refusal has one number, and leaves what was lent as it was.
///
/// Refusals 38 to 43, of a chunk whose bytes are broken, also have a [`place`](Self::place), and 47 has a
/// [`rule`](Self::rule). Two refusals are equal where number, place and rule are the same: to tell what kind one is, look at
/// its [`number`](Self::number).
///
/// ```
/// let refusal = tzb::Index::open(b"not an index").unwrap_err();
/// assert_eq!(refusal.number(), 1);
/// assert_eq!(
///     refusal.to_string(),
///     "refusal 1: The file is shorter than 68 bytes or longer than 4,294,967,295.",
/// );
/// ```
#[derive(Clone, Copy, Debug, PartialEq, Eq, Hash)]
pub struct Refusal {
    number: u32,
    /// 0 where there is none.
    rule: u32,
    place: Option<u64>,
}

pub(crate) const BAD_LENGTH: u32 = 1;
pub(crate) const NAME_NOT_UTF8: u32 = 25;
pub(crate) const PAST_THE_END: u32 = 44;
pub(crate) const NO_ROOM: u32 = 46;
const NOT_SOUND: u32 = 47;
/// Those of a chunk's bytes: a number in them is broken, its sum or its point is out of range, or bytes are left over.
const WITH_A_PLACE: RangeInclusive<u32> = 38..=43;

impl Refusal {
    pub(crate) fn new(number: u32) -> Self {
        Self { number, rule: 0, place: None }
    }

    /// 47, with the lowest broken rule.
    pub(crate) fn not_sound(rule: u32) -> Self {
        Self { rule, ..Self::new(NOT_SOUND) }
    }

    /// The same, and for 47 with the lowest broken rule of this file, which was refused.
    pub(crate) fn with_rule_of(self, file: &[u8]) -> Self {
        match self.number {
            NOT_SOUND => Self::not_sound(sys::full_check_rule(file)),
            _ => self,
        }
    }

    /// The same, and for 38 to 43 with the place that is told by the second export of the question, which gave this refusal.
    /// For another refusal it is not asked.
    pub(crate) fn with_place(self, ask: impl FnOnce() -> i64) -> Self {
        if !WITH_A_PLACE.contains(&self.number) {
            return self;
        }
        Self { place: u64::try_from(ask()).ok(), ..self }
    }

    /// What a code of the exports says: a number that is not negative, or -1000 - n for refusal n.
    pub(crate) fn of_code(code: i64) -> Result<usize, Self> {
        let number = (-1000_i64).saturating_sub(code);
        usize::try_from(code).map_err(|_| Self::new(number.try_into().unwrap_or(0)))
    }

    /// The number of the refusal, 1 to 50. [`sentence`](Self::sentence) says what it means.
    #[must_use]
    pub fn number(&self) -> u32 {
        self.number
    }

    /// For 47, the lowest broken rule of the full check, 2 to 6. [`rule_sentence`](Self::rule_sentence) says what it means.
    #[must_use]
    pub fn rule(&self) -> Option<u32> {
        (self.rule != 0).then_some(self.rule)
    }

    /// For 38 to 43, the byte of the file at which a chunk is broken, counted from 0: the first byte of the number that was
    /// being read.
    ///
    /// | Refusal | What starts there |
    /// |---|---|
    /// | 38 to 40 | the number that is broken; where the chunk has ended before it (38), that end, where it would start |
    /// | 41 | the number whose sum does not fit, the longitude's before the latitude's |
    /// | 42 | the latitude's number of the point, also where the longitude alone is out of range |
    /// | 43 | the bytes left over |
    ///
    /// All other refusals have none, 47 too: [`Index::decode`](crate::Index::decode) of one chunk after the other finds what
    /// is broken by rule 3, as `tzb check` does. A [journal](crate::journal) keeps the number alone, so the refusal of an
    /// entry has no place either.
    ///
    /// ```
    /// # fn main() -> Result<(), Box<dyn std::error::Error>> {
    /// # let mut file = tzb::read("../sample/real-ne.tzb")?;
    /// # let index = tzb::Index::open(&file)?;
    /// # let points = index.sections().find(|section| section.name() == Some("POINTS")).unwrap().offset;
    /// # file[points as usize..][..2].copy_from_slice(&[0x80, 0x00]);
    /// # let (bytes, sum) = file.split_last_chunk_mut().unwrap();
    /// # let step = |sum: u32, _| if sum & 1 == 1 { sum >> 1 ^ 0xedb8_8320 } else { sum >> 1 };
    /// # let crc = !bytes.iter().fold(!0, |sum, &byte| (0..8).fold(sum ^ u32::from(byte), step));
    /// # *sum = crc.to_le_bytes();
    /// let index = tzb::Index::open(file)?; // a file whose first number is 80 00, and 00 would do
    /// let refusal = index.decode(0).unwrap_err();
    /// assert_eq!((refusal.number(), refusal.place()), (39, Some(1_046_448)));
    /// assert_eq!(
    ///     refusal.to_string(),
    ///     "refusal 39: A number in a chunk is written longer than it need be, at byte 1,046,448.",
    /// );
    /// # Ok(())
    /// # }
    /// ```
    #[must_use]
    pub fn place(&self) -> Option<u64> {
        self.place
    }

    /// What the number means, in a sentence.
    #[must_use]
    pub fn sentence(&self) -> &'static str {
        let at = (self.number as usize).checked_sub(1);
        at.and_then(|at| SENTENCES.get(at)).unwrap_or(&"This version has no words for it.")
    }

    /// For 47, what the broken rule means.
    ///
    /// A file that breaks rule 2 or 3 can have questions refused. A file that breaks rule 4, 5 or 6 can have them
    /// answered wrongly, since the reader trusts the boxes to skip what lies elsewhere. Rule 2 is also broken by a ring of
    /// fewer than three segments, a line or a point: questions are answered then, but a zone drawn so has no room in it.
    #[must_use]
    pub fn rule_sentence(&self) -> Option<&'static str> {
        let at = (self.rule as usize).checked_sub(2)?;
        RULES.get(at).copied()
    }
}

/// `refusal 11: The checksum …`; the place stands at the sentence's end, and for 47 the rule's sentence behind it.
impl fmt::Display for Refusal {
    fn fmt(&self, f: &mut fmt::Formatter<'_>) -> fmt::Result {
        let sentence = self.sentence();
        write!(f, "refusal {}: ", self.number)?;
        match self.place {
            Some(place) => {
                write!(f, "{}, at byte {}.", sentence.trim_end_matches('.'), Commas(place))?;
            }
            None => write!(f, "{sentence}")?,
        }
        match (self.rule(), self.rule_sentence()) {
            (Some(rule), Some(sentence)) => write!(f, " Rule {rule} is broken: {sentence}"),
            _ => Ok(()),
        }
    }
}

impl std::error::Error for Refusal {}

/// The refusals 1 to 50, in order.
const SENTENCES: [&str; 50] = [
    "The file is shorter than 68 bytes or longer than 4,294,967,295.",
    "The file does not start with TZFB and major version 1, so it is no index.",
    "The file is of profile 1, a memory image, and not an index.",
    "The file is of a profile that is not known.",
    "The header's own length, its scale or the file size that it states is wrong.",
    "The zone count is not between 1 and 65,535.",
    "The chunk target is not between 1 and 65,535.",
    "The version text is not filled up with zeros.",
    "The version text is not UTF-8.",
    "The section table does not end before the file's last four bytes.",
    "The checksum (CRC-32) does not match the file's bytes.",
    "A section does not start at a multiple of four.",
    "A section starts inside the section table or ends past the room for sections.",
    "A section of a known type stands in the table twice.",
    "A section has a type that is not allowed in an index.",
    "Two sections share bytes.",
    "A section that every index has is missing.",
    "The header and the section table do not agree on whether there is a GRID.",
    "The length of a directory does not fit its records.",
    "A directory is empty.",
    "The NAMES section is too short for its offsets.",
    "The NAMES section is not as long as its offsets and its names together.",
    "The offsets of the names are out of order or leave the names.",
    "A zone has an empty name.",
    "A zone's name is not UTF-8.",
    "A zone's name has a zero byte in it.",
    "The GRID section is too short for its first twelve bytes.",
    "The GRID's place, columns, rows or number of candidates is out of range.",
    "The GRID section is not as long as its cells and candidates together.",
    "A GRID cell, or the place asked for, is past the end of the candidates.",
    "A GRID candidate is not the number of a zone.",
    "A chunk has no points, or its place in the points is past their end or not behind the chunk before.",
    "A group's point count is not what its chunks' add up to.",
    "A directory has no such record, or the record's box, its ends or what it points at is out of range.",
    "A ring names a group that is not there.",
    "A ring's point count is not what its groups' add up to.",
    "A chunk's stretch of bytes is empty or ends before it starts.",
    "A number in a chunk is cut off.",
    "A number in a chunk is written longer than it need be.",
    "A number in a chunk does not fit in 32 bits.",
    "A coordinate, added up along a chunk, does not fit in 32 bits.",
    "A point lies outside 180 degrees of longitude or 90 of latitude.",
    "A chunk has bytes left over behind its last point.",
    "The bytes lent end before what is to be read.",
    "There is no zone of that number.",
    "The room lent for the answer is too short.",
    "The file opens, but does not pass the full check.",
    "A ring of the zone has under four positions, over 10,000, or no area.",
    "A chunk's box reaches above or below its group's, and the group has two chunks or more: no stripes are built.",
    "What is to be read or written is no journal entry, or entries of so many places are not offered.",
];

/// The rules 2 to 6 of the full check, each by what it means that it is broken.
const RULES: [&str; 5] = [
    "a zone, polygon or ring has a bad record, names a group that is not there, or has a wrong point count, and a question that meets it is refused; or a ring has fewer than three segments, so that it is a line or a point, and only the spots on it are in it.",
    "the points of a chunk cannot be read. A question that meets it is refused.",
    "a chunk's box does not cover its points and the next chunk's first. A question near it can be answered wrongly.",
    "a group's box does not cover its chunks' boxes, or its two ends are not its first and last point. A question near it can be answered wrongly.",
    "a box of a ring, polygon or zone does not cover what lies in it. A question near it can be answered wrongly.",
];

#[cfg(test)]
mod tests {
    use super::*;

    #[test]
    fn every_number_has_a_sentence_of_its_own() {
        let mut said: Vec<&str> = (1..=50).map(|n| Refusal::new(n).sentence()).collect();
        for sentence in &said {
            assert!(sentence.ends_with('.') && sentence.len() > 10, "{sentence:?}");
            assert!(sentence.starts_with(char::is_uppercase), "{sentence:?}");
        }
        said.push(Refusal::new(0).sentence());
        said.sort_unstable();
        said.dedup();
        assert_eq!(said.len(), 51, "two refusals have the same sentence");
        assert_eq!(Refusal::new(0).sentence(), Refusal::new(51).sentence());
    }

    #[test]
    fn every_rule_has_a_sentence_and_only_47_has_a_rule() {
        for rule in 2..=6 {
            let refusal = Refusal::not_sound(rule);
            assert_eq!((refusal.number(), refusal.rule()), (47, Some(rule)));
            let sentence = refusal.rule_sentence().unwrap();
            let shown = refusal.to_string();
            assert!(shown.ends_with(&format!("Rule {rule} is broken: {sentence}")), "{shown}");
        }
        assert_eq!(Refusal::new(11).rule(), None);
        assert_eq!(Refusal::new(11).rule_sentence(), None);
        assert_eq!(Refusal::not_sound(7).rule_sentence(), None);
    }

    /// The second export is asked once, for 38 to 43 alone.
    #[test]
    fn a_place_is_asked_for_where_there_can_be_one() {
        for number in 0..=51 {
            let mut asked = 0;
            let refusal = Refusal::new(number).with_place(|| {
                asked += 1;
                1_204_331
            });
            let placed = (38..=43).contains(&number);
            assert_eq!((asked, refusal.place().is_some()), (u32::from(placed), placed), "{number}");
            assert_eq!((refusal.number(), refusal.rule()), (number, None));
            assert_eq!(refusal.sentence(), Refusal::new(number).sentence());
            assert_eq!(refusal.to_string().ends_with(", at byte 1,204,331."), placed, "{refusal}");
        }
        let sound = Refusal::not_sound(3);
        assert_eq!(sound.with_place(|| 7), sound);
        assert_eq!(Refusal::new(39).with_place(|| 0).place(), Some(0));
        assert_eq!(Refusal::new(39).with_place(|| -1), Refusal::new(39));
    }

    #[test]
    fn a_place_is_shown_at_the_sentences_end() {
        let shown = |number: u32, place| Refusal::new(number).with_place(|| place).to_string();
        let cases = [
            (38, 999, "A number in a chunk is cut off, at byte 999."),
            (
                42,
                1_000,
                "A point lies outside 180 degrees of longitude or 90 of latitude, at byte 1,000.",
            ),
            (
                43,
                4_294_967_291,
                "A chunk has bytes left over behind its last point, at byte 4,294,967,291.",
            ),
        ];
        for (number, place, sentence) in cases {
            assert_eq!(shown(number, place), format!("refusal {number}: {sentence}"));
        }
        assert_eq!(shown(43, -1), Refusal::new(43).to_string());
        let debug = format!("{:?}", Refusal::new(43).with_place(|| 7));
        assert_eq!(debug, "Refusal { number: 43, rule: 0, place: Some(7) }");
    }

    /// Number, rule and place count, and a refusal can still be copied and be a key.
    #[test]
    fn equal_are_those_with_the_same_place() {
        use std::collections::HashSet;
        let at = |number: u32, place| Refusal::new(number).with_place(|| place);
        let first = at(39, 70);
        let copied = first;
        assert_eq!(first, copied);
        let several = [at(39, 70), at(39, 71), at(40, 70), at(39, -1), Refusal::new(39)];
        assert_eq!(several.map(|one| one == first), [true, false, false, false, false]);
        assert_eq!(HashSet::from(several).len(), 4);
        assert!([39, 39, 40, 39, 39] == several.map(|one| one.number()));
    }

    #[test]
    fn a_code_is_a_number_or_a_refusal() {
        assert_eq!(Refusal::of_code(0), Ok(0));
        assert_eq!(Refusal::of_code(65_534), Ok(65_534));
        assert_eq!(Refusal::of_code(-1001), Err(Refusal::new(1)));
        assert_eq!(Refusal::of_code(-1047), Err(Refusal::new(47)));
        assert_eq!(Refusal::of_code(i64::MIN).unwrap_err().sentence(), Refusal::new(0).sentence());
    }

    /// The table of the repository's README says what the code says.
    #[test]
    fn the_readme_has_the_same_sentences() {
        let readme = std::fs::read_to_string("../README.md").unwrap();
        for number in 1..=50 {
            let row = format!("| {number} | {} |", Refusal::new(number).sentence());
            assert!(readme.lines().any(|line| line == row), "README.md has no row: {row}");
        }
    }
}
