//! How an index goes through the chunks of a border: by stripes, or plainly. And its stripes.

use std::fmt;
use std::sync::Arc;

use crate::room::room;
use crate::{Refusal, sys};

/// How an [`Index`](crate::Index) goes through the chunks of a long border. Every answer and every refusal is the same
/// either way, which is proved; what differs is how long it takes.
///
/// A file keeps a border as groups of chunks. Plainly, a question looks at every chunk of a group that it meets. With
/// stripes, which say for each group the chunks at a height, it looks at those alone: that is faster by long coastlines.
/// Opening builds the stripes where it can, and keeps them beside the file; [`Index::walk`](crate::Index::walk) tells
/// what has come of it.
///
/// ```
/// # fn main() -> Result<(), Box<dyn std::error::Error>> {
/// use tzb::{Index, Walk};
///
/// let index = Index::open(tzb::read("../sample/real-ne.tzb")?)?;
/// match index.walk() {
///     Walk::Striped { numbers } => println!("stripes of {} bytes", 4 * numbers),
///     Walk::Plain(why) => println!("no stripes: {why}"),
/// }
/// # assert!(matches!(index.walk(), Walk::Striped { .. }));
/// # Ok(())
/// # }
/// ```
#[derive(Clone, Copy, Debug, PartialEq, Eq)]
pub enum Walk {
    /// By stripes.
    Striped {
        /// How many numbers the stripes have, of four bytes each. Together they are never longer than the file.
        numbers: usize,
    },
    /// Plainly, chunk by chunk, for want of stripes.
    Plain(WhyPlain),
}

/// Why an index has no stripes.
#[derive(Clone, Copy, Debug, PartialEq, Eq)]
#[non_exhaustive]
pub enum WhyPlain {
    /// It was opened so, by [`open_plain`](crate::Index::open_plain).
    Chosen,
    /// The stripes would be longer than the file. So an index never takes more than twice the memory of its file, whoever
    /// made that: a small one can ask for stripes without end, where its groups share their chunks.
    TooLarge {
        /// How many numbers they would have, of four bytes each.
        numbers: usize,
    },
    /// No stripes can be built: refusal 49, a chunk's box reaches above or below its group's. The full check does not
    /// accept such a file (rule 5), and no other refusal is met in a file that opens.
    Refused(Refusal),
    /// There is no memory for them.
    NoMemory {
        /// How many numbers they would have, of four bytes each.
        numbers: usize,
    },
}

/// As in `by stripes: 25 numbers, 100 bytes` and `plainly: refusal 49: …`.
impl fmt::Display for Walk {
    fn fmt(&self, f: &mut fmt::Formatter<'_>) -> fmt::Result {
        match self {
            Self::Striped { numbers } => {
                write!(f, "by stripes: {numbers} numbers, {} bytes", bytes(*numbers))
            }
            Self::Plain(why) => write!(f, "plainly: {why}"),
        }
    }
}

impl fmt::Display for WhyPlain {
    fn fmt(&self, f: &mut fmt::Formatter<'_>) -> fmt::Result {
        match self {
            Self::Chosen => write!(f, "it was opened so"),
            Self::TooLarge { numbers } => {
                write!(f, "the stripes would take {} bytes, more than the file", bytes(*numbers))
            }
            Self::Refused(refusal) => write!(f, "{refusal}"),
            Self::NoMemory { numbers } => {
                write!(f, "there is no memory for the stripes, {} bytes", bytes(*numbers))
            }
        }
    }
}

/// How many bytes so many numbers take.
fn bytes(numbers: usize) -> usize {
    numbers.saturating_mul(size_of::<u32>())
}

/// The stripes of an index, or why it has none. They are shared, so that a clone of an index costs what a clone of its bytes
/// does.
pub(crate) type Stripes = Result<Arc<Vec<u32>>, WhyPlain>;

/// Builds the stripes of a file that was opened, where they are not longer than it.
pub(crate) fn stripes(record: &sys::Record, file: &[u8]) -> Stripes {
    let refused = |code| Refusal::of_code(code).map_err(WhyPlain::Refused);
    let need = refused(sys::stripes_need(record, file))?;
    if bytes(need) > file.len() {
        return Err(WhyPlain::TooLarge { numbers: need });
    }
    let mut numbers = room(need).map_err(|_| WhyPlain::NoMemory { numbers: need })?;
    let written = refused(sys::stripes(record, file, &mut numbers))?;
    numbers.truncate(written);
    Ok(Arc::new(numbers))
}

#[cfg(test)]
mod tests {
    use super::*;

    /// The sample, opened, and how many numbers its stripes take.
    fn sample() -> (Vec<u8>, sys::Record, usize) {
        let file = std::fs::read("../sample/real-ne.tzb").unwrap();
        let mut record = [0; sys::RECORD];
        assert_eq!(sys::open(&file, &mut record), 0);
        let need = sys::stripes_need(&record, &file);
        (file, record, need.try_into().unwrap())
    }

    /// In Germany, by the coast of Chile, at sea.
    const ASKED: [(f64, f64); 3] = [(8.68, 50.11), (-73.5, -47.2), (-30.0, 0.0)];

    #[test]
    fn what_lies_behind_the_stripes_stays() {
        let (file, record, need) = sample();
        let built = stripes(&record, &file).unwrap();
        assert_eq!(built.len(), need);
        for more in [0, 1, 1000] {
            let mut numbers = vec![0xeeee_eeee; need + more];
            assert_eq!(sys::stripes(&record, &file, &mut numbers), need as i64);
            assert_eq!(numbers[..need], built[..]);
            assert!(numbers[need..].iter().all(|&number| number == 0xeeee_eeee), "{more}");
            for (lng, lat) in ASKED {
                let asked = sys::ask_striped(&record, &numbers, &file, lng, lat);
                assert_eq!(asked, sys::ask(&record, &file, lng, lat), "{lng} {lat}");
            }
        }
    }

    #[test]
    fn room_that_is_too_short_is_46_and_stays() {
        let (file, record, need) = sample();
        for room in [0, 1, need / 2, need - 1] {
            let mut numbers = vec![0xeeee_eeee; room];
            assert_eq!(sys::stripes(&record, &file, &mut numbers), -1046, "{room}");
            assert!(numbers.iter().all(|&number| number == 0xeeee_eeee), "{room}");
        }
    }

    /// Bytes that are not the file's: no stripes, and no memory is made for any.
    #[test]
    fn a_record_of_other_bytes() {
        let (file, record, _) = sample();
        for bytes in [&[], &file[..file.len() / 8]] {
            assert_eq!(sys::stripes_need(&record, bytes), -1044);
            let Err(WhyPlain::Refused(refusal)) = stripes(&record, bytes) else { panic!() };
            assert_eq!(refusal.number(), 44);
        }
    }

    /// No numbers are no plain question. Where they say that a group has no stripes it is walked plainly.
    #[test]
    fn numbers_of_ones_own() {
        let (file, record, need) = sample();
        for (lng, lat) in ASKED {
            let plain = sys::ask(&record, &file, lng, lat);
            assert!(plain >= 0, "{lng} {lat}");
            assert_eq!(sys::ask_striped(&record, &vec![0; need], &file, lng, lat), plain);
        }
        // Along a parallel through Germany: where a group is walked there is no entry for it, or no place where its stripes would stand.
        let inside =
            |numbers: &[u32], x| sys::contains_striped(&record, numbers, &file, 126, x, 5_011_000);
        let mut walked = 0;
        for x in (500_000..1_600_000).step_by(2_500) {
            let plain = sys::contains(&record, &file, 126, x, 5_011_000);
            let found = inside(&[], x);
            assert!(found == plain || found == -1044, "{x}");
            assert_eq!(inside(&vec![u32::MAX; need], x), found, "{x}");
            walked += usize::from(found == -1044);
        }
        assert!(walked > 0);
    }

    #[test]
    fn in_words() {
        let told = |why| Walk::Plain(why).to_string();
        let striped = Walk::Striped { numbers: 25 };
        assert_eq!(striped.to_string(), "by stripes: 25 numbers, 100 bytes");
        assert_eq!(told(WhyPlain::Chosen), "plainly: it was opened so");
        assert!(
            told(WhyPlain::TooLarge { numbers: 25 })
                .ends_with("take 100 bytes, more than the file")
        );
        assert!(
            told(WhyPlain::NoMemory { numbers: 25 }).ends_with("memory for the stripes, 100 bytes")
        );
        let refusal = Refusal::new(49);
        assert_eq!(told(WhyPlain::Refused(refusal)), format!("plainly: {refusal}"));
        assert_eq!(bytes(usize::MAX), usize::MAX);
    }
}
