//! Reading a file whole, and never more of it than an index can have.

use std::fs::File;
use std::io::{self, ErrorKind, Read, Take};
use std::path::Path;

use crate::Refusal;
use crate::refusal::BAD_LENGTH;

/// The longest file that an index can be, in bytes.
const LONGEST: u64 = 4_294_967_295;
/// What is read at first, at the least.
const FIRST: u64 = 8192;

/// Reads a file whole, to be opened; but one that is too long to be an index is not read.
///
/// A file whose length is above 4,294,967,295 bytes is refused by its length, before a byte of it is read. What tells no
/// length, as a pipe, is read up to a byte past that limit and no further.
///
/// ```
/// # fn main() -> Result<(), Box<dyn std::error::Error>> {
/// let index = tzb::Index::open(tzb::read("../sample/real-ne.tzb")?)?;
/// assert_eq!(index.zone_count(), 481);
/// # Ok(())
/// # }
/// ```
///
/// # Errors
/// Where the file cannot be read. Where it is too long the error is of the kind
/// [`FileTooLarge`](ErrorKind::FileTooLarge) and holds refusal 1: [`downcast`](io::Error::downcast) takes it out.
pub fn read(path: impl AsRef<Path>) -> io::Result<Vec<u8>> {
    let file = File::open(path)?;
    let about = file.metadata()?;
    // What is no plain file says 0, whatever comes out of it.
    let length = if about.is_file() { about.len() } else { 0 };
    read_up_to(LONGEST, length, file)
}

/// The length is what the source says of itself: what comes may be more, or less.
fn read_up_to(limit: u64, length: u64, source: impl Read) -> io::Result<Vec<u8>> {
    let too_long = || io::Error::new(ErrorKind::FileTooLarge, Refusal::new(BAD_LENGTH));
    if length > limit {
        return Err(too_long());
    }
    let mut bytes = Vec::new();
    let mut source = source.take(limit.saturating_add(1));
    // A byte more than it says: where that is right, the end is seen at once.
    let mut piece = FIRST.max(length.saturating_add(1));
    while read_piece(&mut source, piece, &mut bytes)? {
        piece = bytes.len() as u64;
    }
    if bytes.len() as u64 > limit { Err(too_long()) } else { Ok(bytes) }
}

/// Reads so many bytes, and tells whether there may be more. No more room is made than for these.
fn read_piece(source: &mut Take<impl Read>, size: u64, bytes: &mut Vec<u8>) -> io::Result<bool> {
    let size = size.min(source.limit());
    bytes.try_reserve_exact(usize::try_from(size).unwrap_or(usize::MAX))?;
    let read = source.by_ref().take(size).read_to_end(bytes)?;
    Ok(size > 0 && read as u64 == size)
}

#[cfg(test)]
mod tests {
    use super::*;

    /// Gives zeros without end, and counts them.
    struct Endless(u64);

    impl Read for Endless {
        fn read(&mut self, room: &mut [u8]) -> io::Result<usize> {
            room.fill(0);
            self.0 += room.len() as u64;
            Ok(room.len())
        }
    }

    fn refused(done: io::Result<Vec<u8>>) -> u32 {
        done.unwrap_err().downcast::<Refusal>().unwrap().number()
    }

    #[test]
    fn a_length_above_the_limit_is_refused_before_a_byte_is_read() {
        let mut source = Endless(0);
        assert_eq!(refused(read_up_to(1000, 1001, &mut source)), 1);
        assert_eq!(source.0, 0);
    }

    #[test]
    fn what_tells_no_length_is_read_up_to_the_limit_and_no_further() {
        let mut source = Endless(0);
        assert_eq!(refused(read_up_to(1000, 0, &mut source)), 1);
        assert_eq!(source.0, 1001);
        for length in [0, 1, 999, 1000] {
            let bytes = vec![7; length];
            assert_eq!(read_up_to(1000, 0, bytes.as_slice()).unwrap(), bytes);
        }
        assert_eq!(refused(read_up_to(1000, 0, [7; 1001].as_slice())), 1);
    }

    /// A file can grow or shrink between the look at its length and the reading.
    #[test]
    fn a_length_that_is_wrong() {
        assert_eq!(read_up_to(1000, 10, [7; 12].as_slice()).unwrap(), [7; 12]);
        assert_eq!(read_up_to(1000, 1000, [7; 12].as_slice()).unwrap(), [7; 12]);
        assert_eq!(refused(read_up_to(1000, 10, [7; 1001].as_slice())), 1);
        let long: Vec<u8> = (0..100_000).map(|n| n as u8).collect();
        for length in [0, 10, 8191, 8192, 50_000, 99_999, 100_000, 200_000] {
            assert_eq!(read_up_to(LONGEST, length, long.as_slice()).unwrap(), long, "{length}");
        }
    }

    /// Room is never made for more than the limit and a byte.
    #[test]
    fn room_stays_below_the_limit() {
        for limit in [1000, 8191, 8192, 16_384, 100_000] {
            let mut bytes = Vec::new();
            let mut source = Endless(0).take(limit + 1);
            while read_piece(&mut source, FIRST.max(bytes.len() as u64), &mut bytes).unwrap() {}
            assert_eq!((bytes.len(), bytes.capacity()), (limit as usize + 1, limit as usize + 1));
        }
    }

    /// A few bytes without a length cost a small buffer, whatever the limit is.
    #[test]
    fn a_few_bytes_cost_little() {
        let bytes = read_up_to(LONGEST, 0, [7; 12].as_slice()).unwrap();
        assert!(bytes.capacity() < 10_000, "{}", bytes.capacity());
    }
}
