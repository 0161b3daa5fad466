//! An input in pieces of one size.

use std::io::{self, BufReader, Read, Write};

use super::failure::Failure;

pub struct Pieces<R> {
    input: BufReader<R>,
    size: usize,
    piece: Vec<u8>,
    /// A piece was shorter: what is added behind it would be cut at the wrong places.
    ended: bool,
    /// What it means that the input cannot be read.
    failure: Box<dyn Fn(io::Error) -> Failure>,
}

impl<R: Read> Pieces<R> {
    pub fn new(input: R, size: usize, failure: impl Fn(io::Error) -> Failure + 'static) -> Self {
        let input = BufReader::new(input);
        Self { input, size, piece: Vec::new(), ended: false, failure: Box::new(failure) }
    }

    /// The next piece; the last may be shorter, and then there is none. Whoever waits for answers gets them all before this
    /// waits for input.
    pub fn next(&mut self, out: &mut impl Write) -> Result<Option<&[u8]>, Failure> {
        if self.ended {
            return Ok(None);
        }
        if self.input.buffer().len() < self.size {
            out.flush().map_err(Failure::Output)?;
        }
        self.piece.clear();
        let mut piece = self.input.by_ref().take(self.size as u64);
        piece.read_to_end(&mut self.piece).map_err(&self.failure)?;
        self.ended = self.piece.len() < self.size;
        Ok(Some(self.piece.as_slice()).filter(|piece| !piece.is_empty()))
    }
}

#[cfg(test)]
mod tests {
    use super::*;

    /// Gives a byte at a time, and fails at the end where it is told to.
    struct Slow<'a>(&'a [u8], bool);

    impl Read for Slow<'_> {
        fn read(&mut self, room: &mut [u8]) -> io::Result<usize> {
            let Some((first, rest)) = self.0.split_first() else {
                return if self.1 { Err(io::Error::other("broken")) } else { Ok(0) };
            };
            self.0 = rest;
            room[0] = *first;
            Ok(1)
        }
    }

    #[test]
    fn whole_pieces_and_what_is_left() {
        for (text, read) in
            [("", vec![]), ("abcdef", vec!["abc", "def"]), ("abcd", vec!["abc", "d"])]
        {
            let mut pieces = Pieces::new(Slow(text.as_bytes(), false), 3, Failure::Input);
            for piece in read {
                let next = pieces.next(&mut io::sink()).unwrap();
                assert_eq!(next, Some(piece.as_bytes()), "{text:?}");
            }
            assert_eq!(pieces.next(&mut io::sink()).unwrap(), None, "{text:?}");
        }
    }

    /// Ends at each part that is empty, as a file to which somebody adds.
    struct Growing<'a>(&'a [&'a [u8]]);

    impl Read for Growing<'_> {
        fn read(&mut self, room: &mut [u8]) -> io::Result<usize> {
            let Some((first, rest)) = self.0.split_first() else { return Ok(0) };
            self.0 = rest;
            room[..first.len()].copy_from_slice(first);
            Ok(first.len())
        }
    }

    #[test]
    fn a_shorter_piece_is_the_last() {
        let mut pieces = Pieces::new(Growing(&[b"abcd", b"", b"ef"]), 3, Failure::Input);
        for piece in ["abc", "d"] {
            assert_eq!(pieces.next(&mut io::sink()).unwrap(), Some(piece.as_bytes()));
        }
        assert_eq!(pieces.next(&mut io::sink()).unwrap(), None);
    }

    #[test]
    fn an_input_that_cannot_be_read() {
        let mut pieces = Pieces::new(Slow(b"abcd", true), 3, Failure::Input);
        assert_eq!(pieces.next(&mut io::sink()).unwrap(), Some(&b"abc"[..]));
        assert!(matches!(pieces.next(&mut io::sink()), Err(Failure::Input(_))));
    }
}
