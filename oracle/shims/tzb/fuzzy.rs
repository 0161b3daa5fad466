//! Stands for the original's `fuzzy`, which is not at hand: it accepts every FUZZY section unread.

use super::{Error, Reader};

pub(crate) struct FuzzyInfo;

impl Reader<'_> {
    pub(super) fn validate_fuzzy(&mut self) -> Result<(), Error> {
        self.fuzzy = Some(FuzzyInfo);
        Ok(())
    }
}
