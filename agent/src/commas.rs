//! A large number, as people read it.

use std::fmt;

/// With a comma before every three digits: `1,204,331`.
pub struct Commas(pub u64);

impl fmt::Display for Commas {
    fn fmt(&self, f: &mut fmt::Formatter<'_>) -> fmt::Result {
        match (self.0 / 1000, self.0 % 1000) {
            (0, last) => write!(f, "{last}"),
            (before, last) => write!(f, "{},{last:03}", Self(before)),
        }
    }
}

#[cfg(test)]
mod tests {
    use super::*;

    #[test]
    fn three_digits_each() {
        let cases = [
            (0, "0"),
            (7, "7"),
            (999, "999"),
            (1_000, "1,000"),
            (10_020, "10,020"),
            (1_204_331, "1,204,331"),
            (1_000_000, "1,000,000"),
            (u64::MAX, "18,446,744,073,709,551,615"),
        ];
        for (number, shown) in cases {
            assert_eq!(Commas(number).to_string(), shown);
        }
    }
}
