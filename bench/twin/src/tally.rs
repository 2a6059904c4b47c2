//! A day's tally: how many lines had each number, 0 for the accepted ones, and how many there were.

use std::fmt::{self, Display, Formatter};

pub struct Tally {
    counts: [u64; 256],
    total: u64,
}

impl Tally {
    pub fn empty() -> Tally {
        Tally { counts: [0; 256], total: 0 }
    }

    /// As many are counted as the total can hold; then all counts stay.
    pub fn count(&mut self, number: u8) {
        if self.total < u64::MAX {
            self.counts[usize::from(number)] += 1;
            self.total += 1;
        }
    }
}

impl Display for Tally {
    fn fmt(&self, f: &mut Formatter) -> fmt::Result {
        writeln!(f, "T {} {}", self.counts[0], self.total)?;
        for (number, count) in self.counts.iter().enumerate().skip(1).filter(|&(_, &count)| count > 0) {
            writeln!(f, "R {number} {count}")?;
        }
        Ok(())
    }
}

#[cfg(test)]
mod tests {
    use super::*;

    #[test]
    fn counts_by_number() {
        let mut tally = Tally::empty();
        assert_eq!(tally.to_string(), "T 0 0\n");
        for number in [0, 20, 4, 0, 4, 255] {
            tally.count(number);
        }
        assert_eq!(tally.to_string(), "T 2 6\nR 4 2\nR 20 1\nR 255 1\n");
    }

    #[test]
    fn a_full_tally_stays() {
        let mut tally = Tally { counts: [0; 256], total: u64::MAX - 1 };
        tally.counts[0] = u64::MAX - 2;
        tally.counts[3] = 1;
        tally.count(3);
        for number in [0, 3, 4] {
            tally.count(number);
        }
        assert_eq!(tally.to_string(), "T 18446744073709551613 18446744073709551615\nR 3 2\n");
    }
}
