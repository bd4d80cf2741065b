//! How many cases have one limit for string32 and yson32, as in the original, and how many have two.

use std::fmt;

use crate::case::Case;

#[derive(Debug, Clone, Copy, Default)]
pub struct BlobLimits {
    /// Cases in which the two limits are the same.
    pub one: u64,
    pub two: u64,
    /// Of those with two, the ones that the original was asked about too.
    pub two_with_original: u64,
}

impl BlobLimits {
    pub fn add(&mut self, case: &Case, with_original: bool) {
        if case.has_one_blob_limit() {
            self.one += 1;
        } else {
            self.two += 1;
            self.two_with_original += u64::from(with_original);
        }
    }

    /// What every run has to meet and this one has not.
    pub fn unmet(&self) -> Vec<String> {
        let by_plain_alone = self.two - self.two_with_original;
        let counts = [("with the original", self.two_with_original), ("without it", by_plain_alone)];
        let never = counts.into_iter().filter(|(_, count)| *count == 0);
        never.map(|(words, _)| format!("two blob limits {words}")).collect()
    }
}

impl fmt::Display for BlobLimits {
    fn fmt(&self, out: &mut fmt::Formatter<'_>) -> fmt::Result {
        let BlobLimits { one, two, two_with_original } = self;
        write!(out, "blob limits: equal {one}, different {two} ({two_with_original} also by the original)")
    }
}
