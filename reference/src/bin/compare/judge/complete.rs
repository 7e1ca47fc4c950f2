//! Counts how lists stand to every side of their network, by the shares of the trees that count.

use reference::every_side::Beside;
use std::cmp::Ordering;

/// How many lists were held against every side: where three times the shares exceed their weight, are equal to it, and are less.
#[derive(Default)]
pub struct Completeness {
    pub above: u64,
    pub one_above: u64,
    pub equal: u64,
    /// With a side of the weight missing.
    pub equal_missing: u64,
    pub below: u64,
    /// One less, with a side of the weight missing, and with a lighter side.
    pub one_below: u64,
    pub one_below_missing: u64,
    pub one_below_lighter: u64,
}

impl Completeness {
    pub fn count(&mut self, beside: &Beside) {
        let Beside { shares, by_one, missing, lighter } = *beside;
        match shares {
            Ordering::Greater => {
                self.above += 1;
                self.one_above += u64::from(by_one);
            }
            Ordering::Equal => {
                self.equal += 1;
                self.equal_missing += u64::from(missing > 0);
            }
            Ordering::Less => {
                self.below += 1;
                self.one_below += u64::from(by_one);
                self.one_below_missing += u64::from(by_one && missing > 0);
                self.one_below_lighter += u64::from(by_one && lighter > 0);
            }
        }
    }

    /// What has to be among the cases, and how often it is.
    pub fn needed(&self) -> [(u64, &'static str); 5] {
        [
            (self.one_above, "a list that is complete by 1"),
            (self.equal - self.equal_missing, "a list without a gap where three times the shares equal its weight"),
            (self.equal_missing, "a side that is missing where three times the shares equal the weight"),
            (self.one_below_missing, "a side that is missing where three times the shares are 1 less than the weight"),
            (self.one_below_lighter, "a lighter side where three times the shares are 1 less than the weight"),
        ]
    }
}
