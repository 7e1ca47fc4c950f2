//! Numbers that name no record of a sheet.

/// How many bits there are below a number that a reader of too few bits takes for a lower one: as many as tree numbers and link numbers
/// need, and those of bytes.
const BITS: [u32; 6] = [5, 8, 11, 16, 24, 31];

/// Numbers outside a sheet of so many links, or so many trees: the next ones, those with a number inside or around the count in their lower
/// bits, and the greatest.
pub fn outside(count: usize) -> Vec<u32> {
    let count = count as u32;
    let lower_bits = BITS.into_iter().flat_map(|bits| {
        let above: u32 = 1 << bits;
        [above - 1, above, above + count.saturating_sub(1), above + count]
    });
    let mut numbers: Vec<u32> = lower_bits.chain([count, count + 1, u32::MAX - 1, u32::MAX]).collect();
    numbers.retain(|&number| number >= count);
    numbers.sort_unstable();
    numbers.dedup();
    numbers
}

#[cfg(test)]
mod tests {
    use super::*;
    use crate::sheet::{MOST_LINKS, MOST_TREES};

    #[test]
    fn numbers_are_outside_and_have_one_inside_in_their_lower_bits() {
        for count in [0, 1, 2, MOST_TREES, 255, 2047, MOST_LINKS] {
            let outside = outside(count);
            assert!(outside.iter().all(|&number| number as usize >= count));
            assert!([count as u32, 65_536, 1 << 31, u32::MAX].iter().all(|number| outside.contains(number)));
        }
        for count in [1, 2, MOST_TREES] {
            let outside = outside(count);
            let last = count as u32 - 1;
            assert!([255, 256, 65_535, 256 + last, 257 + last, 65_537 + last]
                .iter()
                .all(|tree| outside.contains(tree)));
        }
    }
}
