//! Kinds of calls, and how many there are of each.

/// What calls have in common, and whether a call has it.
pub type Kind<T> = (&'static str, fn(&T) -> bool);

/// Counts a call in each kind that it is of.
pub fn count<T>(kinds: &[Kind<T>], counts: &mut [u64], call: &T) {
    for ((_, has), count) in kinds.iter().zip(counts) {
        *count += u64::from(has(call));
    }
}

pub fn named<T>(kinds: &[Kind<T>], counts: &[u64]) -> Vec<(u64, &'static str)> {
    kinds.iter().zip(counts).map(|((name, _), &count)| (count, *name)).collect()
}
