//! How far two lists of values are apart.

use crate::splitmix::NumberTable;

/// How far two lists of values are apart: the sum, over all lengths of their beginnings, of the
/// values that are in one of these and not in the other.
pub fn distance(puts: &[usize], takes: &[usize]) -> i64 {
    let mut counts: NumberTable<usize, i64> = NumberTable::default();
    let mut shift = |value: usize, change: i64| {
        let count = counts.entry(value).or_insert(0);
        let before = count.abs();
        *count += change;
        count.abs() - before
    };
    let mut apart = 0;
    let mut sum = 0;
    for (put, take) in puts.iter().zip(takes) {
        apart += shift(*put, 1) + shift(*take, -1);
        sum += apart;
    }
    sum
}

#[cfg(test)]
mod tests {
    use super::distance;

    #[test]
    fn counts_what_is_in_one_beginning_alone() {
        assert_eq!(distance(&[1, 2, 3], &[1, 2, 3]), 0);
        assert_eq!(distance(&[1, 2], &[2, 1]), 2);
        assert_eq!(distance(&[1, 2, 3], &[3, 1, 2]), 4);
    }
}
