//! Random choices from lists.
use call_tests::random::Random;

/// None where there is nothing to choose from.
pub fn pick<T: Clone>(r: &mut Random, list: &[T]) -> Option<T> {
    let n = list.len() as u64;
    (n > 0).then(|| list[r.below(n) as usize].clone())
}

/// From a list that is not empty.
pub fn one_of<T: Clone, const N: usize>(r: &mut Random, list: &[T; N]) -> T {
    list[r.below(N as u64) as usize].clone()
}
