//! Bucket and proxy of a block against the divisions: around every two powers of two, and of random numbers with 64 bits.
use call_tests::numbers::{bench_numbers, divided, divided_at_run_time, numbers};
use call_tests::random::Random;

fn same_numbers(block: u64) {
    let proved = numbers(bench_numbers, block);
    assert_eq!(proved, numbers(divided, block), "{block}");
    assert_eq!(proved, numbers(divided_at_run_time, block), "{block}");
}

#[test]
fn around_powers_of_two() {
    for power in (0..64).map(|bit| 1u64 << bit) {
        for other in (0..64).map(|bit| 1u64 << bit) {
            [-1, 0, 1].iter().for_each(|&by| same_numbers((power | other).wrapping_add_signed(by)));
        }
    }
}

#[test]
fn random_numbers() {
    let mut r = Random::new(33);
    (0..1_000_000).for_each(|_| same_numbers(r.next()));
}
