//! Moves of words against memmove: short and of several blocks, within the bytes and not.
use call_tests::moves::{memmove, move_words};
use call_tests::random::Random;

fn same_move(r: &mut Random, length: usize, from: usize, to: usize, n: usize) {
    let old = r.bytes(length);
    let (mut ours, mut theirs) = (old.clone(), old);
    assert_eq!(move_words(&mut ours, from, to, n), memmove(&mut theirs, from, to, n), "{length} {from} {to} {n}");
    assert!(ours == theirs, "{length} {from} {to} {n}");
}

#[test]
fn random_moves() {
    let mut r = Random::new(31);
    for _ in 0..100_000 {
        let most = if r.one_in(100) { 3000 } else { 40 };
        let mut pick = || r.below(most) as usize;
        let (from, to, n) = (pick(), pick(), pick());
        let length = 8 * (from.max(to) + n) + r.below(16) as usize;
        same_move(&mut r, length.saturating_sub(8), from, to, n);
        same_move(&mut r, length, from, to, n);
    }
}

#[test]
fn runs_out_of_the_bytes() {
    let mut r = Random::new(32);
    let odd = [0, 1, 2, 7, 8, 9, 511, 512, 513, 1 << 32, usize::MAX / 8, usize::MAX / 8 + 1, usize::MAX - 1, usize::MAX];
    for _ in 0..100_000 {
        let mut pick = || odd[r.below(odd.len() as u64) as usize];
        let (from, to, n) = (pick(), pick(), pick());
        let length = r.below(100) as usize;
        same_move(&mut r, length, from, to, n);
    }
}
