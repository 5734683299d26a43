//! The check against the independent implementation: formatted and random stores, damaged.
use call_tests::store::model::{self, Settings};
use call_tests::random::Random;
use call_tests::store::random::{small_settings, sound_store};

fn same_answer(bytes: &[u8]) -> u64 {
    let old = bytes.to_vec();
    let code = call_tests::store::check(bytes);
    assert_eq!(code, model::check(bytes));
    // a read of no blocks asks nothing else
    assert_eq!(call_tests::store::read(bytes, 0, &[], &mut []), code);
    assert!(bytes == old);
    code
}

#[test]
fn every_byte_of_a_formatted_store_damaged() {
    let s = Settings::new(3, 8, 2, 4);
    let mut store = vec![0; s.bytes()];
    model::format(&mut store, s);
    assert_eq!(same_answer(&store), 0);
    let mut refused = 0;
    for i in 0..store.len() {
        for change in [1u8, 2, 16, 128, 255] {
            store[i] ^= change;
            refused += (same_answer(&store) == 2) as u64;
            store[i] ^= change;
        }
    }
    assert!(refused > 1000);
}

/// The words of an older layout, which had no version: those after the first, at their old length and at the present one.
fn without_version(store: &[u8]) -> [Vec<u8>; 2] {
    let words = &store[8..];
    [words.to_vec(), [words, &[0; 8]].concat()]
}

#[test]
fn other_versions() {
    let mut r = Random::new(14);
    for _ in 0..100 {
        let s = small_settings(&mut r);
        let store = sound_store(&mut r, s, 50);
        assert_eq!(&store[..8], b"DISK0001");
        let others = (0..64).map(|bit| model::VERSION ^ 1 << bit).chain([0, 1, s.places, model::VERSION.swap_bytes(), u64::MAX, r.next()]);
        for version in others {
            let mut other = store.clone();
            model::put(&mut other, 0, version);
            assert_eq!(same_answer(&other), 2, "version {version:#x}");
        }
        for old in without_version(&store) {
            assert_eq!(same_answer(&old), 2);
        }
    }
}

#[test]
fn random_sound_stores() {
    let mut r = Random::new(11);
    for i in 0..300 {
        let s = small_settings(&mut r);
        let store = sound_store(&mut r, s, [0, 30, 100][i % 3]);
        assert_eq!(same_answer(&store), 0);
    }
}

/// One word or byte of a sound store changed, often to a value near a limit.
#[test]
fn damaged_stores() {
    let mut r = Random::new(12);
    let (mut sound, mut unsound) = (0u64, 0u64);
    let mut left = call_tests::tries();
    while left > 0 {
        let s = small_settings(&mut r);
        let percent = r.below(101);
        let mut store = sound_store(&mut r, s, percent);
        assert_eq!(same_answer(&store), 0);
        for _ in 0..2000.min(left) {
            let i = r.below(s.words() as u64) as usize;
            let old = model::get(&store, i);
            let other = model::get(&store, r.below(s.words() as u64) as usize);
            let edge = [0, 1, 2, 3, 4, 32, 33, 64, 65, 255, 256, model::MAX_NUMBER, model::MAX_NUMBER + 1, model::BLOCKS - 1, model::BLOCKS, model::SEQUENCES, u64::MAX];
            let new = match r.below(6) {
                0 => old ^ 1 << r.below(64),
                1 => old.wrapping_add(1),
                2 => old.wrapping_sub(1),
                3 => other,
                4 => edge[r.below(edge.len() as u64) as usize],
                _ => r.next(),
            };
            model::put(&mut store, i, new);
            let code = call_tests::store::check(&store);
            assert_eq!(code, model::check(&store), "word {i} of {s:?} from {old} to {new}");
            if code == 0 { sound += 1 } else { unsound += 1 }
            model::put(&mut store, i, old);
        }
        left -= 2000.min(left);
    }
    assert!(sound > 0 && unsound > 0);
}

#[test]
fn lengths_near_the_right_one() {
    let mut r = Random::new(13);
    for _ in 0..100 {
        let s = small_settings(&mut r);
        let store = sound_store(&mut r, s, 50);
        for d in 1..=17 {
            assert_eq!(same_answer(&store[..store.len() - d]), 2);
            let mut longer = store.clone();
            longer.extend(r.bytes(d));
            assert_eq!(same_answer(&longer), 2);
        }
    }
    for n in 0..6000 {
        let bytes = r.bytes(n);
        assert_eq!(same_answer(&bytes), 2);
    }
}
