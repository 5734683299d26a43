//! Alike against the independent implementation.
use call_tests::lent::Lent;
use call_tests::random::Random;
use call_tests::store::alike;
use call_tests::store::model::{self, Settings};
use call_tests::store::random::{small_settings, sound_store};

const SMALL: Settings = Settings { places: 3, size: 8, entries: 2, chunks: 4 };

/// Both ways; the stores are only read.
fn compared(one: &[u8], other: &[u8]) -> u64 {
    let (a, b) = (one.to_vec(), other.to_vec());
    let answer = alike(one, other);
    assert_eq!(answer, model::alike(one, other));
    assert_eq!(answer, alike(other, one));
    assert!(one == a && other == b);
    answer
}

#[test]
fn by_hand() {
    let mut r = Random::new(1);
    let fresh = Lent::new(&mut r, SMALL);
    assert_eq!(compared(&fresh.bytes, &fresh.bytes), 0);
    // bytes that are not in use do not count
    assert_eq!(compared(&fresh.bytes, &Lent::new(&mut r, SMALL).bytes), 0);
    let put = "learn,0 put,0,0,5,a1a1a1a1a1a1a1a1 copy,72057594037927936 savelog,0 savelog,1";
    let rows = [
        // items, logs and known views do not count
        (put.to_string(), 0),
        // the primary's memory does, the relay and the disk do not
        (format!("{put} map,0,5"), 1),
        ("view".to_string(), 1),
        ("crash,1".to_string(), 1),
        ("crash,1 rise,1".to_string(), 1),
        ("lose,2".to_string(), 1),
    ];
    for (lines, answer) in rows {
        let mut other = fresh.clone();
        other.accepted(&lines);
        assert_eq!(compared(&fresh.bytes, &other.bytes), answer, "{lines}");
    }
    let mut mapped = fresh.clone();
    mapped.accepted(&format!("{put} map,0,5"));
    let mut settled = mapped.clone();
    settled.accepted("send,5 deliver,0 savemap,0 savemap,1");
    assert_eq!(compared(&mapped.bytes, &settled.bytes), 0);
    for s in [Settings::new(4, 8, 2, 4), Settings::new(3, 16, 2, 4), Settings::new(3, 8, 3, 4), Settings::new(3, 8, 2, 5)] {
        assert_eq!(compared(&fresh.bytes, &Lent::new(&mut r, s).bytes), 1);
    }
    assert_eq!(compared(&fresh.bytes, &[]), 2);
    assert_eq!(compared(&[], &[]), 2);
}

/// A random sound store against itself with one word changed: alike, different or damaged.
#[test]
fn one_word_changed() {
    let mut r = Random::new(2);
    let mut answers = [0u64; 3];
    for i in 0..300 {
        let s = small_settings(&mut r);
        let one = sound_store(&mut r, s, [0, 30, 100][i % 3]);
        assert_eq!(compared(&one, &one), 0);
        let mut other = one.clone();
        for _ in 0..200 {
            let word = r.below(s.words() as u64) as usize;
            let old = model::get(&one, word);
            let new = match r.below(4) {
                0 => old.wrapping_add(1),
                1 => old.wrapping_sub(1),
                2 => old ^ 1,
                _ => r.number(),
            };
            model::put(&mut other, word, new);
            answers[compared(&one, &other) as usize] += 1;
            model::put(&mut other, word, old);
        }
        let stranger = sound_store(&mut r, s, 50);
        answers[compared(&one, &stranger) as usize] += 1;
    }
    assert!(answers.iter().all(|&n| n > 100), "{answers:?}");
}
