//! The bag handed out as records, against the store's words: sound and damaged stores, areas of every length.
use call_tests::lent::Lent;
use call_tests::lists::{random_relay, Relay, MOST};
use call_tests::random::Random;
use call_tests::store::model::{self, get, put, Settings, AT_BAG, RELAY};
use call_tests::store::random::{small_settings, sound_store};
use call_tests::store::{bag, BagAnswer};

/// What the store's words say, over the records as they are; the answer of an unsound store or a short area.
fn expected(store: &[u8], records: &[Relay]) -> (BagAnswer, Vec<Relay>) {
    let refused = |code| (BagAnswer { code, count: 0 }, records.to_vec());
    if model::check(store) != 0 {
        return refused(2);
    }
    let count = get(store, AT_BAG) as usize;
    if records.len() < count {
        return refused(3);
    }
    let mut all = records.to_vec();
    for (i, relay) in all[..count].iter_mut().enumerate() {
        *relay = std::array::from_fn(|word| get(store, AT_BAG + 1 + i * RELAY + word));
    }
    (BagAnswer { code: 0, count }, all)
}

/// The store is only read.
fn handed_out(r: &mut Random, store: &[u8], length: usize) -> BagAnswer {
    let old = store.to_vec();
    let mut records: Vec<Relay> = (0..length).map(|_| random_relay(r)).collect();
    let (answer, all) = expected(store, &records);
    assert_eq!(bag(store, &mut records), answer);
    assert_eq!(records, all);
    assert!(store == old);
    answer
}

#[test]
fn by_hand() {
    let mut r = Random::new(51);
    let mut lent = Lent::new(&mut r, Settings::new(3, 8, 2, 4));
    assert_eq!(handed_out(&mut r, &lent.bytes, 0), BagAnswer { code: 0, count: 0 });
    lent.accepted("learn,0 put,0,0,5,a1a1a1a1a1a1a1a1 copy,72057594037927936 savelog,0 savelog,1 map,0,5 send,5 send,5");
    let mut records = [[7; 5]; 3];
    assert_eq!(bag(&lent.bytes, &mut records), BagAnswer { code: 0, count: 2 });
    assert_eq!(records, [[1, 0, 1, 5, 1 << 56], [1, 0, 2, 5, 1 << 56], [7; 5]]);
    lent.accepted("drop,0");
    assert_eq!(bag(&lent.bytes, &mut records), BagAnswer { code: 0, count: 1 });
    assert_eq!(records, [[1, 0, 2, 5, 1 << 56], [1, 0, 2, 5, 1 << 56], [7; 5]]);
    assert_eq!(bag(&lent.bytes, &mut []), BagAnswer { code: 3, count: 0 });
    assert_eq!(bag(&[], &mut records), BagAnswer { code: 2, count: 0 });
}

/// A bag of every length into areas of every length.
#[test]
fn every_length() {
    let mut r = Random::new(52);
    let s = small_settings(&mut r);
    let full = sound_store(&mut r, s, 100);
    assert_eq!(get(&full, AT_BAG), MOST as u64);
    for count in 0..=MOST {
        let mut store = full.clone();
        put(&mut store, AT_BAG, count as u64);
        for length in 0..=MOST + 2 {
            let told = handed_out(&mut r, &store, length);
            assert_eq!(told, if count <= length { BagAnswer { code: 0, count } } else { BagAnswer { code: 3, count: 0 } });
        }
    }
}

/// Random stores, and each with one word or its length changed: no answer is left out.
#[test]
fn random_and_damaged_stores() {
    let mut r = Random::new(53);
    let mut codes = [0u64; 4];
    for i in 0..300 {
        let s = small_settings(&mut r);
        let store = sound_store(&mut r, s, [0, 10, 60, 100][i % 4]);
        for _ in 0..100 {
            let mut other = store.clone();
            match r.below(4) {
                0 => {}
                1 => put(&mut other, AT_BAG + r.below(1 + 5 * RELAY as u64) as usize, [0, 1, 16, 64, 65, u64::MAX][i % 6]),
                2 => put(&mut other, r.below(s.words() as u64) as usize, r.next() >> r.below(64)),
                _ => other.truncate(r.below(1 + store.len() as u64) as usize),
            }
            let length = r.below(MOST as u64 + 4) as usize;
            codes[handed_out(&mut r, &other, length).code as usize] += 1;
        }
    }
    assert!(codes[0] > 1000 && codes[2] > 1000 && codes[3] > 1000, "{codes:?}");
}
