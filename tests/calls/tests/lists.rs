//! Send, deliver and drop on records against a vector: every record of the slice, at every count, refusals too.
use call_tests::lists::model::{self, over};
use call_tests::lists::{deliver, drop_at, random_relay, send, Delivered, Relay, MOST};
use call_tests::random::Random;

const NONE: Delivered = Delivered { code: 3, relay: [0; 5] };

fn records(r: &mut Random, length: usize) -> Vec<Relay> {
    (0..length).map(|_| random_relay(r)).collect()
}

/// The records and the vector carry out one event after the other; after each they hold the same.
#[test]
fn random_lists() {
    let mut r = Random::new(41);
    let (mut sent, mut full, mut gone, mut none) = (0, 0, 0, 0);
    for _ in 0..2_000 {
        let length = r.below(MOST as u64 + 6) as usize;
        let mut list = records(&mut r, length);
        let mut bag: Vec<Relay> = Vec::new();
        for _ in 0..200 {
            let before = list.clone();
            let (count, index) = (bag.len(), r.below(MOST as u64 + 2) as usize);
            match r.below(4) {
                0 => {
                    let code = drop_at(&mut list, count, index);
                    assert_eq!(code, if model::take(&mut bag, index).is_some() { 0 } else { 3 });
                    *(if code == 0 { &mut gone } else { &mut none }) += 1;
                }
                1 => {
                    let told = deliver(&mut list, count, index);
                    assert_eq!(told, model::take(&mut bag, index).map_or(NONE, |relay| Delivered { code: 0, relay }));
                }
                _ => {
                    let relay = random_relay(&mut r);
                    let code = send(&mut list, count, relay);
                    assert_eq!(code, model::send(&mut bag, length, relay));
                    *(if code == 0 { &mut sent } else { &mut full }) += 1;
                }
            }
            assert_eq!(list, over(&bag, &before));
        }
    }
    assert!(sent > 1000 && full > 1000 && gone > 1000 && none > 1000);
}

/// At every count and lengths around it, each event once, at each index that means something.
#[test]
fn every_count() {
    let mut r = Random::new(42);
    for count in 0..=MOST + 2 {
        for length in count.saturating_sub(2)..=count + 2 {
            let before = records(&mut r, length);
            let inside = count <= length;
            let relay = random_relay(&mut r);
            let mut list = before.clone();
            let code = send(&mut list, count, relay);
            assert_eq!(code, if count < length && count < MOST { 0 } else { 10 });
            let mut sent = before.clone();
            if code == 0 {
                sent[count] = relay;
            }
            assert_eq!(list, sent);
            for index in (0..count + 2).chain([usize::MAX]) {
                let there = inside && index < count;
                let (mut dropped, mut delivered) = (before.clone(), before.clone());
                assert_eq!(drop_at(&mut dropped, count, index), if there { 0 } else { 3 });
                assert_eq!(deliver(&mut delivered, count, index), if there { Delivered { code: 0, relay: before[index] } } else { NONE });
                let left = if there { over(&[&before[..index], &before[index + 1..count]].concat(), &before) } else { before.clone() };
                assert_eq!(dropped, left);
                assert_eq!(delivered, left);
            }
        }
    }
}

/// Counts that no slice has.
#[test]
fn wild_counts() {
    let mut r = Random::new(43);
    for count in [MOST + 1, 1 << 32, usize::MAX / 40, usize::MAX - 1, usize::MAX] {
        for length in [0, 1, MOST, MOST + 1] {
            let before = records(&mut r, length);
            let mut list = before.clone();
            assert_eq!(send(&mut list, count, [1; 5]), 10);
            for index in [0, 1, count.wrapping_sub(1), count, usize::MAX] {
                let there = count <= length && index < count;
                if !there {
                    assert_eq!(drop_at(&mut list, count, index), 3);
                    assert_eq!(deliver(&mut list, count, index), NONE);
                }
            }
            assert_eq!(list, before);
        }
    }
}
