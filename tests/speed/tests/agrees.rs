//! The peer and the proved step agree on random lists of events: code, key, data and each byte of the store. So both do the same work when they are timed.
mod lists;

use call_tests::code::{BACKUP_FULL, BAD_INPUT, BAD_SETTINGS, CODES, NO_NUMBER, OK, PENDING, UNSOUND};
use call_tests::counts::Counts;
use call_tests::kind::{self, DELIVER, GET};
use call_tests::random::Random;
use call_tests::store::model::{self, Settings};
use call_tests::store::random::{small_settings, sound_store};
use call_tests::store::run;
use call_tests::ENOUGH;
use lists::many::Seen;
use lists::Both;
use speed::peer;

/// At least so many events for each test of lists.
fn events() -> u64 {
    call_tests::tries().min(200_000)
}

/// Room for dozens of writes, so that lists of whole writes go on for long.
fn roomy_settings(r: &mut Random) -> Settings {
    Settings::new(r.among(3, 8), 8 * r.among(1, 3), r.among(2, 8), r.among(8, 150))
}

/// Whole writes, reads, crashes and recoveries, a wild event now and then.
#[test]
fn disciplined_lists() {
    let mut r = Random::new(31);
    let mut counts = Counts::default();
    while counts.total() < events() {
        let s = roomy_settings(&mut r);
        let mut both = Both::formatted(&mut r, s);
        for _ in 0..100 {
            both.some_events(&mut r);
        }
        both.again_in_batches(&mut r);
        counts.add_all(&both.counts);
    }
    if events() >= ENOUGH {
        assert_eq!(counts.codes_missing(&[NO_NUMBER, BACKUP_FULL]), [BAD_SETTINGS, UNSOUND]);
        assert!(counts.accepted_less(101).is_empty(), "{}", counts.table());
    }
}

/// Any events on formatted stores and on random sound ones, most of which no list leads to.
#[test]
fn wild_lists() {
    let mut r = Random::new(32);
    let mut counts = Counts::default();
    while counts.total() < events() {
        let s = small_settings(&mut r);
        let percent = r.below(101);
        let mut both = if r.one_in(2) { Both::formatted(&mut r, s) } else { Both::new(s, sound_store(&mut r, s, percent)) };
        both.calm = r.one_in(2);
        for _ in 0..500 {
            both.wild_event(&mut r);
        }
        both.again_in_batches(&mut r);
        counts.add_all(&both.counts);
    }
    if events() >= ENOUGH {
        assert_eq!(counts.codes_missing(&[PENDING, BACKUP_FULL]), [BAD_SETTINGS, UNSOUND]);
        assert!(counts.accepted_less(1).is_empty(), "{}", counts.table());
    }
}

/// Many blocks in one call, between events on formatted stores and on random sound ones.
#[test]
fn reads_of_many_blocks() {
    let mut r = Random::new(38);
    let mut seen = Seen::default();
    while seen.calls.iter().sum::<u64>() < events() / 10 {
        let s = roomy_settings(&mut r);
        let percent = r.below(101);
        let mut both = if r.one_in(4) { Both::new(s, sound_store(&mut r, s, percent)) } else { Both::formatted(&mut r, s) };
        for _ in 0..50 {
            both.some_events(&mut r);
            both.read_many(&mut r, &mut seen);
        }
    }
    if events() >= ENOUGH {
        assert!([OK, UNSOUND, BAD_INPUT].iter().all(|&code| seen.calls[code as usize] > events() / 1000), "{:?}", seen.calls);
        assert!(kind::of(GET).codes().all(|code| seen.gets.of(GET, code) > events() / 10_000), "{}", seen.gets.table());
        assert!(seen.shown > events() / 100, "{}", seen.shown);
    }
}

/// No list from format fills the backup alone: its copy is written by hand.
#[test]
fn no_room_at_the_backup() {
    let mut r = Random::new(35);
    let s = Settings::new(3, 8, 2, 4);
    let mut both = Both::formatted(&mut r, s);
    both.sent_block(&mut r, 5);
    let memory = model::AT_PLACES + s.place() + model::AT_COPIES;
    for (first, code) in [(6, BACKUP_FULL), (5, OK)] {
        for (i, word) in [2, first, 1 << 56, 7, 1 << 56].into_iter().enumerate() {
            model::put(&mut both.proved, memory + i, word);
            model::put(&mut both.peer, memory + i, word);
        }
        assert_eq!(both.event(&mut r, DELIVER, 0, 0, 0).code, code);
    }
}

/// Stores with one word changed, mostly no longer sound.
#[test]
fn damaged_stores() {
    let mut r = Random::new(33);
    let mut refused = 0;
    for _ in 0..events() / 200 {
        let s = small_settings(&mut r);
        let percent = r.below(101);
        let mut both = Both::new(s, sound_store(&mut r, s, percent));
        for _ in 0..100 {
            let word = r.below(s.words() as u64) as usize;
            let old = model::get(&both.proved, word);
            let new = if r.one_in(2) { r.number() } else { old.wrapping_add(r.below(5)).wrapping_sub(2) };
            model::put(&mut both.proved, word, new);
            model::put(&mut both.peer, word, new);
            let code = peer::check(&both.peer);
            assert_eq!(code, call_tests::store::check(&both.proved), "word {word} of {s:?} from {old} to {new}");
            if code == 2 {
                both.wild_event(&mut r);
                refused += 1;
            }
            model::put(&mut both.proved, word, old);
            model::put(&mut both.peer, word, old);
        }
    }
    assert!(refused * 1000 > events());
}

/// The key of 64 ones: of id 255, which a store may have given and lost, or have with every sequence number used.
#[test]
fn the_highest_key() {
    let s = Settings::new(3, 8, 2, 4);
    let mut store = Both::formatted(&mut Random::new(36), s).peer;
    for (i, word) in [1, 1, 0, 0, 0, u64::MAX].into_iter().enumerate() {
        model::put(&mut store, model::AT_BAG + i, word);
    }
    let place = model::AT_PLACES + 2 * s.place();
    model::put(&mut store, place + 5, model::SEQUENCES);
    for (given, id, next, code) in [(254, 3, 0, 2), (255, 3, 0, 0), (255, 255, model::SEQUENCES - 1, 2), (255, 255, model::SEQUENCES, 0)] {
        for (at, word) in [(model::AT_GIVEN, given), (place, id), (place + 4, next)] {
            model::put(&mut store, at, word);
        }
        assert_eq!([peer::check(&store), call_tests::store::check(&store)], [code; 2]);
    }
}

/// Lists of up to three events, the words of events and answers often too many or too few, blocks at any byte; on a sound store and on one that is not.
#[test]
fn any_words() {
    let mut r = Random::new(37);
    let sound = Both::formatted(&mut r, Settings::new(3, 8, 2, 4)).peer;
    let mut codes = [0; CODES];
    for _ in 0..events() / 10 {
        let store = if r.one_in(4) { &sound[1..] } else { &sound };
        let words = if r.one_in(2) { r.below(17) } else { 5 * r.below(4) };
        let answer_words = if r.one_in(4) { r.below(8) } else { words / 5 * 2 };
        let events: Vec<u64> = (0..words).map(|_| if r.one_in(8) { r.number() } else { r.below(13) }).collect();
        let lengths = [0; 2].map(|_: usize| r.below(20) as usize);
        let (data, area) = (r.bytes(lengths[0]), r.bytes(lengths[1]));
        let [proved, peer] = [run, peer::run].map(|run| {
            let (mut store, mut area, mut answers) = (store.to_vec(), area.clone(), vec![7; answer_words as usize]);
            (run(&mut store, &events, &data, &mut area, &mut answers), store, area, answers)
        });
        assert!(proved == peer, "{events:?}");
        codes[peer.0 as usize] += 1;
    }
    assert!([OK, UNSOUND, BAD_INPUT].iter().all(|&code| codes[code as usize] > events() / 100), "{codes:?}");
}

#[test]
fn lengths_near_the_right_one() {
    let mut r = Random::new(34);
    let s = Settings::new(3, 8, 2, 4);
    let sound = Both::formatted(&mut r, s).peer;
    for length in sound.len() - 20..sound.len() + 20 {
        let mut bytes = sound.clone();
        bytes.resize(length, 0);
        assert_eq!(peer::check(&bytes), if length == sound.len() { 0 } else { 2 });
    }
    for length in 0..6000 {
        assert_eq!(peer::check(&r.bytes(length)), 2);
    }
}
