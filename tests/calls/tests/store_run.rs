//! Many events in one call: the lengths of the events and the answers, blocks near the ends of the data and the area, damaged stores.
use call_tests::kind::{GET, LEARN, PUT};
use call_tests::random::Random;
use call_tests::store::model::{self, Settings};
use call_tests::store::random::{small_settings, sound_store};
use call_tests::store::{answers_in, check, format, run, step, words_of, Answer, ListEvent};
use call_tests::text::model::Event;

const KEY: u64 = 1 << 56;

fn event(kind: u64, a: u64, b: u64, c: u64, at: u64) -> ListEvent {
    ListEvent { kind, a, b, c, at }
}

fn formatted(r: &mut Random, s: Settings) -> Vec<u8> {
    let mut store = r.bytes(s.bytes());
    assert_eq!(format(&mut store, s), 0);
    store
}

/// All that a call is lent.
#[derive(Clone, PartialEq)]
struct Lent {
    store: Vec<u8>,
    events: Vec<u64>,
    data: Vec<u8>,
    area: Vec<u8>,
    answers: Vec<u64>,
}

impl Lent {
    fn new(r: &mut Random, store: Vec<u8>, events: &[ListEvent], data: usize, area: usize) -> Self {
        let answers = (0..2 * events.len()).map(|_| r.next()).collect();
        Lent { store, events: words_of(events), data: r.bytes(data), area: r.bytes(area), answers }
    }

    fn run(&mut self) -> u64 {
        run(&mut self.store, &self.events, &self.data, &mut self.area, &mut self.answers)
    }

    /// The whole call is refused, and no byte changes.
    fn is_refused(&mut self, code: u64) {
        let old = self.clone();
        assert_eq!(self.run(), code);
        assert!(*self == old, "a lent byte changed");
    }

    /// What the events are told.
    fn told(&mut self) -> Vec<Answer> {
        assert_eq!(self.run(), 0);
        answers_in(&self.answers)
    }
}

fn accepted(key: u64) -> Answer {
    Answer { code: 0, key }
}

const NO_BLOCK: Answer = Answer { code: 3, key: 0 };

/// Events that are all accepted: a learn, then gets and puts in turns, blocks of 8 bytes one after the other.
fn some_events(count: u64) -> Vec<ListEvent> {
    let each = |i: u64| match i {
        0 => event(LEARN, 0, 0, 0, u64::MAX),
        i if i % 2 == 1 => event(GET, 0, 100 + i, 0, 8 * i),
        i => event(PUT, 0, 0, 100 + i, 8 * i),
    };
    (0..count).map(each).collect()
}

/// Each number of words for events and for answers, around those that belong together; on a sound store, and on one that is not.
#[test]
fn words_of_events_and_answers() {
    let mut r = Random::new(41);
    let (mut taken, mut refused) = (0, 0);
    let sound = formatted(&mut r, Settings::new(3, 8, 2, 4));
    for event_words in 0..=31 {
        for answer_words in 0..=15 {
            let mut lent = Lent::new(&mut r, sound.clone(), &some_events(7), 56, 56);
            lent.events.truncate(event_words);
            lent.answers.resize(answer_words, r.next());
            let mut unsound = lent.clone();
            unsound.store.truncate(sound.len() - 8);
            unsound.is_refused(2);
            if event_words % 5 == 0 && answer_words == event_words / 5 * 2 {
                assert!(lent.told().iter().all(|answer| answer.code == 0));
                taken += 1;
            } else {
                lent.is_refused(3);
                refused += 1;
            }
        }
    }
    assert_eq!((taken, refused), (7, 32 * 16 - 7));
}

/// The block of a put or a get, so many bytes before the end of the data or the area, or far past it; the bytes around it keep what they hold.
#[test]
fn blocks_near_the_end() {
    let mut r = Random::new(42);
    for size in [8, 16, 64] {
        let sound = formatted(&mut r, Settings::new(3, size, 2, 4));
        for length in [0, 1, size - 1, size, size + 1, 2 * size - 1, 2 * size, 2 * size + 1] {
            let far = [1 << 32, 1 << 63, u64::MAX - size, u64::MAX - size + 1, u64::MAX - size + 2, u64::MAX - 1, u64::MAX];
            for at in (0..=length + 1).chain(far) {
                puts_at(&mut r, &sound, size, length as usize, at);
                gets_at(&mut r, &sound, size, length as usize, at);
            }
        }
    }
}

fn fits(at: u64, size: u64, length: usize) -> bool {
    at as u128 + size as u128 <= length as u128
}

/// A put, and then the same again: where the first was taken the block has an item.
fn puts_at(r: &mut Random, sound: &[u8], size: u64, length: usize, at: u64) {
    let put = event(PUT, 0, 0, 5, at);
    let mut lent = Lent::new(r, sound.to_vec(), &[put, put], length, 0);
    let mut stepped = sound.to_vec();
    if !fits(at, size, length) {
        assert_eq!(lent.told(), [NO_BLOCK; 2]);
    } else {
        assert_eq!(lent.told(), [accepted(KEY), Answer { code: 9, key: 0 }]);
        let data = &lent.data[at as usize..][..size as usize];
        assert_eq!(step(&mut stepped, &Event { code: 0, kind: PUT, a: 0, b: 0, c: 5 }, data, &[], &mut []), accepted(KEY));
    }
    assert!(lent.store == stepped);
}

/// A get of a block with no mapping.
fn gets_at(r: &mut Random, sound: &[u8], size: u64, length: usize, at: u64) {
    let mut lent = Lent::new(r, sound.to_vec(), &[event(LEARN, 0, 0, 0, 0), event(GET, 0, 5, u64::MAX, at)], 0, length);
    let mut area = lent.area.clone();
    if fits(at, size, length) {
        area[at as usize..][..size as usize].fill(0);
        assert_eq!(lent.told(), [accepted(0); 2]);
    } else {
        assert_eq!(lent.told(), [accepted(0), NO_BLOCK]);
    }
    assert!(lent.area == area);
}

/// Stores that are not sound, with events and answers of right and of wrong lengths: 2, and no byte changes.
#[test]
fn damaged_stores() {
    let mut r = Random::new(43);
    let mut refused = 0;
    for _ in 0..4000 {
        let (s, percent) = (small_settings(&mut r), r.below(101));
        let mut store = sound_store(&mut r, s, percent);
        match r.below(4) {
            0 => store.truncate(r.below(s.bytes() as u64) as usize),
            1 => store.extend(r.bytes(8)),
            _ => model::put(&mut store, r.below(s.words() as u64) as usize, r.number()),
        }
        if check(&store) == 0 {
            continue;
        }
        let count = r.below(8);
        let mut lent = Lent::new(&mut r, store, &some_events(count), 64, 64);
        let words = r.below(50) as usize;
        if r.one_in(2) {
            lent.events.resize(words, 0);
        }
        lent.is_refused(2);
        refused += 1;
    }
    assert!(refused > 2000, "{refused}");
    Lent::new(&mut r, Vec::new(), &[], 0, 0).is_refused(2);
}
