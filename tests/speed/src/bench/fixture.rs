//! Stores in use, each with an event that it accepts.
use call_tests::kind;
use call_tests::store::model::{Settings, AT_BUCKETS, BUCKET, BUCKETS, PROXIES};
use call_tests::store::random::mapped_store;
use call_tests::store::{model, step};
use call_tests::text::model::Event;

pub fn event(kind: u64, a: u64, b: u64, c: u64) -> Event {
    Event { code: 0, kind, a, b, c }
}

/// The block that `mapped_store` makes as its i-th.
pub fn block(i: u64) -> u64 {
    let g = i % BUCKETS as u64;
    (g << 10) | (i / 16 % 1024) | (i >> 14 << 14)
}

/// A block that is mapped in every store here: the 500th of 1,000.
const REWRITTEN: u64 = 4 << 10 | 31;

#[derive(Clone)]
pub struct Store {
    pub settings: Settings,
    pub bytes: Vec<u8>,
}

/// The events of a whole write of a block by proxy 0, at its primary; the key is the one that the put will answer.
pub fn whole_write(block: u64, places: [u64; 2], copy_place: u64, key: u64) -> [Event; 10] {
    let [primary, backup] = places;
    [
        event(kind::PUT, 0, primary, block),
        event(kind::COPY, key, 0, 0),
        event(kind::SAVELOG, primary, 0, 0),
        event(kind::SAVELOG, copy_place, 0, 0),
        event(kind::MAP, 0, block, 0),
        event(kind::SEND, block, 0, 0),
        event(kind::DELIVER, 0, 0, 0),
        event(kind::SAVEMAP, primary, 0, 0),
        event(kind::SAVEMAP, backup, 0, 0),
        event(kind::DONE, 0, block, 0),
    ]
}

impl Store {
    /// So many blocks mapped and whole, all proxies with the view.
    pub fn mapped(settings: Settings, blocks: u64) -> Self {
        let mut store = Store { settings, bytes: mapped_store(settings, blocks) };
        (0..PROXIES as u64).for_each(|p| store.accept(event(kind::LEARN, p, 0, 0)));
        store
    }

    pub fn accept(&mut self, e: Event) {
        let size = self.settings.size as usize;
        let (data, zero, mut answer) = (vec![0xa5; size], vec![0; size], vec![0; size]);
        assert_eq!(step(&mut self.bytes, &e, &data, &zero, &mut answer).code, 0, "{e:?}");
    }

    pub fn after(mut self, events: &[Event]) -> Self {
        events.iter().for_each(|&e| self.accept(e));
        self
    }

    /// The places of the pair of a block's bucket, in a store of the first view: id i is at place i - 1.
    fn pair(&self, block: u64) -> [u64; 2] {
        let at = AT_BUCKETS + model::bucket_of(block) as usize * BUCKET;
        [model::get(&self.bytes, at) - 1, model::get(&self.bytes, at + 1) - 1]
    }

    /// The events of a whole write of a block, the store as it is.
    pub fn write(&self, block: u64) -> [Event; 10] {
        let pair = self.pair(block);
        let next = model::get(&self.bytes, self.place(pair[0]) + 4);
        whole_write(block, pair, (pair[0] + 1) % self.settings.places, (pair[0] + 1) << 56 | next)
    }

    fn place(&self, place: u64) -> usize {
        model::AT_PLACES + place as usize * self.settings.place()
    }

    fn log(&self, place: u64) -> usize {
        self.place(place) + self.settings.at_log()
    }

    /// Where a cell begins, in bytes.
    fn cell(&self, place: u64, row: usize) -> usize {
        8 * (self.log(place) + 1 + 3 * self.settings.chunks as usize + row * self.settings.cell())
    }

    /// The cell of a place's next chunk.
    pub fn next_cell(&self, place: u64) -> usize {
        self.cell(place, model::get(&self.bytes, self.log(place)) as usize)
    }

    /// The cell of a mapped block at its primary.
    pub fn cell_of(&self, block: u64) -> usize {
        let primary = self.pair(block)[0];
        let memory = self.place(primary) + model::AT_COPIES + 2 * model::bucket_of(block) as usize * self.settings.copy();
        let key = model::get(&self.bytes, memory + 2 + 2 * self.row(memory, block));
        self.cell(primary, self.row(self.log(primary), key))
    }

    /// The row of a table that begins with a number.
    fn row(&self, table: usize, number: u64) -> usize {
        let rows = 0..model::get(&self.bytes, table) as usize;
        rows.into_iter().find(|i| model::get(&self.bytes, table + 1 + 2 * i) == number).expect("a row")
    }

    /// Whole writes one after the other, each of the first blocks once.
    pub fn writes(&self, count: u64) -> Vec<Event> {
        let mut store = self.clone();
        let mut events = Vec::new();
        for i in 0..count {
            let write = store.write(block(i));
            write.iter().for_each(|&e| store.accept(e));
            events.extend(write);
        }
        events
    }
}

/// A store, and an event that it accepts.
pub type Case = (Store, Event);

/// Of each kind, in their order; stores of 4 places with 1,000 blocks mapped.
pub fn cases(block_size: u64) -> Vec<Case> {
    let base = Store::mapped(Settings::new(4, block_size, 256, 1024), 1000);
    let mut cases = write_cases(&base);
    cases.extend(brick_cases(&base));
    assert!(cases.iter().map(|(_, e)| e.kind).eq(kind::all()), "a case of each kind");
    cases
}

/// A block is written again, up to the event; the kinds up to reset.
fn write_cases(base: &Store) -> Vec<Case> {
    let write = base.write(REWRITTEN);
    let at = |n: usize| base.clone().after(&write[..n]);
    let [put, copy, savelog, _, map, send, deliver, savemap, _, done] = write;
    vec![
        (at(0), put),
        (at(1), copy),
        (at(2), savelog),
        (at(4), map),
        (at(5), send),
        (at(6), deliver),
        (at(6), event(kind::DROP, 0, 0, 0)),
        (at(7), savemap),
        (at(9), done),
        (at(0), event(kind::GET, 0, REWRITTEN, 0)),
        (at(1), event(kind::ABANDON, 0, REWRITTEN, 0)),
        (at(0), event(kind::LEARN, 0, 0, 0)),
        (at(1), event(kind::RESET, 0, 0, 0)),
    ]
}

/// A brick goes, another one takes its place, and all is made whole; the other kinds.
fn brick_cases(base: &Store) -> Vec<Case> {
    let [put, copy, ..] = base.write(REWRITTEN);
    let lost = [event(kind::LOSE, 3, 0, 0), event(kind::JOIN, 3, 0, 0), event(kind::VIEW, 0, 0, 0)];
    let gone = |n: usize| base.clone().after(&lost[..n]);
    let bucket = moved_bucket(&gone(3));
    let recovered = (0..BUCKETS as u64).fold(gone(3), |s, g| s.after(&[event(kind::FETCH, g, 0, 0), event(kind::READY, g, 0, 0)]));
    vec![
        (base.clone().after(&[put, copy]), event(kind::CRASH, put.b, 0, 0)),
        (gone(0), event(kind::LOSE, 3, 0, 0)),
        (base.clone().after(&[event(kind::CRASH, 3, 0, 0)]), event(kind::RISE, 3, 0, 0)),
        (gone(1), event(kind::JOIN, 3, 0, 0)),
        (gone(2), event(kind::VIEW, 0, 0, 0)),
        (gone(3), event(kind::FETCH, bucket, 0, 0)),
        (gone(3).after(&[event(kind::FETCH, bucket, 0, 0)]), event(kind::READY, bucket, 0, 0)),
        (recovered, event(kind::MEND, 3, 0, 0)),
        (base.clone().after(&base.writes(100)), event(kind::COLLECT, put.b, 0, 0)),
    ]
}

/// A bucket whose pair is not the last ready one: ready gives a new backup its copy.
fn moved_bucket(store: &Store) -> u64 {
    let word = |g: usize, i: usize| model::get(&store.bytes, AT_BUCKETS + g * BUCKET + i);
    (0..BUCKETS).find(|&g| word(g, 0) != word(g, 2) || word(g, 1) != word(g, 3)).expect("a pair that changed") as u64
}
