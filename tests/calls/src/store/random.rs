//! Random settings and random sound stores; words that nothing uses hold random bytes.
use super::model::*;
use crate::random::Random;
use std::collections::HashSet;

pub fn small_settings(r: &mut Random) -> Settings {
    Settings::new(r.among(3, 5), 8 * r.among(1, 2), r.among(2, 4), r.among(4, 9))
}

struct Maker<'a> {
    r: &'a mut Random,
    store: Vec<u8>,
    s: Settings,
    given: u64,
    next: [Option<u64>; 256],
}

impl Maker<'_> {
    fn put(&mut self, i: usize, v: u64) {
        put(&mut self.store, i, v);
    }

    fn key(&mut self) -> u64 {
        loop {
            let id = self.r.among(1, self.given);
            match self.next[id as usize] {
                None => return id * SEQUENCES + self.r.below(SEQUENCES),
                Some(0) => continue,
                Some(n) => return id * SEQUENCES + self.r.below(n),
            }
        }
    }

    /// A table with `count` rows of different blocks, ascending.
    fn table(&mut self, at: usize, count: u64, make: &dyn Fn(u64) -> u64) {
        let mut blocks: Vec<u64> = (0..count).map(|_| make(self.r.next()) % BLOCKS).collect();
        blocks.sort_unstable();
        blocks.dedup();
        self.put(at, blocks.len() as u64);
        for (i, &b) in blocks.iter().enumerate() {
            let k = self.key();
            self.put(at + 1 + 2 * i, b);
            self.put(at + 2 + 2 * i, k);
        }
    }

    fn copy_rows(&mut self, from: usize, to: usize) {
        for i in 0..1 + 2 * get(&self.store, from) as usize {
            let w = get(&self.store, from + i);
            self.put(to + i, w);
        }
    }

    fn log(&mut self, at: usize, count: u64) {
        let l = self.s.chunks as usize;
        let mut seen = HashSet::new();
        let keys: Vec<u64> = (0..count).map(|_| self.key()).filter(|&k| seen.insert(k)).collect();
        self.put(at, keys.len() as u64);
        let mut order: Vec<usize> = (0..keys.len()).collect();
        order.sort_unstable_by_key(|&i| keys[i]);
        for (i, &k) in keys.iter().enumerate() {
            let saved = self.r.below(2);
            self.put(at + 1 + 2 * i, k);
            self.put(at + 2 + 2 * i, saved);
        }
        for (j, &i) in order.iter().enumerate() {
            self.put(at + 1 + 2 * l + j, i as u64);
        }
    }

    fn brick(&mut self, at: usize, percent: u64) {
        let up = !self.r.one_in(4);
        let member = up && !self.r.one_in(4);
        let began = self.r.below(2);
        self.put(at + 1, up as u64);
        self.put(at + 2, member as u64);
        self.put(at + 3, began);
        let waiting = if up { MAX_WAITING as u64 * percent / 100 } else { 0 };
        self.put(at + AT_BUFFER, waiting);
        for i in 0..waiting as usize {
            let (b, k) = (self.r.below(BLOCKS), self.key());
            self.put(at + AT_BUFFER + 1 + 2 * i, b);
            self.put(at + AT_BUFFER + 2 + 2 * i, k);
        }
        for g in 0..BUCKETS {
            let make = move |w: u64| (w >> 14 << 14) | (g as u64) << 10 | (w & 1023);
            let memory = at + AT_COPIES + 2 * g * self.s.copy();
            let disk = memory + self.s.copy();
            let count = self.s.entries * percent / 100;
            self.table(memory, count, &make);
            if up {
                self.table(disk, count, &make);
            } else {
                self.copy_rows(memory, disk);
            }
        }
        self.log(at + self.s.at_log(), self.s.chunks * percent / 100);
    }
}

/// A sound store of which about so many percent of every list are in use.
pub fn sound_store(r: &mut Random, s: Settings, percent: u64) -> Vec<u8> {
    let store = r.bytes(s.bytes());
    let given = r.among(s.places, MAX_ID);
    let mut m = Maker { r, store, s, given, next: [None; 256] };
    let header = [VERSION, s.places, s.size, s.entries, s.chunks];
    header.iter().enumerate().for_each(|(i, &v)| put(&mut m.store, i, v));
    let (view, started) = (m.r.among(1, MAX_NUMBER), m.r.among(0, s.places));
    m.put(AT_VIEW, view);
    m.put(AT_GIVEN, given);
    m.put(AT_STARTED, started);
    for p in 0..s.places as usize {
        let at = AT_PLACES + p * s.place();
        let id = m.r.among(1, given);
        if m.r.one_in(6) || m.next[id as usize].is_some() {
            m.put(at, 0);
            continue;
        }
        let next = m.r.below(SEQUENCES - 1024) + 1;
        let ceiling = next + m.r.below(1024);
        m.next[id as usize] = Some(next);
        m.put(at, id);
        m.put(at + 4, next);
        m.put(at + 5, ceiling);
    }
    for g in 0..BUCKETS {
        let at = AT_BUCKETS + g * BUCKET;
        for pair in 0..2 {
            let one = m.r.among(1, given);
            let two = one % given + 1;
            m.put(at + 2 * pair, one);
            m.put(at + 2 * pair + 1, two);
        }
        for i in 4..8 {
            let v = if i < 6 { m.r.below(2) } else { m.r.below(MAX_NUMBER + 1) };
            m.put(at + i, v);
        }
    }
    for p in 0..PROXIES {
        let at = AT_PROXIES + p * PROXY;
        let known = m.r.below(MAX_NUMBER + 1);
        m.put(at, known);
        m.table(at + 1, MAX_ITEMS as u64 * percent / 100, &move |w| (p as u64) << 49 | (w & ((1 << 49) - 1)));
    }
    let relays = MAX_RELAYS as u64 * percent / 100;
    m.put(AT_BAG, relays);
    for i in 0..relays as usize {
        let at = AT_BAG + 1 + i * RELAY;
        let block = m.r.below(BLOCKS);
        let row = [m.r.below(MAX_NUMBER + 1), bucket_of(block), m.r.below(MAX_NUMBER + 1), block, m.key()];
        row.iter().enumerate().for_each(|(j, &v)| put(&mut m.store, at + j, v));
    }
    for p in 0..s.places as usize {
        let at = AT_PLACES + p * s.place();
        if get(&m.store, at) != 0 {
            m.brick(at, percent);
        }
    }
    m.store
}

/// A sound store of which much can be read: most proxies know the view, and most buckets are ready, with a pair that is there.
pub fn readable_store(r: &mut Random, s: Settings, percent: u64) -> Vec<u8> {
    let mut store = sound_store(r, s, percent);
    let view = get(&store, AT_VIEW);
    (0..PROXIES).filter(|_| !r.one_in(5)).for_each(|p| put(&mut store, AT_PROXIES + p * PROXY, view));
    let bricks: Vec<usize> = (0..s.places as usize).map(|p| AT_PLACES + p * s.place()).filter(|&at| get(&store, at) != 0).collect();
    if bricks.len() < 2 {
        return store;
    }
    for g in 0..BUCKETS {
        if r.one_in(8) {
            continue;
        }
        let one = r.below(bricks.len() as u64) as usize;
        let other = (one + 1 + r.below(bricks.len() as u64 - 1) as usize) % bricks.len();
        settle(r, &mut store, s, g, [bricks[one], bricks[other]]);
    }
    store
}

/// The bucket has this pair, and the primary's entries in all four copies, now and then not in the backup's. Most of their keys are of the primary's log.
fn settle(r: &mut Random, store: &mut [u8], s: Settings, g: usize, pair: [usize; 2]) {
    let [primary, backup] = pair.map(|at| get(store, at));
    [(0, primary), (1, backup), (4, !r.one_in(8) as u64)].iter().for_each(|&(word, v)| put(store, AT_BUCKETS + g * BUCKET + word, v));
    let copies = pair.map(|at| at + AT_COPIES + 2 * g * s.copy());
    let log = pair[0] + s.at_log();
    for row in 0..get(store, log).min(get(store, copies[0])) as usize {
        if !r.one_in(4) {
            put(store, copies[0] + 2 + 2 * row, get(store, log + 1 + 2 * row));
        }
    }
    let words = 8 * copies[0]..8 * (copies[0] + 1 + 2 * get(store, copies[0]) as usize);
    store.copy_within(words.clone(), 8 * (copies[0] + s.copy()));
    if !r.one_in(4) {
        store.copy_within(words.clone(), 8 * copies[1]);
        store.copy_within(words, 8 * (copies[1] + s.copy()));
    }
}

/// A store in use: so many blocks, spread over the buckets, written at their primary, copied to the backup and saved, all four copies the same.
pub fn mapped_store(s: Settings, blocks: u64) -> Vec<u8> {
    let mut store = vec![0; s.bytes()];
    format(&mut store, s);
    for i in 0..blocks {
        let g = i % BUCKETS as u64;
        let block = g << 10 | (i / 16 & 1023) | (i >> 14 << 14);
        let pair = AT_BUCKETS + g as usize * BUCKET;
        let places = [get(&store, pair) - 1, get(&store, pair + 1) - 1].map(|id| AT_PLACES + id as usize * s.place());
        let key = get(&store, pair) * SEQUENCES + get(&store, places[0] + 4);
        put(&mut store, places[0] + 4, key % SEQUENCES + 1);
        put(&mut store, places[0] + 5, (key % SEQUENCES / 1024 + 1) * 1024);
        for at in places {
            for copy in 0..2 {
                let table = at + AT_COPIES + (2 * g as usize + copy) * s.copy();
                append(&mut store, table, [block, key]);
            }
            append(&mut store, at + s.at_log(), [key, 1]);
        }
    }
    for p in 0..s.places as usize {
        let log = AT_PLACES + p * s.place() + s.at_log();
        let mut order: Vec<u64> = (0..get(&store, log)).collect();
        order.sort_unstable_by_key(|&i| get(&store, log + 1 + 2 * i as usize));
        order.iter().enumerate().for_each(|(j, &i)| put(&mut store, log + 1 + 2 * s.chunks as usize + j, i));
    }
    store
}

/// A row of two words at the end of a table.
fn append(store: &mut [u8], table: usize, row: [u64; 2]) {
    let n = get(store, table) as usize;
    put(store, table, n as u64 + 1);
    put(store, table + 1 + 2 * n, row[0]);
    put(store, table + 2 + 2 * n, row[1]);
}
