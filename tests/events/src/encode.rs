//! A state as the words of docs/LAYOUT.md, written in their order over the bytes that are there; what is not in use is passed over.
use crate::layout;
use crate::model::{Block, Brick, Bucket, Chunk, Key, Proxy, Relay, Settings, State, Table, MOST_ITEMS, MOST_RELAYS, MOST_WAITING};

struct Writer<'a> {
    store: &'a mut [u8],
    at: usize,
}

impl Writer<'_> {
    fn bytes(&mut self, bytes: &[u8]) {
        self.store[self.at..self.at + bytes.len()].copy_from_slice(bytes);
        self.at += bytes.len();
    }

    fn word(&mut self, word: u64) {
        self.bytes(&word.to_le_bytes());
    }

    fn words(&mut self, words: &[u64]) {
        words.iter().for_each(|&word| self.word(word));
    }

    fn pass(&mut self, words: usize) {
        self.at += 8 * words;
    }

    fn rows<'b>(&mut self, rows: impl ExactSizeIterator<Item = (&'b Block, &'b Key)>, most: usize) {
        let count = rows.len();
        self.word(count as u64);
        rows.for_each(|(block, key)| self.words(&[block.0, key.0]));
        self.pass(2 * (most - count));
    }

    fn table(&mut self, table: &Table, most: usize) {
        self.rows(table.iter(), most);
    }

    fn bucket(&mut self, b: &Bucket) {
        self.words(&[b.pair.primary, b.pair.backup, b.last_ready.primary, b.last_ready.backup]);
        self.words(&[b.ready as u64, b.fetched as u64, b.sent, b.taken]);
    }

    fn proxy(&mut self, p: &Proxy) {
        self.word(p.known.0);
        self.table(&p.items, MOST_ITEMS);
    }

    fn bag(&mut self, bag: &[Relay]) {
        self.word(bag.len() as u64);
        bag.iter().for_each(|r| self.words(&[r.view.0, r.bucket as u64, r.order, r.block.0, r.key.0]));
        self.pass(layout::RELAY * (MOST_RELAYS - bag.len()));
    }

    fn brick(&mut self, b: &Brick, s: Settings) {
        self.words(&[b.id, b.up as u64, b.member as u64, b.began as u64, b.next, b.ceiling]);
        self.rows(b.buffer.iter().map(|(block, key)| (block, key)), MOST_WAITING);
        for copy in &b.copies {
            self.table(&copy.memory, s.entries as usize);
            self.table(&copy.disk, s.entries as usize);
        }
        self.log(&b.log, s);
    }

    fn log(&mut self, log: &[Chunk], s: Settings) {
        let unused = s.chunks as usize - log.len();
        self.word(log.len() as u64);
        log.iter().for_each(|c| self.words(&[c.key.0, c.saved as u64]));
        self.pass(2 * unused);
        let mut positions: Vec<usize> = (0..log.len()).collect();
        positions.sort_unstable_by_key(|&row| log[row].key);
        positions.iter().for_each(|&row| self.word(row as u64));
        self.pass(unused);
        log.iter().for_each(|c| self.bytes(&c.data));
        self.pass(unused * layout::cell(s));
    }
}

/// Writes all that is in use over a store of the state's settings.
pub fn encode(state: &State, store: &mut [u8]) {
    let s = state.settings;
    let mut writer = Writer { store, at: 0 };
    writer.bytes(layout::VERSION);
    writer.words(&[s.places, s.size, s.entries, s.chunks, state.view.0, state.given, state.started]);
    state.buckets.iter().for_each(|b| writer.bucket(b));
    state.proxies.iter().for_each(|p| writer.proxy(p));
    writer.bag(&state.bag);
    for place in 0..state.places.len() {
        match state.at(place) {
            Some(brick) => writer.brick(brick, s),
            None => {
                writer.word(0);
                writer.pass(layout::place(s) - 1);
            }
        }
    }
    assert_eq!(writer.at, writer.store.len());
}
