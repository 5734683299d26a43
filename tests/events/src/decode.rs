//! The state that bytes stand for, or none where they are no sound store.
use crate::layout;
use crate::model::*;
use std::collections::BTreeMap;

struct Reader<'a> {
    store: &'a [u8],
    at: usize,
}

impl<'a> Reader<'a> {
    fn bytes(&mut self, length: usize) -> Option<&'a [u8]> {
        let bytes = self.store.get(self.at..self.at + length)?;
        self.at += length;
        Some(bytes)
    }

    fn word(&mut self) -> Option<u64> {
        Some(u64::from_le_bytes(self.bytes(8)?.try_into().unwrap()))
    }

    fn pass(&mut self, words: usize) {
        self.at += 8 * words;
    }

    fn flag(&mut self) -> Option<bool> {
        match self.word()? {
            0 => Some(false),
            1 => Some(true),
            _ => None,
        }
    }

    fn count(&mut self, most: usize) -> Option<usize> {
        self.word().filter(|&n| n <= most as u64).map(|n| n as usize)
    }

    fn rows(&mut self, most: usize) -> Option<Vec<(Block, Key)>> {
        let count = self.count(most)?;
        let rows = (0..count).map(|_| Some((Block(self.word()?), Key(self.word()?)))).collect();
        self.pass(2 * (most - count));
        rows
    }

    /// Rows ascending by block.
    fn table(&mut self, most: usize) -> Option<Table> {
        let rows = self.rows(most)?;
        rows.windows(2).all(|two| two[0].0 < two[1].0).then(|| rows.into_iter().collect())
    }

    fn pair(&mut self) -> Option<Pair> {
        Some(Pair { primary: self.word()?, backup: self.word()? })
    }

    fn bucket(&mut self) -> Option<Bucket> {
        Some(Bucket { pair: self.pair()?, last_ready: self.pair()?, ready: self.flag()?, fetched: self.flag()?, sent: self.word()?, taken: self.word()? })
    }

    fn proxy(&mut self) -> Option<Proxy> {
        Some(Proxy { known: View(self.word()?), items: self.table(MOST_ITEMS)? })
    }

    fn relay(&mut self) -> Option<Relay> {
        let view = View(self.word()?);
        let bucket = self.word().filter(|&g| g < BUCKETS as u64)? as usize;
        Some(Relay { view, bucket, order: self.word()?, block: Block(self.word()?), key: Key(self.word()?) })
    }

    fn bag(&mut self) -> Option<Vec<Relay>> {
        let count = self.count(MOST_RELAYS)?;
        let bag = (0..count).map(|_| self.relay()).collect();
        self.pass(layout::RELAY * (MOST_RELAYS - count));
        bag
    }

    /// None within where the place is empty.
    fn place(&mut self, s: Settings) -> Option<Option<Brick>> {
        let id = self.word()?;
        if id == 0 {
            self.pass(layout::place(s) - 1);
            return Some(None);
        }
        let (up, member, began) = (self.flag()?, self.flag()?, self.flag()?);
        let (next, ceiling) = (self.word()?, self.word()?);
        let buffer = self.rows(MOST_WAITING)?;
        let entries = s.entries as usize;
        let copies = (0..BUCKETS).map(|_| Some(Copy { memory: self.table(entries)?, disk: self.table(entries)? }));
        let copies = copies.collect::<Option<Vec<_>>>()?;
        Some(Some(Brick { id, up, member, began, next, ceiling, buffer, copies, log: self.log(s)? }))
    }

    fn log(&mut self, s: Settings) -> Option<Vec<Chunk>> {
        let most = s.chunks as usize;
        let count = self.count(most)?;
        let rows = (0..count).map(|_| Some((Key(self.word()?), self.flag()?))).collect::<Option<Vec<_>>>()?;
        self.pass(2 * (most - count));
        let positions = (0..count).map(|_| self.count(count)).collect::<Option<Vec<_>>>()?;
        self.pass(most - count);
        let keys = positions.iter().map(|&row| rows.get(row).map(|r| r.0)).collect::<Option<Vec<_>>>()?;
        if !keys.windows(2).all(|two| two[0] < two[1]) {
            return None;
        }
        let log = rows.into_iter().map(|(key, saved)| Some(Chunk { key, saved, data: self.bytes(s.size as usize)?.to_vec() }));
        let log = log.collect();
        self.pass((most - count) * layout::cell(s));
        log
    }
}

fn settings(reader: &mut Reader) -> Option<Settings> {
    if reader.bytes(8)? != layout::VERSION {
        return None;
    }
    let s = Settings::new(reader.word()?, reader.word()?, reader.word()?, reader.word()?);
    s.in_limits().then_some(s)
}

fn read(store: &[u8]) -> Option<State> {
    let mut reader = Reader { store, at: 0 };
    let settings = settings(&mut reader).filter(|&s| layout::length(s) == store.len())?;
    let (view, given, started) = (View(reader.word()?), reader.word()?, reader.word()?);
    let buckets = (0..BUCKETS).map(|_| reader.bucket()).collect::<Option<Vec<_>>>()?;
    let proxies = (0..PROXIES).map(|_| reader.proxy()).collect::<Option<Vec<_>>>()?;
    let bag = reader.bag()?;
    let (mut places, mut bricks) = (Vec::new(), BTreeMap::new());
    for _ in 0..settings.places {
        let brick = reader.place(settings)?;
        places.push(brick.as_ref().map(|b| b.id));
        if let Some(brick) = brick {
            // no id stands at two places
            if bricks.insert(brick.id, brick).is_some() {
                return None;
            }
        }
    }
    Some(State { settings, view, given, started, buckets, proxies, bag, places, bricks })
}

pub fn decode(store: &[u8]) -> Option<State> {
    read(store).filter(State::is_sound)
}
