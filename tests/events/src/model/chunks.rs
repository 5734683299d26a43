//! put, copy, savelog, get: the chunks in the logs.
use super::step::{ask, done, shown, Told};
use super::{Block, Chunk, Key, State, MOST_ITEMS, SEQUENCES};

/// How far a put raises the ceiling.
const STRIDE: u64 = 1024;

impl State {
    pub(super) fn put(&mut self, proxy: usize, place: usize, block: Block, data: &[u8]) -> Told {
        self.ask_owner(proxy, block)?;
        let brick = self.member_at(place);
        ask(6, brick.is_some())?;
        let brick = brick.unwrap();
        let items = &self.proxies[proxy].items;
        ask(9, !items.contains_key(&block))?;
        ask(10, items.len() < MOST_ITEMS && brick.log.len() < self.chunks())?;
        let ceiling = if brick.next == brick.ceiling { brick.ceiling + STRIDE } else { brick.ceiling };
        ask(12, ceiling <= SEQUENCES)?;

        let key = Key::new(brick.id, brick.next);
        let brick = self.at_mut(place).unwrap();
        brick.ceiling = ceiling;
        brick.next += 1;
        brick.log.push(Chunk { key, saved: false, data: data.to_vec() });
        self.proxies[proxy].items.insert(block, key);
        done(key.0)
    }

    pub(super) fn copy(&mut self, key: Key) -> Told {
        let home = self.member(key.home());
        ask(6, home.is_some())?;
        let target = self.members_from(key.home()).find(|b| b.id != key.home());
        let adds = target.filter(|b| b.chunk(key).is_none());
        ask(10, adds.is_none_or(|b| b.log.len() < self.chunks()))?;
        let chunk = home.unwrap().chunk(key);
        ask(11, chunk.is_some())?;

        let copied = Chunk { saved: false, ..chunk.unwrap().clone() };
        if let Some(id) = adds.map(|b| b.id) {
            self.brick_mut(id).log.push(copied);
        }
        done(0)
    }

    pub(super) fn savelog(&mut self, place: usize) -> Told {
        ask(6, self.member_at(place).is_some())?;
        self.at_mut(place).unwrap().log.iter_mut().for_each(|c| c.saved = true);
        done(0)
    }

    pub(super) fn get(&mut self, proxy: usize, block: Block) -> Told {
        self.ask_owner(proxy, block)?;
        self.ask_known_view(proxy)?;
        ask(6, self.primary(block.bucket()).is_some())?;
        ask(7, self.buckets[block.bucket()].ready)?;
        ask(8, !self.is_pending(block) && !self.is_waiting(block))?;
        let Some(key) = self.mapped(block) else { return shown(None, vec![0; self.size()]) };
        let chunk = self.seek(key);
        ask(11, chunk.is_some())?;
        shown(Some(key), chunk.unwrap().data.clone())
    }
}
