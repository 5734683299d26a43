//! map, send, deliver, drop, savemap, done, abandon: from a proxy's item to the two copies of a bucket.
use super::step::{ask, done, Told};
use super::{Block, Relay, State, LAST_NUMBER, MOST_RELAYS, MOST_WAITING};

impl State {
    pub(super) fn map(&mut self, proxy: usize, block: Block, copies: usize) -> Told {
        self.ask_owner(proxy, block)?;
        self.ask_known_view(proxy)?;
        let (bucket, ready) = (block.bucket(), self.buckets[block.bucket()].ready);
        let primary = self.primary(bucket);
        ask(6, primary.is_some())?;
        let primary = primary.unwrap();
        ask(8, !self.is_pending(block) && !self.is_waiting(block))?;
        let item = self.proxies[proxy].items.get(&block).copied();
        ask(9, item.is_some())?;
        let memory = &primary.copies[bucket].memory;
        let room_in_bucket = memory.contains_key(&block) || memory.len() < self.entries();
        ask(10, if ready { room_in_bucket } else { primary.buffer.len() < MOST_WAITING })?;
        let key = item.unwrap();
        ask(11, self.saved_at(key) >= copies)?;

        let id = primary.id;
        if ready {
            self.copy_mut(id, bucket).memory.insert(block, key);
        } else {
            self.brick_mut(id).buffer.push((block, key));
        }
        done(0)
    }

    pub(super) fn send(&mut self, block: Block) -> Told {
        let bucket = block.bucket();
        ask(6, self.primary(bucket).is_some())?;
        ask(7, self.buckets[bucket].ready)?;
        ask(10, self.bag.len() < MOST_RELAYS)?;
        ask(12, self.buckets[bucket].sent < LAST_NUMBER)?;
        let key = self.mapped(block);
        ask(13, key.is_some())?;

        self.buckets[bucket].sent += 1;
        let order = self.buckets[bucket].sent;
        self.bag.push(Relay { view: self.view, bucket, order, block, key: key.unwrap() });
        done(0)
    }

    pub(super) fn deliver(&mut self, index: usize) -> Told {
        let relay = self.bag[index].clone();
        let bucket = relay.bucket;
        let taken = relay.view == self.view && relay.order > self.buckets[bucket].taken;
        if taken {
            let backup = self.backup(bucket);
            ask(6, backup.is_some())?;
            let memory = &backup.unwrap().copies[bucket].memory;
            ask(14, memory.contains_key(&relay.block) || memory.len() < self.entries())?;

            let id = backup.unwrap().id;
            self.copy_mut(id, bucket).memory.insert(relay.block, relay.key);
            self.buckets[bucket].taken = relay.order;
        }
        self.bag.remove(index);
        done(taken as u64)
    }

    pub(super) fn drop_relay(&mut self, index: usize) -> Told {
        self.bag.remove(index);
        done(0)
    }

    pub(super) fn savemap(&mut self, place: usize) -> Told {
        ask(6, self.member_at(place).is_some())?;
        self.at_mut(place).unwrap().copies.iter_mut().for_each(|c| c.disk = c.memory.clone());
        done(0)
    }

    pub(super) fn done(&mut self, proxy: usize, block: Block) -> Told {
        self.ask_owner(proxy, block)?;
        self.ask_known_view(proxy)?;
        ask(6, self.primary(block.bucket()).is_some())?;
        ask(7, self.buckets[block.bucket()].ready)?;
        ask(8, !self.is_pending(block) && !self.is_waiting(block))?;
        let item = self.proxies[proxy].items.get(&block).copied();
        ask(9, item.is_some())?;
        ask(15, self.mapped(block) == item)?;

        self.proxies[proxy].items.remove(&block);
        done(0)
    }

    pub(super) fn abandon(&mut self, proxy: usize, block: Block) -> Told {
        self.ask_owner(proxy, block)?;
        ask(9, self.proxies[proxy].items.contains_key(&block))?;
        self.proxies[proxy].items.remove(&block);
        done(0)
    }
}
