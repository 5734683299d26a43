//! Whether a state is sound.
use super::*;

impl State {
    pub fn is_sound(&self) -> bool {
        self.settings.in_limits()
            && (1..=LAST_NUMBER).contains(&self.view.0)
            && self.given <= LAST_ID
            && self.started <= self.settings.places
            && self.places.iter().flatten().all(|&id| self.is_given(id))
            && self.buckets.iter().all(|b| self.is_sound_bucket(b))
            && (0..PROXIES).all(|p| self.is_sound_proxy(p))
            && self.bag.len() <= MOST_RELAYS
            && self.bag.iter().all(|r| self.is_sound_relay(r))
            && self.bricks.values().all(|b| self.is_sound_brick(b))
    }

    fn is_given(&self, id: Id) -> bool {
        (1..=self.given).contains(&id)
    }

    /// Of a brick that is present only what it has numbered already.
    fn is_sound_key(&self, key: Key) -> bool {
        self.is_given(key.home()) && self.bricks.get(&key.home()).is_none_or(|b| key.sequence() < b.next)
    }

    fn is_sound_bucket(&self, bucket: &Bucket) -> bool {
        let pair = |p: Pair| self.is_given(p.primary) && self.is_given(p.backup) && p.primary != p.backup;
        pair(bucket.pair) && pair(bucket.last_ready) && bucket.sent <= LAST_NUMBER && bucket.taken <= LAST_NUMBER
    }

    fn is_sound_table(&self, table: &Table, most: usize, belongs: impl Fn(Block) -> bool) -> bool {
        table.len() <= most && table.iter().all(|(&block, &key)| block.in_range() && belongs(block) && self.is_sound_key(key))
    }

    fn is_sound_proxy(&self, proxy: usize) -> bool {
        let Proxy { known, items } = &self.proxies[proxy];
        known.0 <= LAST_NUMBER && self.is_sound_table(items, MOST_ITEMS, |block| block.proxy() == proxy)
    }

    fn is_sound_relay(&self, relay: &Relay) -> bool {
        relay.view.0 <= LAST_NUMBER
            && relay.order <= LAST_NUMBER
            && relay.block.in_range()
            && relay.bucket == relay.block.bucket()
            && self.is_sound_key(relay.key)
    }

    fn is_sound_brick(&self, brick: &Brick) -> bool {
        let down_is_saved = brick.up || brick.buffer.is_empty() && brick.copies.iter().all(|c| c.memory == c.disk);
        let waits = |&(block, key): &(Block, Key)| block.in_range() && self.is_sound_key(key);
        brick.next <= brick.ceiling
            && brick.ceiling <= SEQUENCES
            && (brick.up || !brick.member)
            && down_is_saved
            && brick.buffer.len() <= MOST_WAITING
            && brick.buffer.iter().all(waits)
            && (0..BUCKETS).all(|bucket| self.is_sound_copy(&brick.copies[bucket], bucket))
            && self.is_sound_log(&brick.log)
    }

    fn is_sound_copy(&self, copy: &Copy, bucket: usize) -> bool {
        [&copy.memory, &copy.disk].iter().all(|t| self.is_sound_table(t, self.entries(), |block| block.bucket() == bucket))
    }

    fn is_sound_log(&self, log: &[Chunk]) -> bool {
        let mut keys: Vec<Key> = log.iter().map(|c| c.key).collect();
        keys.sort_unstable();
        log.len() <= self.chunks() && keys.windows(2).all(|two| two[0] < two[1]) && keys.iter().all(|&key| self.is_sound_key(key))
    }
}
