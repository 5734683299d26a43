//! mend, collect: chunks that a place should have, and those that it need not.
use super::step::{ask, done, Told};
use super::{Chunk, Id, Key, State, BUCKETS};
use std::collections::BTreeSet;

impl State {
    pub(super) fn mend(&mut self, place: usize) -> Told {
        let brick = self.member_at(place);
        ask(6, brick.is_some())?;
        let brick = brick.unwrap();
        let wanted = self.wanted(brick.id);
        let added: Vec<Chunk> = wanted.iter().filter(|c| brick.chunk(c.key).is_none()).cloned().collect();
        ask(10, brick.log.len() + added.len() <= self.chunks())?;

        let wanted: BTreeSet<Key> = wanted.iter().map(|c| c.key).collect();
        let brick = self.at_mut(place).unwrap();
        brick.log.iter_mut().filter(|c| wanted.contains(&c.key)).for_each(|c| c.saved = true);
        brick.log.extend(added);
        done(0)
    }

    /// Each chunk that the brick should have and an up member holds, saved, by bucket and block.
    fn wanted(&self, id: Id) -> Vec<Chunk> {
        let mut seen = BTreeSet::new();
        let ready = (0..BUCKETS).filter(|&bucket| self.buckets[bucket].ready);
        ready
            .flat_map(|bucket| self.copy_of(self.buckets[bucket].pair.primary, bucket).memory.values())
            .filter(|&&key| seen.insert(key) && self.members_from(key.home()).take(2).any(|b| b.id == id))
            .filter_map(|&key| self.seek(key))
            .map(|chunk| Chunk { saved: true, ..chunk.clone() })
            .collect()
    }

    pub(super) fn collect(&mut self, place: usize) -> Told {
        ask(6, self.member_at(place).is_some())?;
        let settled = self.bricks.values().all(|b| b.up && b.member)
            && self.buckets.iter().all(|b| b.ready)
            && self.nothing_pending()
            && self.proxies.iter().all(|p| p.items.is_empty());
        ask(13, settled)?;

        let named: BTreeSet<Key> = (0..BUCKETS).flat_map(|bucket| self.named(bucket)).map(|(_, key)| key).collect();
        self.at_mut(place).unwrap().log.retain(|c| named.contains(&c.key));
        done(0)
    }
}
