//! view, fetch, ready: from one view to the next.
use super::step::{ask, done, Told};
use super::{pairs, Copy, Id, State, Table, LAST_NUMBER};
use std::collections::BTreeSet;

impl State {
    pub(super) fn begin_view(&mut self) -> Told {
        ask(12, self.view.0 < LAST_NUMBER)?;
        let up: BTreeSet<Id> = self.bricks.values().filter(|b| b.up).map(|b| b.id).collect();
        let stayed = self.bricks.values().filter(|b| b.began && b.up).count() as u64;
        ask(13, up.len() >= 2 && 2 * stayed > self.started)?;

        self.view.0 += 1;
        self.started = up.len() as u64;
        for brick in self.bricks.values_mut() {
            brick.member = brick.up;
            brick.began = brick.up;
            brick.buffer.clear();
        }
        let last: Vec<_> = self.buckets.iter().map(|b| Some(b.last_ready)).collect();
        for (bucket, pair) in self.buckets.iter_mut().zip(pairs(&last, &up)) {
            bucket.pair = pair;
            bucket.ready = false;
            bucket.fetched = false;
            bucket.sent = 0;
            bucket.taken = 0;
        }
        done(0)
    }

    pub(super) fn fetch(&mut self, bucket: usize) -> Told {
        ask(6, self.primary(bucket).is_some())?;
        let last = self.buckets[bucket].last_ready;
        let source = self.member(last.primary).or_else(|| self.member(last.backup));
        ask(13, !self.buckets[bucket].ready && source.is_some())?;

        let memory = source.unwrap().copies[bucket].memory.clone();
        let primary = self.buckets[bucket].pair.primary;
        *self.copy_mut(primary, bucket) = both(memory);
        self.buckets[bucket].fetched = true;
        done(0)
    }

    pub(super) fn make_ready(&mut self, bucket: usize) -> Told {
        ask(6, self.primary(bucket).is_some() && self.backup(bucket).is_some())?;
        ask(13, self.buckets[bucket].fetched && !self.buckets[bucket].ready)?;

        let pair = self.buckets[bucket].pair;
        let memory = self.copy_of(pair.primary, bucket).memory.clone();
        *self.copy_mut(pair.backup, bucket) = both(memory);
        self.buckets[bucket].last_ready = pair;
        self.buckets[bucket].ready = true;
        for brick in self.bricks.values_mut().filter(|b| b.up && b.id != pair.primary && b.id != pair.backup) {
            brick.copies[bucket] = Copy::default();
        }
        self.drain(bucket);
        done(0)
    }

    /// The bucket's entries leave the primary's buffer for its memory; a new block that finds the copy full is dropped.
    fn drain(&mut self, bucket: usize) {
        let most = self.entries();
        let primary = self.brick_mut(self.buckets[bucket].pair.primary);
        let (mine, others) = std::mem::take(&mut primary.buffer).into_iter().partition(|(block, _)| block.bucket() == bucket);
        primary.buffer = others;
        let mine: Vec<_> = mine;
        let memory = &mut primary.copies[bucket].memory;
        for (block, key) in mine {
            if memory.contains_key(&block) || memory.len() < most {
                memory.insert(block, key);
            }
        }
    }
}

fn both(table: Table) -> Copy {
    Copy { memory: table.clone(), disk: table }
}
