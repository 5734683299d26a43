//! What the rules say of a state: who is needed, what is pending, what is whole.
use super::{Block, Brick, Chunk, Copy, Id, Key, State, Table, BUCKETS, COPIES};
use std::collections::BTreeSet;

static NOTHING: Copy = Copy { memory: Table::new(), disk: Table::new() };

impl State {
    pub fn at(&self, place: usize) -> Option<&Brick> {
        self.places[place].map(|id| &self.bricks[&id])
    }

    pub fn at_mut(&mut self, place: usize) -> Option<&mut Brick> {
        let id = self.places[place]?;
        self.bricks.get_mut(&id)
    }

    /// The brick with this id, where it is an up member.
    pub fn member(&self, id: Id) -> Option<&Brick> {
        self.bricks.get(&id).filter(|b| b.up && b.member)
    }

    pub fn member_at(&self, place: usize) -> Option<&Brick> {
        self.places[place].and_then(|id| self.member(id))
    }

    pub fn primary(&self, bucket: usize) -> Option<&Brick> {
        self.member(self.buckets[bucket].pair.primary)
    }

    pub fn backup(&self, bucket: usize) -> Option<&Brick> {
        self.member(self.buckets[bucket].pair.backup)
    }

    /// A bucket's copy at a brick that is known to be present.
    pub fn copy_mut(&mut self, id: Id, bucket: usize) -> &mut Copy {
        &mut self.brick_mut(id).copies[bucket]
    }

    pub fn brick_mut(&mut self, id: Id) -> &mut Brick {
        self.bricks.get_mut(&id).expect("a brick that is present")
    }

    /// The up members from an id upward, circularly, that id first.
    pub fn members_from(&self, id: Id) -> impl Iterator<Item = &Brick> {
        let circle = self.bricks.range(id..).chain(self.bricks.range(..id));
        circle.map(|(_, brick)| brick).filter(|b| b.up && b.member)
    }

    /// The chunk as a read finds it.
    pub fn seek(&self, key: Key) -> Option<&Chunk> {
        self.members_from(key.home()).find_map(|b| b.chunk(key))
    }

    pub fn saved_at(&self, key: Key) -> usize {
        self.members_from(0).filter(|b| b.has_saved(key)).count()
    }

    /// What a brick shows of a bucket: a lost one shows nothing.
    pub fn copy_of(&self, id: Id, bucket: usize) -> &Copy {
        self.bricks.get(&id).map_or(&NOTHING, |b| &b.copies[bucket])
    }

    pub fn mapped(&self, block: Block) -> Option<Key> {
        let bucket = block.bucket();
        self.copy_of(self.buckets[bucket].pair.primary, bucket).memory.get(&block).copied()
    }

    /// The primary's and the backup's memory and disk.
    fn four(&self, bucket: usize) -> [&Table; 4] {
        let pair = self.buckets[bucket].pair;
        let (primary, backup) = (self.copy_of(pair.primary, bucket), self.copy_of(pair.backup, bucket));
        [&primary.memory, &primary.disk, &backup.memory, &backup.disk]
    }

    pub fn is_pending(&self, block: Block) -> bool {
        let [first, others @ ..] = self.four(block.bucket());
        self.buckets[block.bucket()].ready && others.iter().any(|table| table.get(&block) != first.get(&block))
    }

    /// The blocks that a bucket's pair names anywhere.
    pub fn named(&self, bucket: usize) -> impl Iterator<Item = (Block, Key)> + '_ {
        self.four(bucket).into_iter().flatten().map(|(&block, &key)| (block, key))
    }

    /// Every pending block.
    pub fn pending(&self) -> BTreeSet<Block> {
        let named = (0..self.buckets.len()).flat_map(|bucket| self.named(bucket));
        named.map(|(block, _)| block).filter(|&block| self.is_pending(block)).collect()
    }

    pub fn nothing_pending(&self) -> bool {
        let settled = |bucket| {
            let [first, others @ ..] = self.four(bucket);
            others.iter().all(|table| *table == first)
        };
        (0..self.buckets.len()).all(|bucket| !self.buckets[bucket].ready || settled(bucket))
    }

    /// Whether the block waits in its primary's buffer.
    pub fn is_waiting(&self, block: Block) -> bool {
        let primary = self.bricks.get(&self.buckets[block.bucket()].pair.primary);
        primary.is_some_and(|b| b.buffer.iter().any(|entry| entry.0 == block))
    }

    /// Every place an up member and every bucket ready.
    pub fn is_all_up_and_ready(&self) -> bool {
        (0..self.places.len()).all(|place| self.member_at(place).is_some()) && self.buckets.iter().all(|b| b.ready)
    }

    pub fn is_whole(&self) -> bool {
        let mut mapped = (0..self.buckets.len()).flat_map(|bucket| self.four(bucket)[0].values());
        self.is_all_up_and_ready() && self.nothing_pending() && mapped.all(|&key| self.saved_at(key) >= COPIES)
    }

    /// Same settings, view and members and, for each bucket, the same blocks and keys in the primary's memory.
    pub fn is_alike(&self, other: &State) -> bool {
        let members = |state: &State| state.members_from(0).map(|b| b.id).collect::<Vec<Id>>();
        let memory = |state: &State, bucket: usize| state.four(bucket)[0].clone();
        self.settings == other.settings
            && self.view == other.view
            && members(self) == members(other)
            && (0..BUCKETS).all(|bucket| memory(self, bucket) == memory(other, bucket))
    }
}
