//! Situations within one kind and code that random lists have to meet too.
use crate::model::{kind, Block, Brick, Call, Key, State, MOST_ITEMS, MOST_WAITING};

/// A state before an event and after it.
pub struct Moment<'a> {
    pub before: &'a State,
    pub after: &'a State,
    pub call: &'a Call,
}

type Holds = fn(&Moment) -> bool;

/// Kind, code, what is met, and how it is known.
type Situation = (u64, u64, &'static str, Holds);

impl Moment<'_> {
    fn place(&self) -> Option<&Brick> {
        self.before.at(self.call.a as usize)
    }

    fn place_after(&self) -> Option<&Brick> {
        self.after.at(self.call.a as usize)
    }

    /// Of a kind whose second field it is.
    fn block(&self) -> Block {
        Block(self.call.b)
    }

    fn primary(&self) -> &Brick {
        &self.before.bricks[&self.before.buckets[self.block().bucket()].pair.primary]
    }

    fn bucket(&self) -> usize {
        self.call.a as usize
    }

    fn source_is(&self, id: u64) -> bool {
        let last = self.before.buckets[self.bucket()].last_ready;
        self.before.member(last.primary).or_else(|| self.before.member(last.backup)).is_some_and(|b| b.id == id)
    }

    fn entries_at_primary(&self, state: &State) -> usize {
        state.copy_of(self.before.buckets[self.bucket()].pair.primary, self.bucket()).memory.len()
    }

    /// Whether a block waits for the bucket and is not in the primary's memory afterwards.
    fn drops_waiting(&self) -> bool {
        let id = self.before.buckets[self.bucket()].pair.primary;
        let memory = &self.after.copy_of(id, self.bucket()).memory;
        self.before.bricks[&id].buffer.iter().any(|(block, _)| block.bucket() == self.bucket() && !memory.contains_key(block))
    }

    /// How many of a collect's conditions fail.
    fn obstacles(&self) -> usize {
        let s = self.before;
        let down = s.bricks.values().any(|b| !b.up);
        let not_members = s.bricks.values().any(|b| b.up && !b.member);
        let unready = s.buckets.iter().any(|b| !b.ready);
        let items = s.proxies.iter().any(|p| !p.items.is_empty());
        [down, not_members, unready, !s.nothing_pending(), items].iter().filter(|&&no| no).count()
    }

    fn log_grew(&self) -> bool {
        self.place().zip(self.place_after()).is_some_and(|(old, new)| new.log.len() > old.log.len())
    }

    fn log_shrank(&self) -> bool {
        self.place().zip(self.place_after()).is_some_and(|(old, new)| new.log.len() < old.log.len())
    }

    fn saves_held(&self) -> bool {
        self.place().zip(self.place_after()).is_some_and(|(old, new)| old.log.iter().any(|c| !c.saved && new.has_saved(c.key)))
    }

    fn home_shows(&self) -> bool {
        self.before.mapped(self.block()).is_some_and(|key| self.before.member(key.home()).is_some_and(|b| b.chunk(key).is_some()))
    }

    /// At how many members the item of a map is saved.
    fn saved_copies(&self) -> usize {
        self.before.proxies[self.call.a as usize].items.get(&self.block()).map_or(0, |&key| self.before.saved_at(key))
    }

    fn copy_target(&self) -> Option<&Brick> {
        let home = Key(self.call.a).home();
        self.before.members_from(home).find(|b| b.id != home)
    }
}

const SITUATIONS: &[Situation] = &[
    (kind::PUT, 0, "put raises the ceiling", |m| m.before.at(m.call.b as usize).is_some_and(|b| b.next == b.ceiling && b.next > 0)),
    (kind::PUT, 0, "put of a first key", |m| m.before.at(m.call.b as usize).is_some_and(|b| b.next == 0)),
    (kind::PUT, 10, "put finds 32 items", |m| m.before.proxies[m.call.a as usize].items.len() == MOST_ITEMS),
    (kind::PUT, 10, "put finds a full log", |m| m.before.proxies[m.call.a as usize].items.len() < MOST_ITEMS),
    (kind::COPY, 0, "copy of a chunk that is held", |m| m.copy_target().is_some_and(|b| b.chunk(Key(m.call.a)).is_some())),
    (kind::COPY, 0, "copy with no other member", |m| m.copy_target().is_none()),
    (kind::COPY, 0, "copy to a lower id", |m| m.copy_target().is_some_and(|b| b.id < Key(m.call.a).home() && b.chunk(Key(m.call.a)).is_none())),
    (kind::MAP, 0, "map of a new block", |m| m.before.mapped(m.block()).is_none() && m.before.buckets[m.block().bucket()].ready),
    (kind::MAP, 0, "map over an older key", |m| m.before.mapped(m.block()).is_some() && m.before.buckets[m.block().bucket()].ready),
    (kind::MAP, 0, "map into the buffer", |m| !m.before.buckets[m.block().bucket()].ready),
    (kind::MAP, 8, "map of a pending block", |m| m.before.is_pending(m.block())),
    (kind::MAP, 8, "map of a block in the buffer", |m| !m.before.is_pending(m.block())),
    (kind::MAP, 10, "map finds a full copy", |m| m.before.buckets[m.block().bucket()].ready),
    (kind::MAP, 10, "map finds a full buffer", |m| !m.before.buckets[m.block().bucket()].ready && m.primary().buffer.len() == MOST_WAITING),
    (kind::MAP, 11, "map of a chunk saved nowhere", |m| m.saved_copies() == 0),
    (kind::MAP, 11, "map of a chunk saved at one member", |m| m.saved_copies() == 1),
    (kind::DELIVER, 0, "relay taken", |m| m.after.buckets != m.before.buckets),
    (kind::DELIVER, 0, "relay of another view set aside", |m| m.before.bag[m.call.a as usize].view != m.before.view),
    (kind::DELIVER, 0, "relay of a lower number set aside", |m| m.before.bag[m.call.a as usize].view == m.before.view && m.after.buckets == m.before.buckets),
    (kind::GET, 0, "get of no mapping", |m| m.before.mapped(m.block()).is_none()),
    (kind::GET, 0, "get from the home", |m| m.home_shows()),
    (kind::GET, 0, "get from another member", |m| m.before.mapped(m.block()).is_some() && !m.home_shows()),
    (kind::GET, 8, "get of a block whose backup is lost", |m| !m.before.bricks.contains_key(&m.before.buckets[m.block().bucket()].pair.backup)),
    (kind::CRASH, 0, "crash with unsaved chunks", |m| m.log_shrank()),
    (kind::CRASH, 0, "crash with unsaved entries", |m| m.place().is_some_and(|b| b.copies.iter().any(|c| c.memory != c.disk))),
    (kind::CRASH, 0, "crash with a buffer", |m| m.place().is_some_and(|b| !b.buffer.is_empty())),
    (kind::CRASH, 0, "crash of a brick that is no member", |m| m.place().is_some_and(|b| !b.member)),
    (kind::CRASH, 0, "crash of a whole store", |m| m.before.is_whole()),
    (kind::CRASH, 0, "crash of a store all up and ready with a block pending", |m| m.before.is_all_up_and_ready() && !m.before.nothing_pending()),
    (kind::CRASH, 13, "crash at an empty place", |m| m.place().is_none()),
    (kind::CRASH, 13, "crash of a down brick", |m| m.place().is_some()),
    (kind::LOSE, 0, "loss of a down brick", |m| m.place().is_some_and(|b| !b.up)),
    (kind::LOSE, 0, "loss from a whole store", |m| m.before.is_whole()),
    (kind::RISE, 13, "rise at an empty place", |m| m.place().is_none()),
    (kind::RISE, 13, "rise of an up brick", |m| m.place().is_some()),
    (kind::VIEW, 0, "view with a lone backup", |m| m.before.buckets.iter().zip(&m.after.buckets).any(|(o, n)| n.pair.primary == o.last_ready.backup)),
    (kind::VIEW, 0, "view with a joined brick", |m| m.before.bricks.values().any(|b| b.up && !b.member && b.next == 0)),
    (kind::VIEW, 0, "view that empties a buffer", |m| m.before.bricks.values().any(|b| !b.buffer.is_empty())),
    (kind::VIEW, 0, "view with a brick down", |m| m.before.bricks.values().any(|b| !b.up)),
    (kind::VIEW, 13, "view with one brick up", |m| m.before.bricks.values().filter(|b| b.up).count() < 2),
    (kind::VIEW, 13, "view without a majority", |m| m.before.bricks.values().filter(|b| b.up).count() >= 2),
    (kind::FETCH, 0, "fetch from the primary itself", |m| m.source_is(m.before.buckets[m.bucket()].pair.primary)),
    (kind::FETCH, 0, "fetch from another brick", |m| !m.source_is(m.before.buckets[m.bucket()].pair.primary)),
    (kind::FETCH, 0, "fetch from the last backup", |m| m.source_is(m.before.buckets[m.bucket()].last_ready.backup)),
    (kind::FETCH, 13, "fetch of a ready bucket", |m| m.before.buckets[m.bucket()].ready),
    (kind::FETCH, 13, "fetch without a source", |m| !m.before.buckets[m.bucket()].ready),
    (kind::READY, 0, "ready drains a buffer", |m| m.entries_at_primary(m.after) > m.entries_at_primary(m.before)),
    (kind::READY, 0, "ready drops what finds no room", |m| m.drops_waiting()),
    (kind::READY, 13, "ready of a ready bucket", |m| m.before.buckets[m.bucket()].ready),
    (kind::READY, 13, "ready before a fetch", |m| !m.before.buckets[m.bucket()].ready),
    (kind::MEND, 0, "mend adds chunks", |m| m.log_grew()),
    (kind::MEND, 0, "mend saves chunks that are held", |m| m.saves_held()),
    (kind::COLLECT, 0, "collect frees room", |m| m.log_shrank()),
    (kind::COLLECT, 13, "collect with a brick down alone", |m| m.obstacles() == 1 && m.before.bricks.values().any(|b| !b.up)),
    (kind::COLLECT, 13, "collect with a brick that is no member alone", |m| m.obstacles() == 1 && m.before.bricks.values().any(|b| b.up && !b.member)),
    (kind::COLLECT, 13, "collect with an unready bucket alone", |m| m.obstacles() == 1 && m.before.buckets.iter().any(|b| !b.ready)),
    (kind::COLLECT, 13, "collect with a pending block alone", |m| m.obstacles() == 1 && !m.before.nothing_pending()),
    (kind::COLLECT, 13, "collect with an item alone", |m| m.obstacles() == 1 && m.before.proxies.iter().any(|p| !p.items.is_empty())),
];

/// How often each situation was met.
#[derive(Clone, Debug)]
pub struct Met(Vec<u64>);

impl Default for Met {
    fn default() -> Self {
        Met(vec![0; SITUATIONS.len()])
    }
}

impl Met {
    pub fn add(&mut self, moment: &Moment, code: u64) {
        for (count, (kind, when, _, holds)) in self.0.iter_mut().zip(SITUATIONS) {
            *count += (*kind == moment.call.kind && *when == code && holds(moment)) as u64;
        }
    }

    pub fn missing(&self) -> Vec<&'static str> {
        self.0.iter().zip(SITUATIONS).filter(|(count, _)| **count == 0).map(|(_, s)| s.2).collect()
    }

    pub fn table(&self) -> String {
        self.0.iter().zip(SITUATIONS).map(|(count, s)| format!("{count:>8}  {}\n", s.2)).collect()
    }
}
