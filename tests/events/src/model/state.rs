//! What a store holds.
use super::{pairs, Block, Id, Key, Pair, Settings, View};
use std::collections::{BTreeMap, BTreeSet};

pub const BUCKETS: usize = 16;
pub const PROXIES: usize = 4;
pub const MOST_ITEMS: usize = 32;
pub const MOST_WAITING: usize = 32;
pub const MOST_RELAYS: usize = 64;
/// So many members have a chunk saved before it is mapped.
pub const COPIES: usize = 2;

/// Mapped keys by block.
pub type Table = BTreeMap<Block, Key>;

#[derive(Clone, Debug, PartialEq, Eq)]
pub struct Chunk {
    pub key: Key,
    pub saved: bool,
    pub data: Vec<u8>,
}

/// A brick's copy of one bucket.
#[derive(Clone, Debug, Default, PartialEq, Eq)]
pub struct Copy {
    pub memory: Table,
    pub disk: Table,
}

#[derive(Clone, Debug, PartialEq, Eq)]
pub struct Brick {
    pub id: Id,
    pub up: bool,
    pub member: bool,
    /// whether the present view began with it
    pub began: bool,
    pub next: u64,
    pub ceiling: u64,
    /// the append buffer, in arrival order
    pub buffer: Vec<(Block, Key)>,
    /// by bucket
    pub copies: Vec<Copy>,
    /// in arrival order
    pub log: Vec<Chunk>,
}

impl Brick {
    pub fn blank(id: Id) -> Self {
        let copies = vec![Copy::default(); BUCKETS];
        Brick { id, up: true, member: false, began: false, next: 0, ceiling: 0, buffer: Vec::new(), copies, log: Vec::new() }
    }

    pub fn chunk(&self, key: Key) -> Option<&Chunk> {
        self.log.iter().find(|c| c.key == key)
    }

    pub fn has_saved(&self, key: Key) -> bool {
        self.chunk(key).is_some_and(|c| c.saved)
    }
}

#[derive(Clone, Debug, PartialEq, Eq)]
pub struct Bucket {
    pub pair: Pair,
    pub last_ready: Pair,
    pub ready: bool,
    pub fetched: bool,
    /// the order number sent last in this view
    pub sent: u64,
    /// the highest order number taken in this view
    pub taken: u64,
}

#[derive(Clone, Debug, PartialEq, Eq)]
pub struct Proxy {
    pub known: View,
    pub items: Table,
}

#[derive(Clone, Debug, PartialEq, Eq)]
pub struct Relay {
    pub view: View,
    pub bucket: usize,
    pub order: u64,
    pub block: Block,
    pub key: Key,
}

#[derive(Clone, Debug, PartialEq)]
pub struct State {
    pub settings: Settings,
    pub view: View,
    /// the highest id given
    pub given: Id,
    /// how many bricks the view began with
    pub started: u64,
    pub buckets: Vec<Bucket>,
    pub proxies: Vec<Proxy>,
    /// oldest first
    pub bag: Vec<Relay>,
    /// who stands at each place
    pub places: Vec<Option<Id>>,
    pub bricks: BTreeMap<Id, Brick>,
}

impl State {
    /// None where a setting is outside its limits.
    pub fn formatted(settings: Settings) -> Option<Self> {
        if !settings.in_limits() {
            return None;
        }
        let ids: BTreeSet<Id> = (1..=settings.places).collect();
        let bucket = |pair| Bucket { pair, last_ready: pair, ready: true, fetched: false, sent: 0, taken: 0 };
        Some(State {
            settings,
            view: View(1),
            given: settings.places,
            started: settings.places,
            buckets: pairs(&[None; BUCKETS], &ids).into_iter().map(bucket).collect(),
            proxies: vec![Proxy { known: View(0), items: Table::new() }; PROXIES],
            bag: Vec::new(),
            places: ids.iter().map(|&id| Some(id)).collect(),
            bricks: ids.iter().map(|&id| (id, Brick { member: true, began: true, ..Brick::blank(id) })).collect(),
        })
    }

    pub fn entries(&self) -> usize {
        self.settings.entries as usize
    }

    pub fn chunks(&self) -> usize {
        self.settings.chunks as usize
    }

    pub fn size(&self) -> usize {
        self.settings.size as usize
    }
}
