//! Layout, format and soundness, written from the rules and from docs/LAYOUT.md, and from nothing else.

pub const BUCKETS: usize = 16;
pub const PROXIES: usize = 4;
pub const MAX_ITEMS: usize = 32;
pub const MAX_WAITING: usize = 32;
pub const MAX_RELAYS: usize = 64;
pub const MAX_ID: u64 = 255;
pub const MAX_NUMBER: u64 = u32::MAX as u64;
pub const BLOCKS: u64 = 1 << 51;
pub const SEQUENCES: u64 = 1 << 56;

/// The word that every store begins with.
pub const VERSION: u64 = u64::from_le_bytes(*b"DISK0001");

pub const AT_SETTINGS: usize = 1;
pub const AT_VIEW: usize = AT_SETTINGS + 4;
pub const AT_GIVEN: usize = AT_VIEW + 1;
pub const AT_STARTED: usize = AT_GIVEN + 1;
pub const HEADER: usize = AT_STARTED + 1;
pub const BUCKET: usize = 8;
pub const PROXY: usize = 2 + 2 * MAX_ITEMS;
pub const RELAY: usize = 5;
pub const AT_BUCKETS: usize = HEADER;
pub const AT_PROXIES: usize = AT_BUCKETS + BUCKETS * BUCKET;
pub const AT_BAG: usize = AT_PROXIES + PROXIES * PROXY;
pub const AT_PLACES: usize = AT_BAG + 1 + MAX_RELAYS * RELAY;
pub const AT_BUFFER: usize = 6;
pub const AT_COPIES: usize = AT_BUFFER + 1 + 2 * MAX_WAITING;

#[derive(Clone, Copy, Debug, PartialEq)]
pub struct Settings {
    pub places: u64,
    pub size: u64,
    pub entries: u64,
    pub chunks: u64,
}

impl Settings {
    pub fn new(places: u64, size: u64, entries: u64, chunks: u64) -> Self {
        Settings { places, size, entries, chunks }
    }

    /// As a store has them, in limits or not.
    pub fn of(store: &[u8]) -> Self {
        let [places, size, entries, chunks] = std::array::from_fn(|i| get(store, AT_SETTINGS + i));
        Settings { places, size, entries, chunks }
    }

    pub fn in_limits(&self) -> bool {
        (3..=8).contains(&self.places)
            && (8..=8192).contains(&self.size)
            && self.size % 8 == 0
            && (2..=1024).contains(&self.entries)
            && (4..=65536).contains(&self.chunks)
    }

    /// Words of one copy table.
    pub fn copy(&self) -> usize {
        1 + 2 * self.entries as usize
    }

    /// Words before the log of a place.
    pub fn at_log(&self) -> usize {
        AT_COPIES + BUCKETS * 2 * self.copy()
    }

    pub fn cell(&self) -> usize {
        self.size as usize / 8
    }

    /// Words of one place.
    pub fn place(&self) -> usize {
        let l = self.chunks as usize;
        self.at_log() + 1 + 3 * l + l * self.cell()
    }

    pub fn words(&self) -> usize {
        AT_PLACES + self.places as usize * self.place()
    }

    pub fn bytes(&self) -> usize {
        8 * self.words()
    }
}

pub fn get(store: &[u8], i: usize) -> u64 {
    u64::from_le_bytes(store[8 * i..8 * i + 8].try_into().unwrap())
}

pub fn put(store: &mut [u8], i: usize, v: u64) {
    store[8 * i..8 * i + 8].copy_from_slice(&v.to_le_bytes());
}

pub fn bucket_of(block: u64) -> u64 {
    block / 1024 % BUCKETS as u64
}

pub fn proxy_of(block: u64) -> u64 {
    block / (1 << 49)
}

/// The pairs of a view: what is left of the last ready pairs, the fill, and the two walks.
pub fn pairs(members: &[u64], last: &[[u64; 2]]) -> Vec<[u64; 2]> {
    let mut pairs: Vec<[u64; 2]> = last
        .iter()
        .map(|p| {
            let kept: Vec<u64> = p.iter().copied().filter(|i| members.contains(i)).collect();
            [kept.first().copied().unwrap_or(0), kept.get(1).copied().unwrap_or(0)]
        })
        .collect();
    let load = |pairs: &[[u64; 2]], i: u64| pairs.iter().flatten().filter(|&&x| x == i).count();
    let least = |pairs: &[[u64; 2]], not: [u64; 2]| {
        let outside = members.iter().copied().filter(|i| !not.contains(i));
        outside.min_by_key(|&i| (load(pairs, i), i))
    };
    for g in 0..pairs.len() {
        for role in 0..2 {
            if pairs[g][role] == 0 {
                let other = pairs[g][1 - role];
                pairs[g][role] = least(&pairs, [0, other]).unwrap_or(0);
            }
        }
    }
    let share = (2 * pairs.len()).div_ceil(members.len());
    for role in [1, 0] {
        for g in 0..pairs.len() {
            if load(&pairs, pairs[g][role]) > share {
                if let Some(x) = least(&pairs, pairs[g]) {
                    if load(&pairs, x) < share {
                        pairs[g][role] = x;
                    }
                }
            }
        }
    }
    pairs
}

/// A fresh store over the bytes that are there; bytes that nothing uses stay.
pub fn format(store: &mut [u8], s: Settings) -> u64 {
    if !s.in_limits() || store.len() != s.bytes() {
        return 1;
    }
    let header = [VERSION, s.places, s.size, s.entries, s.chunks, 1, s.places, s.places];
    header.iter().enumerate().for_each(|(i, &v)| put(store, i, v));
    let members: Vec<u64> = (1..=s.places).collect();
    for (g, p) in pairs(&members, &[[0, 0]; BUCKETS]).iter().enumerate() {
        let record = [p[0], p[1], p[0], p[1], 1, 0, 0, 0];
        record.iter().enumerate().for_each(|(i, &v)| put(store, AT_BUCKETS + g * BUCKET + i, v));
    }
    for p in 0..PROXIES {
        put(store, AT_PROXIES + p * PROXY, 0);
        put(store, AT_PROXIES + p * PROXY + 1, 0);
    }
    put(store, AT_BAG, 0);
    for p in 0..s.places as usize {
        let at = AT_PLACES + p * s.place();
        let head = [p as u64 + 1, 1, 1, 1, 0, 0, 0];
        head.iter().enumerate().for_each(|(i, &v)| put(store, at + i, v));
        for t in 0..2 * BUCKETS {
            put(store, at + AT_COPIES + t * s.copy(), 0);
        }
        put(store, at + s.at_log(), 0);
    }
    0
}

/// The words of a store whose settings are in limits and whose length is theirs.
struct View<'a> {
    store: &'a [u8],
    settings: Settings,
    given: u64,
    /// by id: the next sequence number of a brick that is present
    next: [Option<u64>; 256],
}

impl View<'_> {
    fn at(&self, i: usize) -> u64 {
        get(self.store, i)
    }

    fn key(&self, k: u64) -> bool {
        let id = k / SEQUENCES;
        id >= 1 && id <= self.given && self.next[id as usize].map_or(true, |n| k % SEQUENCES < n)
    }

    fn id(&self, i: u64) -> bool {
        i >= 1 && i <= self.given
    }

    /// A sorted table of block and key: its count at `at`.
    fn table(&self, at: usize, most: u64, mine: impl Fn(u64) -> bool) -> bool {
        let count = self.at(at);
        if count > most {
            return false;
        }
        let mut floor = 0;
        for r in 0..count as usize {
            let (block, key) = (self.at(at + 1 + 2 * r), self.at(at + 2 + 2 * r));
            if block < floor || block >= BLOCKS || !mine(block) || !self.key(key) {
                return false;
            }
            floor = block + 1;
        }
        true
    }

    fn bucket(&self, g: usize) -> bool {
        let at = AT_BUCKETS + g * BUCKET;
        let w: Vec<u64> = (0..BUCKET).map(|i| self.at(at + i)).collect();
        w[..4].iter().all(|&i| self.id(i)) && w[0] != w[1] && w[2] != w[3] && w[4] <= 1 && w[5] <= 1 && w[6] <= MAX_NUMBER && w[7] <= MAX_NUMBER
    }

    fn bag(&self) -> bool {
        let count = self.at(AT_BAG);
        count <= MAX_RELAYS as u64
            && (0..count as usize).all(|r| {
                let at = AT_BAG + 1 + r * RELAY;
                let block = self.at(at + 3);
                self.at(at) <= MAX_NUMBER
                    && block < BLOCKS
                    && self.at(at + 1) == bucket_of(block)
                    && self.at(at + 2) <= MAX_NUMBER
                    && self.key(self.at(at + 4))
            })
    }

    fn log(&self, at: usize) -> bool {
        let l = self.settings.chunks as usize;
        let count = self.at(at);
        if count > l as u64 {
            return false;
        }
        let mut last = None;
        for j in 0..count as usize {
            let p = self.at(at + 1 + 2 * l + j);
            if p >= count {
                return false;
            }
            let (key, saved) = (self.at(at + 1 + 2 * p as usize), self.at(at + 2 + 2 * p as usize));
            if saved > 1 || !self.key(key) || last.is_some_and(|k| key <= k) {
                return false;
            }
            last = Some(key);
        }
        true
    }

    fn brick(&self, at: usize) -> bool {
        let s = self.settings;
        let (up, member, began) = (self.at(at + 1), self.at(at + 2), self.at(at + 3));
        let waiting = self.at(at + AT_BUFFER);
        if up > 1 || member > 1 || began > 1 || member > up || self.at(at + 4) > self.at(at + 5) || self.at(at + 5) > SEQUENCES {
            return false;
        }
        if waiting > MAX_WAITING as u64 || up == 0 && waiting > 0 {
            return false;
        }
        for r in 0..waiting as usize {
            let (block, key) = (self.at(at + AT_BUFFER + 1 + 2 * r), self.at(at + AT_BUFFER + 2 + 2 * r));
            if block >= BLOCKS || !self.key(key) {
                return false;
            }
        }
        for g in 0..BUCKETS {
            let memory = at + AT_COPIES + 2 * g * s.copy();
            let disk = memory + s.copy();
            let mine = |b| bucket_of(b) == g as u64;
            if !self.table(memory, s.entries, mine) || !self.table(disk, s.entries, mine) {
                return false;
            }
            if up == 0 && (0..1 + 2 * self.at(memory) as usize).any(|i| self.at(memory + i) != self.at(disk + i)) {
                return false;
            }
        }
        self.log(at + s.at_log())
    }
}

/// 0 where the bytes are a sound store, else 2.
pub fn check(store: &[u8]) -> u64 {
    if is_sound(store) { 0 } else { 2 }
}

fn is_sound(store: &[u8]) -> bool {
    if store.len() < 8 * AT_PLACES || get(store, 0) != VERSION {
        return false;
    }
    let s = Settings::of(store);
    if !s.in_limits() || store.len() != s.bytes() {
        return false;
    }
    let (view, given, started) = (get(store, AT_VIEW), get(store, AT_GIVEN), get(store, AT_STARTED));
    if view < 1 || view > MAX_NUMBER || given > MAX_ID || started > s.places {
        return false;
    }
    let mut next = [None; 256];
    for p in 0..s.places as usize {
        let at = AT_PLACES + p * s.place();
        let id = get(store, at);
        if id > given {
            return false;
        }
        if id != 0 {
            if next[id as usize].is_some() {
                return false;
            }
            next[id as usize] = Some(get(store, at + 4));
        }
    }
    let v = View { store, settings: s, given, next };
    (0..BUCKETS).all(|g| v.bucket(g))
        && (0..PROXIES).all(|p| {
            let at = AT_PROXIES + p * PROXY;
            v.at(at) <= MAX_NUMBER && v.table(at + 1, MAX_ITEMS as u64, |b| proxy_of(b) == p as u64)
        })
        && v.bag()
        && (0..s.places as usize).all(|p| {
            let at = AT_PLACES + p * s.place();
            v.at(at) == 0 || v.brick(at)
        })
}

/// The member ids, ascending.
fn members(store: &[u8], s: Settings) -> Vec<u64> {
    let places = (0..s.places as usize).map(|p| AT_PLACES + p * s.place());
    let mut ids: Vec<u64> = places.filter(|&at| get(store, at) != 0 && get(store, at + 2) == 1).map(|at| get(store, at)).collect();
    ids.sort_unstable();
    ids
}

/// What a bucket's primary has in memory: a count, blocks and keys. A lost one has nothing.
fn primary_memory(store: &[u8], s: Settings, bucket: usize) -> Vec<u64> {
    let id = get(store, AT_BUCKETS + bucket * BUCKET);
    match (0..s.places as usize).map(|p| AT_PLACES + p * s.place()).find(|&at| get(store, at) == id) {
        Some(at) => {
            let memory = at + AT_COPIES + 2 * bucket * s.copy();
            (0..1 + 2 * get(store, memory) as usize).map(|i| get(store, memory + i)).collect()
        }
        None => vec![0],
    }
}

/// 0 where two stores are alike, 1 where they are not, 2 where one of them is not sound.
pub fn alike(store: &[u8], other: &[u8]) -> u64 {
    if !is_sound(store) || !is_sound(other) {
        return 2;
    }
    let s = Settings::of(store);
    let same = (AT_SETTINGS..=AT_VIEW).all(|i| get(store, i) == get(other, i))
        && members(store, s) == members(other, s)
        && (0..BUCKETS).all(|g| primary_memory(store, s, g) == primary_memory(other, s, g));
    !same as u64
}
