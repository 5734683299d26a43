//! How many words each part of docs/LAYOUT.md has.
use crate::model::{Settings, BUCKETS, MOST_ITEMS, MOST_RELAYS, MOST_WAITING, PROXIES};

/// The bytes that every store begins with.
pub const VERSION: &[u8; 8] = b"DISK0001";

/// The version, N, S, M, L, the view, the highest id given, the number that the view began with.
pub const HEADER: usize = 1 + 4 + 3;
pub const BUCKET: usize = 8;
pub const PROXY: usize = 2 + 2 * MOST_ITEMS;
pub const RELAY: usize = 5;
pub const BAG: usize = 1 + MOST_RELAYS * RELAY;
pub const BEFORE_PLACES: usize = HEADER + BUCKETS * BUCKET + PROXIES * PROXY + BAG;
/// Id, flags, numbers and append buffer.
pub const BEFORE_COPIES: usize = 1 + 3 + 2 + 1 + 2 * MOST_WAITING;

/// All copies of a place.
pub fn copies(s: Settings) -> usize {
    BUCKETS * 2 * (1 + 2 * s.entries as usize)
}

/// A log without its cells.
pub fn rows_of_log(s: Settings) -> usize {
    1 + 3 * s.chunks as usize
}

pub fn cell(s: Settings) -> usize {
    s.size as usize / 8
}

pub fn place(s: Settings) -> usize {
    BEFORE_COPIES + copies(s) + rows_of_log(s) + s.chunks as usize * cell(s)
}

pub fn words(s: Settings) -> usize {
    BEFORE_PLACES + s.places as usize * place(s)
}

/// The bytes of a store of these settings.
pub fn length(s: Settings) -> usize {
    8 * words(s)
}
