//! The rules written a second time, with maps and lists: nothing here knows how a store lies in bytes.
mod call;
mod chunks;
mod facts;
mod maps;
mod membership;
mod numbers;
mod pairs;
mod sound;
mod state;
mod step;
mod upkeep;
mod views;

pub use call::{Call, Event};
pub use numbers::{Block, Id, Key, View, BLOCKS, LAST_ID, LAST_NUMBER, SEQUENCES};
pub use pairs::{pairs, Pair};
pub use state::{Brick, Bucket, Chunk, Copy, Proxy, Relay, State, Table, BUCKETS, COPIES, MOST_ITEMS, MOST_RELAYS, MOST_WAITING, PROXIES};
pub use step::{step, step_with, Answer};

pub use call_tests::kind;

/// Places, block size, entries of a copy and chunks of a log, with their limits.
pub use call_tests::store::model::Settings;
