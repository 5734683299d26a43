//! The proved calls behind safe functions, and an independent implementation of each to compare them with.
pub mod code;
pub mod counts;
pub mod kind;
pub mod lent;
pub mod lists;
pub mod moves;
pub mod numbers;
pub mod random;
pub mod store;
pub mod text;
pub mod time;
pub mod wild;

/// So many wild events meet all that they can meet.
pub const ENOUGH: u64 = 100_000;

/// How many lines or stores a test tries: a million, or what DISK_TRIES says.
pub fn tries() -> u64 {
    std::env::var("DISK_TRIES").ok().and_then(|n| n.parse().ok()).unwrap_or(1_000_000)
}
