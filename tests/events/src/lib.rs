//! An independent implementation of the rules, its bytes by docs/LAYOUT.md, and random events to compare it with the proved calls.
pub mod batches;
pub mod both;
pub mod choose;
pub mod crashes;
pub mod damage;
pub mod decode;
pub mod encode;
pub mod generate;
pub mod history;
pub mod layout;
pub mod lines;
pub mod lists;
pub mod model;
pub mod reads;
pub mod requests;
pub mod runs;
pub mod shrink;
pub mod situations;
pub mod trial;

/// A number from the environment.
pub fn setting(name: &str, default: u64) -> u64 {
    std::env::var(name).ok().and_then(|n| n.parse().ok()).unwrap_or(default)
}
