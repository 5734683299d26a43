//! The claim about lists of events, executed: a machine that is fed the events and their answers and, of the store, what a crash or loss found.
use crate::model::{kind, Answer, Call, State, BUCKETS};
use std::collections::{HashMap, HashSet};

pub const WANT_OF_BYTES: &str = "a get for want of bytes";

/// A block's writes, numbered from 1, and its mark.
#[derive(Clone, Debug, Default)]
struct Writes {
    list: Vec<(u64, Vec<u8>)>,
    mark: usize,
}

/// What the premises of the claims on want read of the store before an event.
#[derive(Clone, Copy, Debug, Default)]
pub struct Found {
    pub whole: bool,
    pub all_up_and_ready: bool,
}

impl Found {
    /// It matters before a crash or loss alone.
    pub fn before(call: &Call, state: &State) -> Self {
        match call.kind {
            kind::CRASH | kind::LOSE => Found { whole: state.is_whole(), all_up_and_ready: state.is_all_up_and_ready() },
            _ => Found::default(),
        }
    }
}

#[derive(Clone, Debug)]
pub struct History {
    blocks: HashMap<u64, Writes>,
    keys: HashSet<u64>,
    /// whether each accepted crash and loss found a whole store
    whole_before_losses: bool,
    /// whether no loss was accepted, and each accepted crash found every place an up member and every bucket ready
    ready_before_crashes: bool,
    /// buckets with an accepted view and no accepted ready since
    unready: [bool; BUCKETS],
}

impl Default for History {
    fn default() -> Self {
        History { blocks: HashMap::new(), keys: HashSet::new(), whole_before_losses: true, ready_before_crashes: true, unready: [false; BUCKETS] }
    }
}

impl History {
    /// Takes the next event of a list.
    pub fn watch(&mut self, call: &Call, answer: &Answer, found: Found) -> Result<(), String> {
        match (call.kind, answer.code) {
            (kind::PUT, 0) => self.put(call, answer.key),
            (kind::DONE, 0) => self.confirm(call.b),
            (kind::GET, 0) => self.read(call.b, answer),
            (kind::CRASH | kind::LOSE, 0) => {
                self.whole_before_losses &= found.whole;
                self.ready_before_crashes &= call.kind == kind::CRASH && found.all_up_and_ready;
                Ok(())
            }
            (kind::VIEW, 0) => {
                self.unready = [true; BUCKETS];
                Ok(())
            }
            (kind::READY, 0) => {
                self.unready[call.a as usize] = false;
                Ok(())
            }
            (kind::GET, 11) if self.whole_before_losses || self.ready_before_crashes => Err(WANT_OF_BYTES.to_string()),
            (kind::FETCH, 13) if self.whole_before_losses && self.unready[call.a as usize] => Err("a fetch for want of a source".to_string()),
            _ => Ok(()),
        }
    }

    /// Whether the list so far is one that the claim on want speaks of.
    pub fn is_careful(&self) -> bool {
        self.whole_before_losses
    }

    /// Whether it is one in which no get is refused for want of bytes, even with writes under way.
    pub fn is_ready_before_crashes(&self) -> bool {
        self.ready_before_crashes
    }

    fn put(&mut self, call: &Call, key: u64) -> Result<(), String> {
        self.blocks.entry(call.c).or_default().list.push((key, call.data.clone()));
        if self.keys.insert(key) {
            Ok(())
        } else {
            Err(format!("two accepted puts answer {key}"))
        }
    }

    fn confirm(&mut self, block: u64) -> Result<(), String> {
        let writes = self.blocks.entry(block).or_default();
        writes.mark = writes.list.len();
        if writes.mark > 0 {
            Ok(())
        } else {
            Err(format!("block {block} is confirmed without a write"))
        }
    }

    fn read(&mut self, block: u64, answer: &Answer) -> Result<(), String> {
        let writes = self.blocks.entry(block).or_default();
        let data = answer.data.as_deref().unwrap_or_default();
        let shown = if answer.key == 0 {
            data.iter().all(|&b| b == 0).then_some(0)
        } else {
            writes.list.iter().position(|(key, bytes)| *key == answer.key && bytes == data).map(|i| i + 1)
        };
        match shown {
            Some(number) if number >= writes.mark => {
                writes.mark = number;
                Ok(())
            }
            Some(number) => Err(format!("block {block} shows write {number} after {}", writes.mark)),
            None => Err(format!("block {block} shows no write of its own: key {}", answer.key)),
        }
    }
}
