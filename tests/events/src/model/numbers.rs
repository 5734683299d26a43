//! Block numbers, chunk keys and view numbers: three types, so that none stands for another.

pub const BLOCKS: u64 = 1 << 51;
pub const SEQUENCES: u64 = 1 << 56;
pub const LAST_ID: Id = 255;
/// The last view number and the last order number.
pub const LAST_NUMBER: u64 = u32::MAX as u64;

/// A brick's id.
pub type Id = u64;

#[derive(Clone, Copy, Debug, PartialEq, Eq, PartialOrd, Ord)]
pub struct Block(pub u64);

#[derive(Clone, Copy, Debug, PartialEq, Eq, PartialOrd, Ord)]
pub struct Key(pub u64);

#[derive(Clone, Copy, Debug, PartialEq, Eq, PartialOrd, Ord)]
pub struct View(pub u64);

impl Block {
    pub fn bucket(self) -> usize {
        (self.0 / 1024 % 16) as usize
    }

    pub fn proxy(self) -> usize {
        (self.0 / (1 << 49)) as usize
    }

    pub fn in_range(self) -> bool {
        self.0 < BLOCKS
    }
}

impl Key {
    pub fn new(home: Id, sequence: u64) -> Self {
        Key(home * SEQUENCES + sequence)
    }

    /// The id of the brick that gave the key.
    pub fn home(self) -> Id {
        self.0 / SEQUENCES
    }

    pub fn sequence(self) -> u64 {
        self.0 % SEQUENCES
    }
}
