//! Events of any kind, their fields mostly in range: for a store whose places and relays are told.
use crate::kind::{self, Field};
use crate::random::Random;

/// The kinds of writes and reads, and those that bring bricks back.
const CALM: [u64; 16] = [
    kind::PUT, kind::COPY, kind::SAVELOG, kind::SAVELOG, kind::MAP, kind::SEND, kind::DELIVER, kind::SAVEMAP, kind::SAVEMAP, kind::DONE, kind::GET, kind::GET,
    kind::LEARN, kind::RISE, kind::FETCH, kind::READY,
];

impl Random {
    /// Any number now and then; else any kind, or where it is calm mostly those of writes and reads.
    pub fn wild_kind(&mut self, calm: bool) -> u64 {
        match self.below(50) {
            0 => self.number(),
            1..=47 if calm => CALM[self.below(CALM.len() as u64) as usize],
            _ => self.kind(),
        }
    }

    /// Of few buckets, so that copies fill.
    pub fn some_block(&mut self) -> u64 {
        self.below(4) << 49 | self.below(2) << 10 | self.below(2)
    }

    fn wild_field(&mut self, field: Option<Field>, places: u64, relays: u64) -> u64 {
        if self.one_in(20) {
            return self.number();
        }
        match field {
            Some(Field::Block) => self.some_block(),
            Some(Field::Key) => (self.among(1, places + 1) << 56) + self.below(3) + 1024 * self.one_in(8) as u64,
            Some(Field::Index) => self.below(relays + 1),
            Some(Field::Proxy | Field::Bucket) => self.below(4),
            Some(Field::Place) | None => self.below(places),
        }
    }

    /// Three numbers for a kind, if it is one; the proxy mostly the block's.
    pub fn wild_fields(&mut self, kind: u64, places: u64, relays: u64) -> [u64; 3] {
        let kind = kind::find(kind);
        let mut fields = [0, 1, 2].map(|i| self.wild_field(kind.and_then(|k| k.fields.get(i).copied()), places, relays));
        let at = |field| kind.and_then(|k| k.position(field));
        if let (Some(proxy), Some(block)) = (at(Field::Proxy), at(Field::Block)) {
            if !self.one_in(10) {
                fields[proxy] = fields[block] >> 49;
            }
        }
        fields
    }
}
