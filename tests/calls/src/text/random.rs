//! Random events and the ways to damage a line.
use super::model::Event;
use crate::kind::{self, KINDS};
use crate::random::Random;

impl Random {
    /// Of every width, and often next to a power of ten or of two.
    pub fn number(&mut self) -> u64 {
        let near = self.below(3).wrapping_sub(1);
        match self.below(4) {
            0 => self.below(20),
            1 => 10u64.pow(self.below(20) as u32).wrapping_add(near),
            2 => 1u64.rotate_left(self.below(64) as u32).wrapping_add(near),
            _ => self.next() >> self.below(64),
        }
    }

    /// An event of a kind, the numbers that it does not have 0, and its data.
    pub fn event(&mut self, kind: u64, size: usize) -> (Event, Vec<u8>) {
        let row = kind::of(kind);
        let mut numbers = [0; 3];
        numbers[..row.fields.len()].iter_mut().for_each(|n| *n = self.number());
        let data = if row.data { self.bytes(size) } else { Vec::new() };
        (Event { code: 0, kind, a: numbers[0], b: numbers[1], c: numbers[2] }, data)
    }

    pub fn kind(&mut self) -> u64 {
        1 + self.below(KINDS.len() as u64)
    }

    /// A byte that is often one that lines are made of, or next to one.
    fn byte(&mut self) -> u8 {
        const OFTEN: &[u8] = b",,\n\r 00199/:abfg`AFG+-\0putviewxz";
        match self.below(3) {
            0 => self.next() as u8,
            _ => OFTEN[self.below(OFTEN.len() as u64) as usize],
        }
    }

    /// The line with the byte at a place changed, cut out, doubled, or another one inserted before it; or the line cut off there.
    pub fn damage(&mut self, line: &[u8], place: usize, way: usize) -> Vec<u8> {
        let mut damaged = line.to_vec();
        match way {
            0 => damaged[place] = self.byte(),
            1 => damaged[place] ^= 1 << self.below(8),
            2 => drop(damaged.remove(place)),
            3 => damaged.insert(place, line[place]),
            4 => damaged.insert(place, self.byte()),
            _ => damaged.truncate(place),
        }
        damaged
    }
}

/// The ways to damage a line at a place.
pub const WAYS: usize = 6;
