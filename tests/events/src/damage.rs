//! Ways to damage a store's bytes.
use crate::choose::one_of;
use crate::encode::encode;
use crate::layout;
use crate::model::{Settings, State, BUCKETS};
use call_tests::random::Random;
use call_tests::store::model::{get, put};

#[derive(Clone, Debug, PartialEq, Eq)]
pub enum Damage {
    Byte {
        at: usize,
        mask: u8,
    },
    Word {
        at: usize,
        value: u64,
    },
    /// a word moved by a little, which often stays in its range
    Shift {
        at: usize,
        by: u64,
    },
    /// a run of words and the next one swapped
    Swap {
        at: usize,
        words: usize,
    },
    /// a run of words written over the next one
    Repeat {
        at: usize,
        words: usize,
    },
    Cut(usize),
    Longer(usize),
}

/// A word: every part of a store has its share of the damage, however small it is.
fn word(r: &mut Random, s: Settings) -> usize {
    let mut within = |begin: usize, words: usize| begin + r.below(words as u64) as usize;
    let place = within(0, s.places as usize) * layout::place(s) + layout::BEFORE_PLACES;
    let buckets = BUCKETS * layout::BUCKET;
    match within(0, 8) {
        0 => within(0, layout::HEADER),
        1 => within(layout::HEADER, buckets),
        2 => within(layout::HEADER + buckets, layout::BEFORE_PLACES - layout::HEADER - buckets),
        3 => within(place, 8),
        4 => within(place + layout::BEFORE_COPIES, layout::copies(s)),
        5 => within(place + layout::BEFORE_COPIES + layout::copies(s), layout::rows_of_log(s)),
        6 => within(place, layout::place(s)),
        _ => within(0, layout::words(s)),
    }
}

/// Often a small one, or one at the end of a range.
fn value(r: &mut Random) -> u64 {
    const ENDS: [u64; 8] = [8, 32, 64, 255, 1 << 32, 1 << 49, 1 << 51, 1 << 56];
    match r.below(3) {
        0 => r.below(4),
        1 => (one_of(r, &ENDS) + r.below(3)).wrapping_sub(1),
        _ => r.number(),
    }
}

/// A word that is in use and not 0, from a random one on.
fn used_word(r: &mut Random, state: &State) -> usize {
    let mut image = vec![0; layout::length(state.settings)];
    encode(state, &mut image);
    let words = image.len() / 8;
    let from = r.below(words as u64) as usize;
    (from..words).find(|&at| get(&image, at) != 0).unwrap_or(0)
}

impl Damage {
    pub fn random(r: &mut Random, state: &State) -> Self {
        let (bytes, words) = (layout::length(state.settings), layout::words(state.settings));
        let at = if r.one_in(2) { used_word(r, state) } else { word(r, state.settings) };
        let row = one_of(r, &[1, 2, 2, 5]);
        let first = at.min(words - 2 * row);
        match r.below(16) {
            0..=2 => Damage::Byte { at: 8 * at + r.below(8) as usize, mask: 1 << r.below(8) },
            3..=6 => Damage::Word { at, value: value(r) },
            7..=9 => Damage::Shift { at, by: one_of(r, &[1, 2, u64::MAX]) },
            10..=11 => Damage::Swap { at: first, words: row },
            12..=13 => Damage::Repeat { at: first, words: row },
            14 => Damage::Cut(r.below(bytes as u64) as usize),
            _ => Damage::Longer(r.among(1, 64) as usize),
        }
    }

    pub fn apply(&self, store: &mut Vec<u8>) {
        match *self {
            Damage::Byte { at, mask } => store[at] ^= mask,
            Damage::Word { at, value } => put(store, at, value),
            Damage::Shift { at, by } => {
                let old = get(store, at);
                put(store, at, old.wrapping_add(by));
            }
            Damage::Swap { at, words } => (8 * at..8 * (at + words)).for_each(|i| store.swap(i, i + 8 * words)),
            Damage::Repeat { at, words } => store.copy_within(8 * at..8 * (at + words), 8 * (at + words)),
            Damage::Cut(length) => store.truncate(length),
            Damage::Longer(by) => store.resize(store.len() + by, 0),
        }
    }
}
