//! A read of as many blocks as one call takes, beside the same gets and beside copies of the same bytes.
use super::batch::{copy_once, evict, Cells};
use super::fixture::{event, Store};
use super::lists::{read_together, Batch};
use super::samples::{medians, time};
use super::{READS, RUNS, STEPS};
use call_tests::kind;
use call_tests::store::{words_of, HEAD};
use std::hint::black_box;
use std::slice::from_ref;

const BLOCKS: usize = 64;

/// Read, gets one by one and gets in a list, all three proved; the peer's read; copies.
pub const WAYS: usize = 5;

/// All that the ways are lent; each leaves a block's bytes at the same place of the area.
struct Lent {
    store: Vec<u8>,
    batch: Batch,
    blocks: Vec<u64>,
    words: Vec<u64>,
    zero: Vec<u8>,
    area: Vec<u8>,
    answers: Vec<u64>,
}

impl Lent {
    fn new(store: &Store) -> Self {
        let size = store.settings.size as usize;
        let batch = read_together(store, 0..BLOCKS, |i| HEAD + i * (HEAD + size));
        Lent {
            store: store.bytes.clone(),
            blocks: batch.events.iter().map(|e| e.b).collect(),
            words: words_of(&batch.events),
            batch,
            zero: vec![0; size],
            area: vec![0; BLOCKS * (HEAD + size)],
            answers: vec![0; 2 * BLOCKS],
        }
    }

    fn read(&mut self, way: usize) {
        let Lent { store, batch, blocks, words, zero, area, answers } = self;
        match way {
            0 => assert_eq!(READS[0](store, 0, blocks, area), 0),
            1 => blocks.iter().zip(&batch.at).for_each(|(&block, &at)| {
                assert_eq!(STEPS[0](store, &event(kind::GET, 0, block, 0), &[], zero, &mut area[at..][..zero.len()]).code, 0);
            }),
            2 => assert_eq!(RUNS[0](store, words, &[], area, answers), 0),
            3 => assert_eq!(READS[1](store, 0, blocks, area), 0),
            _ => copy_once(batch, zero.len(), black_box(store), &[], black_box(area)),
        }
    }

    /// Whether every block's bytes are those of its cell.
    fn is_read(&self) -> bool {
        let size = self.zero.len();
        self.batch.at.iter().zip(&self.batch.cells).all(|(&at, &[cell, _])| self.area[at..][..size] == self.store[cell..][..size])
    }
}

/// Nanoseconds of each way.
pub fn compare(store: &Store, rounds: usize, cells: Cells) -> [f64; WAYS] {
    let mut lent = Lent::new(store);
    medians(rounds, 5, |way| {
        lent.area.fill(0xa5);
        if cells == Cells::Evicted {
            evict(from_ref(&lent.batch), lent.zero.len(), &lent.store);
        }
        let took = time(|| lent.read(way));
        assert!(lent.is_read());
        took
    })
}
