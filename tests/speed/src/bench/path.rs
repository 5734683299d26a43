//! Whole writes, and reads, of many blocks, beside memcpy of the same bytes.
use super::event::Undo;
use super::fixture::{block, event, Store};
use super::samples::{medians, time};
use super::STEPS;
use call_tests::kind;
use call_tests::text::model::Event;
use std::hint::black_box;

/// So many blocks are written or read one after the other; after them the store is put back.
const BLOCKS: usize = 32;

/// Nanoseconds of one whole write of a block, ten calls: proved, peer.
pub fn writes(store: &Store, rounds: usize) -> [f64; 2] {
    let events = store.writes(BLOCKS as u64);
    let writes: Vec<&[Event]> = events.chunks(events.len() / BLOCKS).collect();
    let data = vec![0xa5; store.settings.size as usize];
    let mut bytes = store.clone().after(&events).bytes;
    let undo = Undo::new(&store.bytes, &bytes);
    let mut at = BLOCKS;
    medians(rounds, BLOCKS, |way| {
        if at == BLOCKS {
            undo.put_back(&mut bytes);
            at = 0;
        }
        at += 1;
        time(|| writes[at - 1].iter().for_each(|e| assert_eq!(STEPS[way](&mut bytes, e, &data, &[], &mut []).code, 0)))
    })
}

/// Nanoseconds of one get: proved, peer.
pub fn reads(store: &Store, rounds: usize) -> [f64; 2] {
    let size = store.settings.size as usize;
    let (zero, mut answer, mut bytes) = (vec![0; size], vec![0; size], store.bytes.clone());
    let mut at = 0;
    medians(rounds, BLOCKS, |way| {
        at = (at + 1) % BLOCKS;
        let e = event(kind::GET, 0, block(at as u64), 0);
        time(|| assert_eq!(STEPS[way](&mut bytes, &e, &[], &zero, &mut answer).code, 0))
    })
}

/// Nanoseconds that memcpy takes for a write's bytes, from the data to two cells, and for a read's, from a cell to the answer.
pub fn memcpy(size: usize, rounds: usize) -> [f64; 2] {
    let (data, mut answer, mut cells) = (vec![0xa5u8; size], vec![0u8; size], vec![0u8; 2 * size * BLOCKS]);
    let mut at = 0;
    medians(rounds, BLOCKS, |way| {
        at = (at + 1) % BLOCKS;
        let pair = &mut cells[2 * size * at..][..2 * size];
        match way {
            0 => time(|| pair.chunks_mut(size).for_each(|cell| black_box(cell).copy_from_slice(black_box(&data)))),
            _ => time(|| black_box(&mut answer[..]).copy_from_slice(black_box(&pair[..size]))),
        }
    })
}
