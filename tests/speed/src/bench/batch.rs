//! Lists of events beside copies of the same bytes; and what an event takes without the check.
use super::event::Undo;
use super::fixture::Store;
use super::lists::{byte_of, read_batches, read_together, write_batches, write_together, Batch, BLOCKS};
use super::samples::{medians, time};
use super::RUNS;
use call_tests::store::{words_of, ListEvent};
use std::arch::x86_64::{_mm_clflush, _mm_mfence};
use std::hint::black_box;

type Copies = fn(&Batch, usize, &mut [u8], &[u8], &mut [u8]);

/// From the data to one cell, for all blocks, then from there to the other: what put and copy do.
fn copy_twice(batch: &Batch, size: usize, store: &mut [u8], data: &[u8], _: &mut [u8]) {
    for (&at, &[one, _]) in batch.at.iter().zip(&batch.cells) {
        store[one..][..size].copy_from_slice(&data[at..][..size]);
    }
    batch.cells.iter().for_each(|&[one, two]| store.copy_within(one..one + size, two));
}

/// From a cell to the area: what get does.
pub fn copy_once(batch: &Batch, size: usize, store: &mut [u8], _: &[u8], area: &mut [u8]) {
    for (&at, &[cell, _]) in batch.at.iter().zip(&batch.cells) {
        area[at..][..size].copy_from_slice(&store[cell..][..size]);
    }
}

/// Whether the cells that are written or read are in the processor's caches, as those of a block in much use, or not, as the next ones of a log.
#[derive(Clone, Copy, PartialEq)]
pub enum Cells {
    Cached,
    Evicted,
}

pub fn evict(batches: &[Batch], size: usize, store: &[u8]) {
    for cell in batches.iter().flat_map(|batch| batch.cells.as_flattened()) {
        store[*cell..][..size].chunks(64).for_each(|line| unsafe { _mm_clflush(line.as_ptr()) });
    }
    unsafe { _mm_mfence() }
}

/// Nanoseconds for a block: proved, peer, and the copies alone, on the same bytes, to and from the same ones.
fn compare(store: &Store, after: &Store, batches: &[Batch], rounds: usize, cells: Cells, copies: Copies) -> [f64; 3] {
    let size = store.settings.size as usize;
    let undo = Undo::new(&store.bytes, &after.bytes);
    let (mut bytes, data, mut area) = (after.bytes.clone(), vec![0xa5; BLOCKS * size], vec![0; BLOCKS * size]);
    let lists: Vec<Vec<u64>> = batches.iter().map(|batch| words_of(&batch.events)).collect();
    let mut answers: Vec<Vec<u64>> = batches.iter().map(|batch| vec![0; 2 * batch.events.len()]).collect();
    let pass = medians(rounds, 5, |way| {
        undo.put_back(&mut bytes);
        if cells == Cells::Evicted {
            evict(batches, size, &bytes);
        }
        time(|| {
            for (i, batch) in batches.iter().enumerate() {
                match RUNS.get(way) {
                    Some(run) => assert_eq!(run(&mut bytes, &lists[i], &data, &mut area, &mut answers[i]), 0),
                    None => copies(batch, size, black_box(&mut bytes), black_box(&data), black_box(&mut area)),
                }
            }
        })
    });
    assert!(answers.iter().all(|answers| answers.iter().step_by(2).all(|&code| code == 0)));
    pass.map(|ns| ns / BLOCKS as f64)
}

/// A block's share of whole writes in batches of n.
pub fn writes(store: &Store, n: usize, rounds: usize, cells: Cells) -> [f64; 3] {
    let (batches, after) = write_batches(store, n);
    compare(store, &after, &batches, rounds, cells, copy_twice)
}

/// A block's share of reads in batches of n.
pub fn reads(store: &Store, n: usize, rounds: usize, cells: Cells) -> [f64; 3] {
    compare(store, store, &read_batches(store, n), rounds, cells, copy_once)
}

/// Nanoseconds of each kind of a write, and of get, without the check: what a list of 32 events takes more than an empty one, for each. Proved, peer.
pub fn alone(store: &Store, rounds: usize) -> Vec<(&'static str, [f64; 2])> {
    let mut groups = write_together(&mut store.clone(), 0..BLOCKS).0;
    groups.push(("get", read_together(store, 0..BLOCKS, |i| byte_of(store, i)).events));
    let mut before = store.clone();
    let mut rows = Vec::new();
    for (name, events) in groups {
        // saves again and again
        let events: Vec<ListEvent> = events.iter().copied().cycle().take(BLOCKS).collect();
        let after = taken(&before, &events);
        rows.push((name, without_check(&before, &after, &events, rounds)));
        before = after;
    }
    rows
}

/// The store after a list of events that are all accepted.
fn taken(store: &Store, events: &[ListEvent]) -> Store {
    let mut after = store.clone();
    let bytes = vec![0xa5; byte_of(store, BLOCKS)];
    let mut answers = vec![0; 2 * events.len()];
    assert_eq!(RUNS[0](&mut after.bytes, &words_of(events), &bytes, &mut bytes.clone(), &mut answers), 0);
    assert!(answers.iter().step_by(2).all(|&code| code == 0), "{events:?}");
    after
}

fn without_check(before: &Store, after: &Store, events: &[ListEvent], rounds: usize) -> [f64; 2] {
    let undo = Undo::new(&before.bytes, &after.bytes);
    let (mut bytes, data) = (after.bytes.clone(), vec![0xa5; byte_of(before, BLOCKS)]);
    let (mut area, words, mut answers) = (data.clone(), words_of(events), vec![0; 2 * events.len()]);
    let [a, b, c, d] = medians(rounds, 10, |way| {
        undo.put_back(&mut bytes);
        let count = if way < 2 { events.len() } else { 0 };
        time(|| RUNS[way % 2](&mut bytes, &words[..5 * count], &data, &mut area, &mut answers[..2 * count]))
    });
    [a - c, b - d].map(|ns| ns / events.len() as f64)
}
