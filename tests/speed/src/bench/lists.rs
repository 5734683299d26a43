//! Whole writes, and reads, of several blocks as lists of events.
use super::fixture::{block, event, Store};
use call_tests::kind;
use call_tests::store::ListEvent;
use call_tests::text::model::Event;
use std::ops::Range;

/// So many blocks are written or read in all, the first ones of the store, in as many batches as it takes; then the store is put back.
pub const BLOCKS: usize = 32;

/// Whole writes of several blocks, kind by kind: which events of one block's write they are.
const KINDS: [(&str, &[usize]); 8] =
    [("put", &[0]), ("copy", &[1]), ("savelog", &[2, 3]), ("map", &[4]), ("send", &[5]), ("deliver", &[6]), ("savemap", &[7, 8]), ("done", &[9])];

/// The events of one kind, for all blocks; a save once for each place.
pub type Group = (&'static str, Vec<ListEvent>);

/// A list of events, and where the bytes of its blocks lie: with the caller, and in the store.
pub struct Batch {
    pub events: Vec<ListEvent>,
    pub at: Vec<usize>,
    pub cells: Vec<[usize; 2]>,
}

fn listed(e: Event, at: usize) -> ListEvent {
    ListEvent { kind: e.kind, a: e.a, b: e.b, c: e.c, at: at as u64 }
}

/// Where the data of a block begins, or what is read of it.
pub fn byte_of(store: &Store, i: usize) -> usize {
    i * store.settings.size as usize
}

/// The whole writes of some blocks together, kind by kind, all of which the store takes; and the two cells of each block.
pub fn write_together(store: &mut Store, blocks: Range<usize>) -> (Vec<Group>, Vec<[usize; 2]>) {
    let (mut writes, mut cells) = (Vec::new(), Vec::new());
    for i in blocks.clone() {
        let write = store.write(block(i as u64));
        cells.push([store.next_cell(write[0].b), 0]);
        store.accept(write[0]);
        writes.push(write);
    }
    for (write, cells) in writes.iter().zip(&mut cells) {
        cells[1] = store.next_cell(write[3].a);
        store.accept(write[1]);
    }
    let groups = KINDS.map(|(name, columns)| {
        let events = columns.iter().flat_map(|&c| writes.iter().zip(blocks.clone()).map(move |(write, i)| (write[c], i)));
        let mut events: Vec<ListEvent> = events.map(|(e, i)| listed(e, if e.kind == kind::PUT { byte_of(store, i) } else { 0 })).collect();
        if columns.len() > 1 {
            events.sort_by_key(|e| e.a);
            events.dedup();
        }
        (name, events)
    });
    groups[2..].iter().flat_map(|(_, events)| events).for_each(|e| store.accept(event(e.kind, e.a, e.b, e.c)));
    (groups.into(), cells)
}

/// All blocks, so many in each batch; and the store after them.
pub fn write_batches(store: &Store, n: usize) -> (Vec<Batch>, Store) {
    let mut after = store.clone();
    let mut batches = Vec::new();
    for from in (0..BLOCKS).step_by(n) {
        let (groups, cells) = write_together(&mut after, from..from + n);
        let events = groups.into_iter().flat_map(|(_, events)| events).collect();
        batches.push(Batch { events, at: (from..from + n).map(|i| byte_of(store, i)).collect(), cells });
    }
    (batches, after)
}

/// The gets of some blocks; where each block goes.
pub fn read_together(store: &Store, blocks: Range<usize>, at: impl Fn(usize) -> usize) -> Batch {
    Batch {
        events: blocks.clone().map(|i| listed(event(kind::GET, 0, block(i as u64), 0), at(i))).collect(),
        at: blocks.clone().map(at).collect(),
        cells: blocks.map(|i| [store.cell_of(block(i as u64)); 2]).collect(),
    }
}

pub fn read_batches(store: &Store, n: usize) -> Vec<Batch> {
    (0..BLOCKS).step_by(n).map(|from| read_together(store, from..from + n, |i| byte_of(store, i))).collect()
}
