//! view, fetch, ready.
use super::asks::{ask, bucket, member};
use super::pairs::pairs_of;
use super::store::{
    bucket_at, buffer_at, Store, AT_STARTED, AT_VIEW, BACKUP, BEGAN, FETCHED, LAST_BACKUP, LAST_PRIMARY, MEMBER, MOST_PLACES, PRIMARY, READY, SENT, TAKEN, UP,
};
use super::{table, Told};
use call_tests::store::model::{bucket_of, MAX_NUMBER};

pub fn view(store: &mut Store) -> Told {
    let view = store.view();
    ask(view < MAX_NUMBER, 12)?;
    let up = store.bricks().filter(|at| store.get(at + UP) == 1).count();
    let began = store.bricks().filter(|at| store.get(at + UP) == 1 && store.get(at + BEGAN) == 1).count();
    ask(up >= 2 && 2 * began as u64 > store.get(AT_STARTED), 13)?;
    store.set(AT_VIEW, view + 1);
    store.set(AT_STARTED, up as u64);
    let mut members = [0; MOST_PLACES];
    let mut count = 0;
    for at in store.bricks() {
        let up = store.get(at + UP);
        store.set(at + MEMBER, up);
        store.set(at + BEGAN, up);
        store.set(buffer_at(at), 0);
        if up == 1 {
            members[count] = store.get(at);
            count += 1;
        }
    }
    members[..count].sort_unstable();
    begin_buckets(store, &members[..count]);
    Ok(0)
}

fn begin_buckets(store: &mut Store, members: &[u64]) {
    let last = std::array::from_fn(|g| [store.of_bucket(g, LAST_PRIMARY), store.of_bucket(g, LAST_BACKUP)]);
    for (g, pair) in pairs_of(members, last).into_iter().enumerate() {
        let at = bucket_at(g);
        store.set(at + PRIMARY, pair[0]);
        store.set(at + BACKUP, pair[1]);
        for word in [READY, FETCHED, SENT, TAKEN] {
            store.set(at + word, 0);
        }
    }
}

pub fn fetch(store: &mut Store, bucket_field: u64) -> Told {
    let g = bucket(bucket_field)?;
    let primary = member(store, store.of_bucket(g, PRIMARY))?;
    ask(store.of_bucket(g, READY) == 0, 13)?;
    let last = |which| store.member(store.of_bucket(g, which));
    let source = last(LAST_PRIMARY).or_else(|| last(LAST_BACKUP)).ok_or(13u64)?;
    let from = store.memory(source, g);
    give(store, g, from, primary);
    store.set(bucket_at(g) + FETCHED, 1);
    Ok(0)
}

/// A copy for a brick's own, memory and disk.
fn give(store: &mut Store, bucket: usize, from: usize, brick: usize) {
    let (memory, disk) = (store.memory(brick, bucket), store.disk(brick, bucket));
    table::replace(store.words, from, memory);
    table::replace(store.words, from, disk);
}

pub fn ready(store: &mut Store, bucket_field: u64) -> Told {
    let g = bucket(bucket_field)?;
    let pair = [PRIMARY, BACKUP].map(|role| store.of_bucket(g, role));
    let primary = member(store, pair[0])?;
    let backup = member(store, pair[1])?;
    ask(store.of_bucket(g, FETCHED) == 1 && store.of_bucket(g, READY) == 0, 13)?;
    let from = store.memory(primary, g);
    give(store, g, from, backup);
    store.set(bucket_at(g) + LAST_PRIMARY, pair[0]);
    store.set(bucket_at(g) + LAST_BACKUP, pair[1]);
    store.set(bucket_at(g) + READY, 1);
    for at in store.bricks().filter(|&at| at != primary && at != backup) {
        if store.get(at + UP) == 1 {
            store.set(store.memory(at, g), 0);
            store.set(store.disk(at, g), 0);
        }
    }
    drain(store, primary, g);
    Ok(0)
}

/// The bucket's entries in the buffer move into memory; a new block that finds no room is dropped.
fn drain(store: &mut Store, primary: usize, bucket: usize) {
    let (buffer, memory) = (buffer_at(primary), store.memory(primary, bucket));
    let mut kept = 0;
    for i in 0..store.get(buffer) as usize {
        let (block, key) = (store.get(buffer + 1 + 2 * i), store.get(buffer + 2 + 2 * i));
        if bucket_of(block) != bucket as u64 {
            store.set(buffer + 1 + 2 * kept, block);
            store.set(buffer + 2 + 2 * kept, key);
            kept += 1;
        } else if table::fits(&store.words[memory..], block, store.shape.entries) {
            table::put(&mut store.words[memory..], block, key);
        }
    }
    store.set(buffer, kept as u64);
}
