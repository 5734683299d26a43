//! map, savemap, done.
use super::asks::{ask, member_at, owner, place, primary_key, ready, served, settled};
use super::members::saved_twice;
use super::store::{buffer_at, Store, READY};
use super::writes::{item, remove_item};
use super::{table, Told};
use call_tests::store::model::{BUCKETS, MAX_WAITING};

pub fn map(store: &mut Store, proxy_field: u64, block: u64) -> Told {
    let proxy = owner(proxy_field, block)?;
    let (bucket, primary) = served(store, proxy, block)?;
    settled(store, bucket, primary, block)?;
    let (_, key) = item(store, proxy, block)?;
    let is_ready = store.of_bucket(bucket, READY) == 1;
    let (memory, buffer) = (store.memory(primary, bucket), buffer_at(primary));
    let room = if is_ready { table::fits(&store.words[memory..], block, store.shape.entries) } else { store.get(buffer) < MAX_WAITING as u64 };
    ask(room, 10)?;
    ask(saved_twice(store, key), 11)?;
    if is_ready {
        table::put(&mut store.words[memory..], block, key);
    } else {
        table::push(&mut store.words[buffer..], block, key);
    }
    Ok(0)
}

pub fn savemap(store: &mut Store, place_field: u64) -> Told {
    let brick = member_at(store, place(store, place_field)?)?;
    for bucket in 0..BUCKETS {
        let (from, to) = (store.memory(brick, bucket), store.disk(brick, bucket));
        table::replace(store.words, from, to);
    }
    Ok(0)
}

pub fn done(store: &mut Store, proxy_field: u64, block: u64) -> Told {
    let proxy = owner(proxy_field, block)?;
    let (bucket, primary) = served(store, proxy, block)?;
    ready(store, bucket)?;
    settled(store, bucket, primary, block)?;
    let (row, key) = item(store, proxy, block)?;
    ask(primary_key(store, primary, bucket, block) == key, 15)?;
    remove_item(store, proxy, row);
    Ok(0)
}
