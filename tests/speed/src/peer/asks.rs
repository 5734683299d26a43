//! Questions that several events share; a no is its number.
use super::store::{buffer_at, proxy_at, Store, BACKUP, PRIMARY, READY};
use super::table;
use super::words::read;
use call_tests::store::model::{bucket_of, proxy_of, AT_BAG, BLOCKS, BUCKETS, PROXIES};

pub fn ask(yes: bool, number: u64) -> Result<(), u64> {
    if yes { Ok(()) } else { Err(number) }
}

fn below(field: u64, limit: usize) -> Result<usize, u64> {
    ask(field < limit as u64, 3).map(|()| field as usize)
}

pub fn place(store: &Store, field: u64) -> Result<usize, u64> {
    below(field, store.shape.places)
}

pub fn proxy(field: u64) -> Result<usize, u64> {
    below(field, PROXIES)
}

pub fn bucket(field: u64) -> Result<usize, u64> {
    below(field, BUCKETS)
}

pub fn relay(store: &Store, field: u64) -> Result<usize, u64> {
    below(field, store.get(AT_BAG) as usize)
}

pub fn block(field: u64) -> Result<(), u64> {
    ask(field < BLOCKS, 3)
}

/// Proxy and block in range, and the block the proxy's.
pub fn owner(proxy_field: u64, block_field: u64) -> Result<usize, u64> {
    let proxy = proxy(proxy_field)?;
    block(block_field)?;
    ask(proxy_of(block_field) == proxy_field, 4)?;
    Ok(proxy)
}

/// The place's brick is an up member.
pub fn member_at(store: &Store, place: usize) -> Result<usize, u64> {
    store.member_at(place).ok_or(6)
}

/// The brick with this id is an up member.
pub fn member(store: &Store, id: u64) -> Result<usize, u64> {
    store.member(id).ok_or(6)
}

/// A block's bucket and its primary, an up member.
pub fn primary_of(store: &Store, block: u64) -> Result<(usize, usize), u64> {
    let bucket = bucket_of(block) as usize;
    Ok((bucket, member(store, store.of_bucket(bucket, PRIMARY))?))
}

/// The proxy knows the view, and the block's primary is an up member.
pub fn served(store: &Store, proxy: usize, block: u64) -> Result<(usize, usize), u64> {
    ask(store.get(proxy_at(proxy)) == store.view(), 5)?;
    primary_of(store, block)
}

pub fn ready(store: &Store, bucket: usize) -> Result<(), u64> {
    ask(store.of_bucket(bucket, READY) == 1, 7)
}

/// In the memory of a primary that is here.
pub fn primary_key(store: &Store, primary: usize, bucket: usize, block: u64) -> u64 {
    table::key(&store.words[store.memory(primary, bucket)..], block)
}

/// Not in the buffer and, in a ready bucket, not pending.
pub fn settled(store: &Store, bucket: usize, primary: usize, block: u64) -> Result<(), u64> {
    let waits = table::used(&store.words[buffer_at(primary)..]).iter().any(|row| read(row[0]) == block);
    ask(!waits && (store.of_bucket(bucket, READY) == 0 || !pending(store, bucket, primary, block)), 8)
}

/// Of a ready bucket whose primary is here; a lost backup gives key 0.
fn pending(store: &Store, bucket: usize, primary: usize, block: u64) -> bool {
    let key = primary_key(store, primary, bucket, block);
    let on_disk = |brick| table::key(&store.words[store.disk(brick, bucket)..], block);
    match store.brick(store.of_bucket(bucket, BACKUP)) {
        Some(backup) => key != on_disk(primary) || key != primary_key(store, backup, bucket, block) || key != on_disk(backup),
        None => key != 0 || on_disk(primary) != 0,
    }
}
