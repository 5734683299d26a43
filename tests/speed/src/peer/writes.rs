//! put, copy, savelog, abandon.
use super::asks::{ask, member, member_at, owner, place};
use super::members::nearest;
use super::store::{proxy_at, Store, CEILING, NEXT};
use super::words::read;
use super::{log, table, Told};
use call_tests::store::model::{MAX_ID, MAX_ITEMS, SEQUENCES};

/// By so many a put raises the ceiling.
const AHEAD: u64 = 1024;

pub fn put(store: &mut Store, proxy_field: u64, place_field: u64, block: u64, data: &[u8]) -> Told {
    let place = place(store, place_field)?;
    ask(data.len() == 8 * store.shape.cell, 3)?;
    let proxy = owner(proxy_field, block)?;
    let brick = member_at(store, place)?;
    let items = proxy_at(proxy) + 1;
    let Err(row) = table::find(&store.words[items..], block) else { return Err(9) };
    ask(store.get(items) < MAX_ITEMS as u64 && log::count(store.log(brick)) < store.shape.chunks, 10)?;
    let (next, mut ceiling) = (store.get(brick + NEXT), store.get(brick + CEILING));
    if next == ceiling {
        ceiling += AHEAD;
        ask(ceiling <= SEQUENCES, 12)?;
    }
    store.set(brick + NEXT, next + 1);
    store.set(brick + CEILING, ceiling);
    let key = store.ids[place] << 56 | next;
    let (Ok(position) | Err(position)) = log::find(store.log(brick), &store.shape, key);
    let cell = append(store, brick, position, key, 0);
    store.words[cell..cell + data.len() / 8].as_flattened_mut().copy_from_slice(data);
    table::insert(&mut store.words[items..], row, block, key);
    Ok(key)
}

/// A row for a key that the log does not hold, at the position that a search for it gave; answers where its cell begins.
pub fn append(store: &mut Store, brick: usize, position: usize, key: u64, saved: u64) -> usize {
    let shape = store.shape;
    let row = log::append(store.log_mut(brick), &shape, position, key, saved);
    store.cell(brick, row)
}

pub fn copy(store: &mut Store, key: u64) -> Told {
    let home_id = key >> 56;
    ask((1..=MAX_ID).contains(&home_id), 3)?;
    let home = member(store, home_id)?;
    let target = nearest(store, home_id, 1).and_then(|(_, brick)| Some((brick, log::find(store.log(brick), &store.shape, key).err()?)));
    ask(target.is_none_or(|(brick, _)| log::count(store.log(brick)) < store.shape.chunks), 10)?;
    let row = log::find(store.log(home), &store.shape, key).map_err(|_| 11u64)?;
    if let Some((brick, position)) = target {
        let (from, to) = (store.cell(home, row), append(store, brick, position, key, 0));
        store.words.copy_within(from..from + store.shape.cell, to);
    }
    Ok(0)
}

pub fn savelog(store: &mut Store, place_field: u64) -> Told {
    let brick = member_at(store, place(store, place_field)?)?;
    log::save_all(store.log_mut(brick));
    Ok(0)
}

pub fn abandon(store: &mut Store, proxy_field: u64, block: u64) -> Told {
    let proxy = owner(proxy_field, block)?;
    let (row, _) = item(store, proxy, block)?;
    remove_item(store, proxy, row);
    Ok(0)
}

/// The block's item: its row and its key.
pub fn item(store: &Store, proxy: usize, block: u64) -> Result<(usize, u64), u64> {
    let items = &store.words[proxy_at(proxy) + 1..];
    let row = table::find(items, block).map_err(|_| 9u64)?;
    Ok((row, read(table::used(items)[row][1])))
}

pub fn remove_item(store: &mut Store, proxy: usize, row: usize) {
    table::remove(&mut store.words[proxy_at(proxy) + 1..], row, 2);
}
