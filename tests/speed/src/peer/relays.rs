//! send, deliver, drop: the bag.
use super::asks::{ask, block, member, primary_key, primary_of, ready, relay};
use super::store::{bucket_at, Store, BACKUP, SENT, TAKEN};
use super::{table, Told};
use call_tests::store::model::{AT_BAG, MAX_NUMBER, MAX_RELAYS, RELAY};

pub fn send(store: &mut Store, block_field: u64) -> Told {
    block(block_field)?;
    let (bucket, primary) = primary_of(store, block_field)?;
    ready(store, bucket)?;
    let count = store.get(AT_BAG);
    ask(count < MAX_RELAYS as u64, 10)?;
    let sent = store.of_bucket(bucket, SENT);
    ask(sent < MAX_NUMBER, 12)?;
    let key = primary_key(store, primary, bucket, block_field);
    ask(key != 0, 13)?;
    store.set(bucket_at(bucket) + SENT, sent + 1);
    let row = [store.view(), bucket as u64, sent + 1, block_field, key];
    row.into_iter().enumerate().for_each(|(i, word)| store.set(relay_at(count as usize) + i, word));
    store.set(AT_BAG, count + 1);
    Ok(0)
}

pub fn deliver(store: &mut Store, index: u64) -> Told {
    let row = relay(store, index)?;
    let [view, bucket, number, block, key] = std::array::from_fn(|i| store.get(relay_at(row) + i));
    let bucket = bucket as usize;
    let taken = view == store.view() && number > store.of_bucket(bucket, TAKEN);
    if taken {
        let backup = member(store, store.of_bucket(bucket, BACKUP))?;
        let memory = store.memory(backup, bucket);
        ask(table::fits(&store.words[memory..], block, store.shape.entries), 14)?;
        table::put(&mut store.words[memory..], block, key);
        store.set(bucket_at(bucket) + TAKEN, number);
    }
    table::remove(&mut store.words[AT_BAG..], row, RELAY);
    Ok(taken as u64)
}

pub fn drop(store: &mut Store, index: u64) -> Told {
    let row = relay(store, index)?;
    table::remove(&mut store.words[AT_BAG..], row, RELAY);
    Ok(0)
}

fn relay_at(row: usize) -> usize {
    AT_BAG + 1 + row * RELAY
}
