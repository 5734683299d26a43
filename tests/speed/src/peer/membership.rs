//! learn, reset, crash, lose, rise, join.
use super::asks::{ask, place, proxy};
use super::store::{buffer_at, proxy_at, Store, AT_GIVEN, BEGAN, CEILING, MEMBER, NEXT, UP};
use super::{log, table, Told};
use call_tests::store::model::{BUCKETS, MAX_ID};

pub fn learn(store: &mut Store, proxy_field: u64) -> Told {
    let at = proxy_at(proxy(proxy_field)?);
    store.set(at, store.view());
    Ok(0)
}

pub fn reset(store: &mut Store, proxy_field: u64) -> Told {
    let at = proxy_at(proxy(proxy_field)?);
    store.set(at, 0);
    store.set(at + 1, 0);
    Ok(0)
}

/// Not inlined: the marks take much of the stack, which every other event would have to touch too.
#[inline(never)]
pub fn crash(store: &mut Store, place_field: u64) -> Told {
    let place = place(store, place_field)?;
    let brick = store.shape.at(place);
    ask(store.ids[place] != 0 && store.get(brick + UP) == 1, 13)?;
    store.set(brick + UP, 0);
    store.set(brick + MEMBER, 0);
    store.set(brick + NEXT, store.get(brick + CEILING));
    store.set(buffer_at(brick), 0);
    for bucket in 0..BUCKETS {
        let (from, to) = (store.disk(brick, bucket), store.memory(brick, bucket));
        table::replace(store.words, from, to);
    }
    let shape = store.shape;
    let log = store.log_mut(brick);
    log::keep(log, &shape, &mut log::Marks::saved(log));
    Ok(0)
}

pub fn lose(store: &mut Store, place_field: u64) -> Told {
    let place = place(store, place_field)?;
    ask(store.ids[place] != 0, 13)?;
    store.set_id(place, 0);
    Ok(0)
}

pub fn rise(store: &mut Store, place_field: u64) -> Told {
    let place = place(store, place_field)?;
    let brick = store.shape.at(place);
    ask(store.ids[place] != 0 && store.get(brick + UP) == 0, 13)?;
    store.set(brick + UP, 1);
    Ok(0)
}

pub fn join(store: &mut Store, place_field: u64) -> Told {
    let place = place(store, place_field)?;
    let given = store.get(AT_GIVEN);
    ask(given < MAX_ID, 12)?;
    ask(store.ids[place] == 0, 13)?;
    let brick = store.shape.at(place);
    store.set(AT_GIVEN, given + 1);
    store.set_id(place, given + 1);
    store.set(brick + UP, 1);
    for word in [MEMBER, BEGAN, NEXT, CEILING] {
        store.set(brick + word, 0);
    }
    store.set(buffer_at(brick), 0);
    for bucket in 0..BUCKETS {
        store.set(store.memory(brick, bucket), 0);
        store.set(store.disk(brick, bucket), 0);
    }
    store.set(brick + store.shape.log, 0);
    Ok(0)
}
