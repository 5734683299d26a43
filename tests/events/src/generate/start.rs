//! Where lists start: settings, and sound stores that are edited or made up.
use super::fields::block;
use super::{random, Care, Generator, Profile};
use crate::choose::{one_of, pick};
use crate::encode::encode;
use crate::layout::length;
use crate::model::*;
use call_tests::random::Random;
use call_tests::store::random::sound_store;

/// Mostly small, so that room runs out.
pub fn settings(r: &mut Random) -> Settings {
    match r.below(200) {
        0 => largest(r),
        1..=5 => Settings::new(r.among(3, 8), 8 * r.among(1, 64), r.among(2, 64), r.among(4, 200)),
        6..=45 => Settings::new(r.among(3, 8), 8 * r.among(1, 4), r.among(2, 12), r.among(20, 60)),
        _ => Settings::new(r.among(3, 6), 8 * r.among(1, 2), r.among(2, 5), r.among(4, 20)),
    }
}

/// One setting at its limit.
fn largest(r: &mut Random) -> Settings {
    match r.below(3) {
        0 => Settings::new(8, 8192, 2, 4),
        1 => Settings::new(3, 8, 1024, 4),
        _ => Settings::new(3, 8, 2, 65_536),
    }
}

/// A sound store that no list need lead to: a used one with some numbers near their ends or edited, or a random one.
pub fn edited(r: &mut Random, s: Settings) -> Vec<u8> {
    if r.one_in(4) {
        let percent = r.below(101);
        return sound_store(r, s, percent);
    }
    let mut state = used(r, s);
    for _ in 0..r.among(1, 8) {
        edit(r, &mut state);
    }
    assert!(state.is_sound(), "{state:?}");
    let mut store = r.bytes(length(s));
    encode(&state, &mut store);
    store
}

/// A state after a short list of events.
fn used(r: &mut Random, s: Settings) -> State {
    let mut state = State::formatted(s).expect("settings in limits");
    let care = one_of(r, &[Care::None, Care::Whole]);
    let profile = Profile { wild: 5, skipped: 5, care, plan: random, probes: 0 };
    let mut generator = Generator::new(r, profile);
    for _ in 0..r.below(120) {
        let call = generator.call(r, &state);
        step(&mut state, &call);
    }
    state
}

fn edit(r: &mut Random, state: &mut State) {
    match r.below(12) {
        0 => late_view(r, state),
        1 => late_orders(r, state),
        2 | 3 => late_sequences(r, state),
        4 => state.given = state.given.max(LAST_ID - r.below(4)),
        5 => full_backup(r, state),
        6 => many_relays(r, state),
        7 => turned_flags(r, state),
        8 => other_pairs(r, state),
        9 => other_bytes(r, state),
        10 => more_holders(r, state),
        _ => many_waiting(r, state),
    }
}

fn late_view(r: &mut Random, state: &mut State) {
    let old = state.view;
    state.view = View(LAST_NUMBER - r.below(4));
    for proxy in &mut state.proxies {
        proxy.known = if r.one_in(4) { View(r.below(LAST_NUMBER + 1)) } else { state.view };
    }
    state.bag.iter_mut().filter(|relay| relay.view == old).for_each(|relay| relay.view = state.view);
}

fn late_orders(r: &mut Random, state: &mut State) {
    for bucket in &mut state.buckets {
        bucket.sent = LAST_NUMBER - one_of(r, &[0, 0, 1, 2]);
        bucket.taken = LAST_NUMBER - r.below(6);
    }
}

fn late_sequences(r: &mut Random, state: &mut State) {
    for brick in state.bricks.values_mut() {
        brick.ceiling = SEQUENCES - one_of(r, &[0, 1, 1023, 1024, 1025, 2048]);
        brick.next = brick.ceiling - r.below(4);
    }
}

/// A key that stands in the state already, if there is one.
fn some_key(r: &mut Random, state: &State) -> Option<Key> {
    let keys: Vec<Key> = state.bricks.values().flat_map(|b| b.log.iter().map(|c| c.key)).collect();
    pick(r, &keys)
}

/// Other blocks than the primary's in the backups' memory.
fn full_backup(r: &mut Random, state: &mut State) {
    let Some(key) = some_key(r, state) else { return };
    let most = state.entries();
    for bucket in 0..BUCKETS {
        let backup = state.buckets[bucket].pair.backup;
        if state.member(backup).is_none() || r.one_in(3) {
            continue;
        }
        let memory = &mut state.copy_mut(backup, bucket).memory;
        let others = (0..most as u64).map(|i| block(i % 4, bucket as u64, 900 + i));
        memory.extend(others.take(most - memory.len()).map(|block| (block, key)));
    }
}

/// Other bytes under one key at several bricks, which no list leads to: it shows whose are read.
fn other_bytes(r: &mut Random, state: &mut State) {
    let size = state.size();
    let chunks = state.bricks.values_mut().flat_map(|b| &mut b.log);
    chunks.for_each(|chunk| chunk.data = r.bytes(size));
}

/// A chunk at bricks that had it not, with bytes of its own.
fn more_holders(r: &mut Random, state: &mut State) {
    let (most, size) = (state.chunks(), state.size());
    let keys: Vec<Key> = state.bricks.values().flat_map(|b| b.log.iter().map(|c| c.key)).collect();
    for key in keys {
        for brick in state.bricks.values_mut() {
            if brick.log.len() < most && brick.chunk(key).is_none() && !r.one_in(3) {
                brick.log.push(Chunk { key, saved: r.one_in(2), data: r.bytes(size) });
            }
        }
    }
}

/// Relays doubled and renumbered, of this view and others, until the bag is full or nearly so.
fn many_relays(r: &mut Random, state: &mut State) {
    let Some(key) = some_key(r, state) else { return };
    let first = block(r.below(4), r.below(16), r.below(4));
    let mut relays = state.bag.clone();
    relays.push(Relay { view: state.view, bucket: first.bucket(), order: 1, block: first, key });
    let most = MOST_RELAYS - one_of(r, &[0, 0, 0, 1, 2]);
    while state.bag.len() < most {
        let mut relay = pick(r, &relays).expect("at least one");
        if r.one_in(4) {
            relay.order = r.below(LAST_NUMBER + 1);
        }
        if r.one_in(8) {
            relay.view = View(r.below(LAST_NUMBER + 1));
        }
        state.bag.push(relay);
    }
}

fn turned_flags(r: &mut Random, state: &mut State) {
    for bucket in &mut state.buckets {
        bucket.ready ^= r.one_in(4);
        bucket.fetched ^= r.one_in(3);
    }
    for brick in state.bricks.values_mut().filter(|b| b.up) {
        brick.member ^= r.one_in(5);
        brick.began ^= r.one_in(4);
    }
    state.started = r.below(state.settings.places + 1);
}

/// Any ids given: bricks that are gone too.
fn other_pairs(r: &mut Random, state: &mut State) {
    let given = state.given;
    let mut pair = || {
        let primary = r.among(1, given);
        Pair { primary, backup: primary % given + 1 }
    };
    state.buckets.iter_mut().for_each(|b| b.last_ready = pair());
    if r.one_in(2) {
        let buckets = state.buckets.iter_mut().filter(|_| !r.one_in(3));
        buckets.for_each(|b| std::mem::swap(&mut b.pair.primary, &mut b.pair.backup));
    }
}

/// Buffers nearly full, of any buckets, a block twice too; and buckets for whose blocks a buffer is there.
fn many_waiting(r: &mut Random, state: &mut State) {
    let Some(key) = some_key(r, state) else { return };
    state.buckets.iter_mut().filter(|_| r.one_in(2)).for_each(|b| b.ready = false);
    for brick in state.bricks.values_mut().filter(|b| b.up) {
        let count = r.among(28, MOST_WAITING as u64) as usize;
        while brick.buffer.len() < count {
            brick.buffer.push((block(r.below(4), r.below(16), r.below(4)), key));
        }
    }
}
