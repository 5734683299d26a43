//! Events of any kind, their fields mostly in range and mostly of what the state holds.
use crate::choose::{one_of, pick};
use crate::model::{kind, Block, Call, Key, State, BUCKETS, PROXIES};
use call_tests::kind::Field;
use call_tests::random::Random;

/// A few blocks in few buckets, so that copies fill; of one proxy or of all.
pub fn some_blocks(r: &mut Random) -> Vec<Block> {
    let (proxies, buckets, low) = (r.among(1, 4), one_of(r, &[1, 1, 2, 3, 16]), r.among(1, 4));
    let (shift, count) = (r.below(4), r.among(2, 14));
    (0..count).map(|_| block(r.below(proxies), (r.below(buckets) + shift) % 16, r.below(low) + (r.below(2) << 14))).collect()
}

/// A block of a proxy and a bucket; the bits of the bucket in `rest` are not used.
pub fn block(proxy: u64, bucket: u64, rest: u64) -> Block {
    let low = rest & 1023 | rest >> 14 << 14;
    Block(proxy << 49 | bucket << 10 | low & ((1 << 49) - 1))
}

/// A key that stands somewhere, or one near.
fn key(r: &mut Random, state: &State) -> Key {
    let items = state.proxies.iter().flat_map(|p| p.items.values().copied());
    let logs = state.bricks.values().flat_map(|b| b.log.iter().map(|c| c.key));
    let keys: Vec<Key> = items.chain(logs).collect();
    match pick(r, &keys) {
        Some(key) if !r.one_in(6) => key,
        Some(key) => Key(key.0.wrapping_add(r.below(3)).wrapping_sub(1)),
        None => Key::new(r.among(1, state.settings.places), r.below(3)),
    }
}

fn number_of(r: &mut Random, end: u64) -> u64 {
    match r.below(60) {
        0 => end,
        1 => r.number(),
        _ => r.below(end.max(1)),
    }
}

fn any_block(r: &mut Random, blocks: &[Block]) -> u64 {
    match r.below(40) {
        0 => r.number(),
        1 => r.below(1 << 51),
        2 => block(r.below(4), r.below(16), r.below(4)).0,
        _ => pick(r, blocks).map_or(0, |b| b.0),
    }
}

/// Any number is a kind's now and then.
fn any_kind(r: &mut Random) -> u64 {
    const OFTEN: [u64; 10] = [kind::PUT, kind::COPY, kind::SAVELOG, kind::MAP, kind::SEND, kind::DELIVER, kind::SAVEMAP, kind::DONE, kind::GET, kind::LEARN];
    match r.below(100) {
        0 => r.number(),
        1..=39 => one_of(r, &OFTEN),
        _ => r.kind(),
    }
}

/// The length of an area that the kind looks at; one that it does not look at has any.
fn length(r: &mut Random, size: usize, looked_at: bool) -> usize {
    match r.below(50) {
        0 => r.below(2 * size as u64 + 2) as usize,
        _ if looked_at => size,
        _ => 0,
    }
}

/// Of a bucket that has a block, or of any.
fn bucket(r: &mut Random, blocks: &[Block]) -> u64 {
    if r.one_in(2) {
        pick(r, blocks).map_or(0, |b| b.bucket() as u64)
    } else {
        number_of(r, BUCKETS as u64)
    }
}

/// Three numbers for a kind, if it is one; where it has a proxy and a block, the proxy is mostly the block's.
fn numbers(r: &mut Random, state: &State, blocks: &[Block], kind: u64) -> [u64; 3] {
    let fields = kind::find(kind).map_or(&[][..], |kind| kind.fields);
    let block = any_block(r, blocks);
    let is_owned = fields.contains(&Field::Block) && !r.one_in(20);
    [0, 1, 2].map(|i| match fields.get(i) {
        Some(Field::Proxy) if is_owned => block >> 49,
        Some(Field::Proxy) => number_of(r, PROXIES as u64),
        Some(Field::Place) => number_of(r, state.settings.places),
        Some(Field::Block) => block,
        Some(Field::Key) if r.one_in(40) => r.number(),
        Some(Field::Key) => key(r, state).0,
        Some(Field::Index) => number_of(r, state.bag.len() as u64),
        Some(Field::Bucket) => bucket(r, blocks),
        None => r.next(),
    })
}

pub fn wild(r: &mut Random, state: &State, blocks: &[Block]) -> Call {
    let (kind, size) = (any_kind(r), state.size());
    let [a, b, c] = numbers(r, state, blocks, kind);
    let data = length(r, size, kind == kind::PUT);
    let mut zero = vec![0; length(r, size, kind == kind::GET)];
    if !zero.is_empty() && r.one_in(100) {
        let at = r.below(zero.len() as u64) as usize;
        zero[at] = 1 << r.below(8);
    }
    let room = length(r, size, kind == kind::GET);
    Call { kind, a, b, c, data: r.bytes(data), zero, room }
}
