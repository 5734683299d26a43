//! A read of many blocks, and what gets one by one say that it is told.
use crate::choose::{one_of, pick};
use crate::model::{kind, Answer, Block, Call, State, PROXIES};
use crate::trial::{same, same_bytes};
use call_tests::random::Random;
use call_tests::store::{block_answers, BlockAnswer, HEAD};

/// So many blocks are taken.
pub const MOST_BLOCKS: usize = 64;

/// What the area holds before a call.
const AREA: u8 = 0x5a;

/// The call: the proved one, or one with a slip, which the same lists find.
pub type ReadCall = fn(&[u8], u64, &[u64], &mut [u8]) -> u64;

/// The answer of each block, or the number that refuses the call.
pub type Told = Result<Vec<BlockAnswer>, u64>;

#[derive(Clone, Debug)]
pub struct Read {
    pub proxy: u64,
    pub blocks: Vec<u64>,
    /// the length of the lent area
    pub room: usize,
}

/// The blocks that the primaries have in memory.
fn mapped(state: &State) -> Vec<Block> {
    let bucket = |g: usize| state.bricks.get(&state.buckets[g].pair.primary).map(|brick| &brick.copies[g].memory);
    (0..state.buckets.len()).filter_map(bucket).flat_map(|memory| memory.keys().copied()).collect()
}

/// Mostly of those, which are the proxy's.
fn block(r: &mut Random, own: &[Block], all: &[Block]) -> u64 {
    match r.below(20) {
        0 => r.number(),
        1 => r.below(1 << 51),
        2 => pick(r, all).map_or(1 << 51, |block| block.0),
        _ => pick(r, own).map_or(5, |block| block.0),
    }
}

fn count(r: &mut Random) -> u64 {
    match r.below(24) {
        0 => 0,
        1 => r.among(62, 67),
        2 | 3 => r.among(1, 64),
        _ => r.among(1, 10),
    }
}

impl Read {
    /// Of one proxy, mostly of mapped blocks and those of the list, an area that is mostly long enough.
    pub fn random(r: &mut Random, state: &State, blocks: &[Block]) -> Self {
        let all = [&mapped(state), blocks].concat();
        let proxy = match r.below(30) {
            0 => PROXIES as u64 + r.below(2),
            1 => r.number(),
            2 | 3 => r.below(PROXIES as u64),
            _ => pick(r, &all).map_or(0, |block| block.proxy() as u64),
        };
        let own: Vec<Block> = all.iter().copied().filter(|block| block.proxy() as u64 == proxy || proxy >= PROXIES as u64).collect();
        let blocks: Vec<u64> = (0..count(r)).map(|_| block(r, &own, &all)).collect();
        let needed = (blocks.len() * (HEAD + state.size())) as u64;
        let more = one_of(r, &[0, 0, 1, 100]);
        let room = match r.below(16) {
            0 => needed.saturating_sub(1),
            1 => r.below(needed + 1),
            _ => needed + r.below(more + 1),
        };
        Read { proxy, blocks, room: room as usize }
    }

    /// What it is told of a sound store with blocks of so many bytes: what each get is.
    pub fn expected(&self, size: usize, mut get: impl FnMut(&Call) -> Result<Answer, String>) -> Result<Told, String> {
        if self.blocks.len() > MOST_BLOCKS || self.room < self.blocks.len() * (HEAD + size) {
            return Ok(Err(3));
        }
        let mut answers = Vec::new();
        for &block in &self.blocks {
            let Answer { code, key, data } = get(&Call::new(kind::GET, [self.proxy, block, 0], Vec::new(), size))?;
            answers.push(BlockAnswer { code, key, bytes: data.unwrap_or(vec![0; size]) });
        }
        Ok(Ok(answers))
    }

    /// The call is told this, and writes its answers and nothing else.
    pub fn compare(&self, call: ReadCall, store: &[u8], size: usize, expected: &Told) -> Result<(), String> {
        let (old, mut area) = (store.to_vec(), vec![AREA; self.room]);
        let code = call(store, self.proxy, &self.blocks, &mut area);
        let told = if code == 0 { Ok(block_answers(&area, size, self.blocks.len())) } else { Err(code) };
        same("read", told.as_ref().err(), expected.as_ref().err())?;
        for (i, (told, expected)) in told.iter().flatten().zip(expected.iter().flatten()).enumerate() {
            same(&format!("answer {i} of a read"), told, expected)?;
        }
        same_bytes(store, &old)?;
        let end = told.map_or(0, |answers| answers.len() * (HEAD + size));
        same("a byte past the answers", area[end..].iter().find(|&&byte| byte != AREA), None)
    }
}
