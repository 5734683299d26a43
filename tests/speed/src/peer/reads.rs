//! get, and many gets in one call.
use super::asks::{ask, owner, primary_key, ready, served, settled};
use super::members::holder;
use super::store::Store;
use super::{answer_of, Told};
use call_tests::store::model::{BLOCKS, PROXIES};

const MOST_BLOCKS: usize = 64;

/// The bytes of an answer before the block's: the code in one, the key in eight.
const HEAD: usize = 9;

pub fn get(store: &Store, proxy_field: u64, block: u64, answer: &mut [u8]) -> Told {
    ask(proxy_field < PROXIES as u64 && block < BLOCKS, 3)?;
    ask(answer.len() == 8 * store.shape.cell, 3)?;
    let proxy = owner(proxy_field, block)?;
    let (bucket, primary) = served(store, proxy, block)?;
    ready(store, bucket)?;
    settled(store, bucket, primary, block)?;
    let key = primary_key(store, primary, bucket, block);
    if key == 0 {
        answer.fill(0);
        return Ok(0);
    }
    let (brick, row) = holder(store, key).ok_or(11u64)?;
    let cell = store.cell(brick, row);
    answer.copy_from_slice(store.words[cell..cell + store.shape.cell].as_flattened());
    Ok(key)
}

/// 0, with an answer for each block; 3 for too many blocks or too few bytes.
pub fn read(store: &Store, proxy: u64, blocks: &[u64], answers: &mut [u8]) -> u64 {
    let length = HEAD + 8 * store.shape.cell;
    if blocks.len() > MOST_BLOCKS || answers.len() < blocks.len() * length {
        return 3;
    }
    for (&block, answer) in blocks.iter().zip(answers.chunks_exact_mut(length)) {
        let (head, bytes) = answer.split_at_mut(HEAD);
        let told = get(store, proxy, block, bytes);
        if told.is_err() {
            bytes.fill(0);
        }
        let [code, key] = answer_of(told);
        head[0] = code as u8;
        head[1..].copy_from_slice(&key.to_be_bytes());
    }
    0
}

/// A block of zeros. Without a way out before the end, so that the compiler takes many bytes at a time.
pub fn is_zero_block(store: &Store, zero: &[u8]) -> bool {
    zero.len() == 8 * store.shape.cell && zero.iter().fold(0, |all, b| all | b) == 0
}
