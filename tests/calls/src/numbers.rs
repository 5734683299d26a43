//! A block's proxy and bucket, joined into one number: proved, and by division. All are called alike, with the settings and the block.
use crate::store::model::{bucket_of, proxy_of, BUCKETS};

pub type Numbers = unsafe extern "C" fn(usize, usize, usize, usize, u64) -> u64;

extern "C" {
    pub fn bench_numbers(places: usize, size: usize, entries: usize, chunks: usize, block: u64) -> u64;
}

/// Each in a half of the bits, so that a mistake in one can't hide a mistake in the other.
fn joined(proxy: u64, bucket: u64) -> u64 {
    (proxy << 32) + bucket
}

/// By divisors that the compiler knows.
pub extern "C" fn divided(_: usize, _: usize, _: usize, _: usize, block: u64) -> u64 {
    joined(proxy_of(block), bucket_of(block))
}

/// By a number of buckets that the compiler does not know. It is handed over as the entries.
pub extern "C" fn divided_at_run_time(_: usize, _: usize, buckets: usize, _: usize, block: u64) -> u64 {
    joined(proxy_of(block), block / 1024 % buckets as u64)
}

pub fn numbers(of: Numbers, block: u64) -> u64 {
    unsafe { of(4, 512, BUCKETS, 1024, block) }
}

/// One call for each block, which waits for the one before: its block hangs on that one's answer.
#[inline(never)]
pub fn chain(of: Numbers, blocks: &[u64]) -> u64 {
    blocks.iter().fold(0, |last, block| numbers(of, block ^ last))
}
