//! A move of words behind a safe function, and the same by the standard library.
mod calls {
    extern "C" {
        pub fn bench_move(bytes: *mut u8, length: usize, from: usize, to: usize, n: usize) -> u64;
    }
}

pub fn move_words(bytes: &mut [u8], from: usize, to: usize, n: usize) -> u64 {
    unsafe { calls::bench_move(bytes.as_mut_ptr(), bytes.len(), from, to, n) }
}

/// memmove, where both runs of words are within the bytes.
pub fn memmove(bytes: &mut [u8], from: usize, to: usize, n: usize) -> u64 {
    if (bytes.len() as u128) < 8 * (from.max(to) as u128 + n as u128) {
        return 1;
    }
    bytes.copy_within(8 * from..8 * (from + n), 8 * to);
    0
}
