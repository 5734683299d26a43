//! Words of a store: 64 bits, the least byte first, at any address.

pub type Word = [u8; 8];

/// Two words: block and key, or key and saved.
pub type Row = [Word; 2];

pub fn read(word: Word) -> u64 {
    u64::from_le_bytes(word)
}

pub fn get(words: &[Word], i: usize) -> u64 {
    read(words[i])
}

pub fn set(words: &mut [Word], i: usize, value: u64) {
    words[i] = value.to_le_bytes();
}

/// The words as rows of two.
pub fn rows(words: &[Word]) -> &[Row] {
    words.as_chunks().0
}

/// One memcmp.
pub fn same(a: &[Word], b: &[Word]) -> bool {
    a.as_flattened() == b.as_flattened()
}
