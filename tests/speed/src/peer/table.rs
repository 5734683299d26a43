//! Tables: a count, then rows. Those of block and key are sorted by block, but for an append buffer.
use super::words::{get, read, rows, set, Row, Word};

/// The rows of two words that are in use.
pub fn used(table: &[Word]) -> &[Row] {
    let count = get(table, 0) as usize;
    rows(&table[1..1 + 2 * count])
}

/// The row with the block, or where it would be.
pub fn find(table: &[Word], block: u64) -> Result<usize, usize> {
    used(table).binary_search_by_key(&block, |row| read(row[0]))
}

/// 0 where the block has none.
pub fn key(table: &[Word], block: u64) -> u64 {
    find(table, block).map_or(0, |i| read(used(table)[i][1]))
}

/// Whether the block has a row or there is room for one.
pub fn fits(table: &[Word], block: u64, most: usize) -> bool {
    get(table, 0) < most as u64 || find(table, block).is_ok()
}

/// A row more, before row i.
pub fn insert(table: &mut [Word], i: usize, block: u64, key: u64) {
    let count = get(table, 0) as usize;
    table.copy_within(1 + 2 * i..1 + 2 * count, 3 + 2 * i);
    set(table, 1 + 2 * i, block);
    set(table, 2 + 2 * i, key);
    set(table, 0, count as u64 + 1);
}

/// At the end.
pub fn push(table: &mut [Word], block: u64, key: u64) {
    insert(table, get(table, 0) as usize, block, key);
}

/// The block's key, in a row of its own if it has none; it fits.
pub fn put(table: &mut [Word], block: u64, key: u64) {
    match find(table, block) {
        Ok(i) => set(table, 2 + 2 * i, key),
        Err(i) => insert(table, i, block, key),
    }
}

/// Takes row i, of so many words, out; the words past the rows stay.
pub fn remove(table: &mut [Word], i: usize, width: usize) {
    let count = get(table, 0) as usize;
    table.copy_within(1 + width * (i + 1)..1 + width * count, 1 + width * i);
    set(table, 0, count as u64 - 1);
}

/// One table's rows for another's, both in these words.
pub fn replace(words: &mut [Word], from: usize, to: usize) {
    let count = get(words, from) as usize;
    words.copy_within(from..from + 1 + 2 * count, to);
}
