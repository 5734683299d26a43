//! A chunk log: a count, rows of key and saved, positions that list the rows by ascending key, cells.
use super::store::Shape;
use super::words::{get, read, rows, set, Row, Word};

const MOST_CHUNKS: usize = 65_536;

pub fn count(log: &[Word]) -> usize {
    get(log, 0) as usize
}

fn used(log: &[Word]) -> &[Row] {
    rows(&log[1..1 + 2 * count(log)])
}

/// The row with the key, or the position that it would have.
pub fn find(log: &[Word], shape: &Shape, key: u64) -> Result<usize, usize> {
    let (rows, positions) = (used(log), &log[1 + 2 * shape.chunks..][..count(log)]);
    let at = positions.binary_search_by_key(&key, |&p| read(rows[read(p) as usize][0]))?;
    Ok(read(positions[at]) as usize)
}

pub fn holds(log: &[Word], shape: &Shape, key: u64) -> bool {
    find(log, shape, key).is_ok()
}

/// By id whether the log has a chunk of that home.
pub fn homes(log: &[Word]) -> [bool; 256] {
    let mut homes = [false; 256];
    used(log).iter().for_each(|row| homes[(read(row[0]) >> 56) as usize] = true);
    homes
}

pub fn is_saved(log: &[Word], row: usize) -> bool {
    get(log, 2 + 2 * row) == 1
}

pub fn save(log: &mut [Word], row: usize) {
    set(log, 2 + 2 * row, 1);
}

pub fn save_all(log: &mut [Word]) {
    let end = 1 + 2 * count(log);
    // few are not saved yet: lines of the cache that need no change stay unwritten
    for [_, saved] in log[1..end].as_chunks_mut().0 {
        if read(*saved) == 0 {
            *saved = 1u64.to_le_bytes();
        }
    }
}

/// A new row at the end, its position given; its cell is the caller's to write. Answers the row.
pub fn append(log: &mut [Word], shape: &Shape, position: usize, key: u64, saved: u64) -> usize {
    let (row, at) = (count(log), 1 + 2 * shape.chunks);
    log.copy_within(at + position..at + row, at + position + 1);
    set(log, at + position, row as u64);
    set(log, 1 + 2 * row, key);
    set(log, 2 + 2 * row, saved);
    set(log, 0, row as u64 + 1);
    row
}

/// A set of rows of a log.
pub struct Marks {
    bits: [u64; MOST_CHUNKS / 64],
    /// By word of bits the marked rows before it.
    before: [u32; MOST_CHUNKS / 64],
}

impl Marks {
    pub fn none() -> Self {
        Marks { bits: [0; MOST_CHUNKS / 64], before: [0; MOST_CHUNKS / 64] }
    }

    /// The saved rows of a log.
    pub fn saved(log: &[Word]) -> Self {
        let mut marks = Marks::none();
        for (bits, rows) in marks.bits.iter_mut().zip(used(log).chunks(64)) {
            *bits = rows.iter().enumerate().fold(0, |bits, (i, row)| bits | read(row[1]) << i);
        }
        marks
    }

    pub fn mark(&mut self, row: usize) {
        self.bits[row / 64] |= 1 << (row % 64);
    }

    fn has(&self, row: usize) -> bool {
        self.bits[row / 64] >> (row % 64) & 1 == 1
    }

    /// Makes `rank` ready; the marked rows in all.
    fn total(&mut self, rows: usize) -> usize {
        let mut total = 0;
        for (before, bits) in self.before.iter_mut().zip(&self.bits[..rows.div_ceil(64)]) {
            *before = total;
            total += bits.count_ones();
        }
        total as usize
    }

    /// How many rows before this one are marked.
    fn rank(&self, row: usize) -> usize {
        let below = self.bits[row / 64] & ((1 << (row % 64)) - 1);
        (self.before[row / 64] + below.count_ones()) as usize
    }

    /// The first row from this one on that is marked or, the other way, is not; or the end.
    fn next(&self, from: usize, end: usize, marked: bool) -> usize {
        let flip = if marked { 0 } else { u64::MAX };
        let mut row = from;
        while row < end {
            let bits = (self.bits[row / 64] ^ flip) >> (row % 64);
            if bits != 0 {
                return end.min(row + bits.trailing_zeros() as usize);
            }
            row = (row / 64 + 1) * 64;
        }
        end
    }
}

/// The marked rows stay, in their order, each with its cell; what lies past them keeps its words.
pub fn keep(log: &mut [Word], shape: &Shape, marks: &mut Marks) {
    let count = count(log);
    let kept = marks.total(count);
    if kept == count {
        return;
    }
    let at = 1 + 2 * shape.chunks;
    let mut to = at;
    // rows before the first that goes stay where they are
    let first = marks.next(0, count, false);
    for from in at..at + count {
        let row = get(log, from) as usize;
        if marks.has(row) {
            set(log, to, if row < first { row } else { marks.rank(row) } as u64);
            to += 1;
        }
    }
    keep_runs(log, shape, marks, count);
    set(log, 0, kept as u64);
}

/// Rows and cells go down by runs, each one move.
fn keep_runs(log: &mut [Word], shape: &Shape, marks: &Marks, count: usize) {
    let (cells, cell) = (1 + 3 * shape.chunks, shape.cell);
    let mut to = marks.next(0, count, false);
    let mut from = marks.next(to, count, true);
    while from < count {
        let end = marks.next(from, count, false);
        log.copy_within(1 + 2 * from..1 + 2 * end, 1 + 2 * to);
        log.copy_within(cells + cell * from..cells + cell * end, cells + cell * to);
        to += end - from;
        from = marks.next(end, count, true);
    }
}
