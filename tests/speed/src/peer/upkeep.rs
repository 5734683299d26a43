//! mend, collect.
use super::asks::{ask, member_at, place};
use super::members::{distance, holder};
use super::store::{proxy_at, Store, BACKUP, MEMBER, PRIMARY, READY, UP};
use super::words::{read, same, Word};
use super::writes::append;
use super::{log, table, Told};
use call_tests::store::model::{BUCKETS, PROXIES};

const MOST_ENTRIES: usize = 1024;

pub fn mend(store: &mut Store, place_field: u64) -> Told {
    let place = place(store, place_field)?;
    let brick = member_at(store, place)?;
    let turn = Turn::new(store, store.ids[place]);
    let free = store.shape.chunks - log::count(store.log(brick));
    let named: usize = ready_tables(store).map(|at| store.get(at) as usize).sum();
    ask(named <= free || missing(store, brick, &turn) <= free, 10)?;
    for at in ready_tables(store) {
        for row in 0..store.get(at) as usize {
            let key = store.get(at + 2 + 2 * row);
            if turn.takes(key) {
                mend_chunk(store, brick, key);
            }
        }
    }
    Ok(0)
}

/// The homes for which a member is one of the first two from the home upward.
struct Turn {
    id: u64,
    /// How many ids from its own downward.
    homes: u64,
}

impl Turn {
    fn new(store: &Store, id: u64) -> Self {
        let mut below = [256; 2];
        for (p, &other) in store.ids.iter().enumerate().take(store.shape.places) {
            let steps = distance(other, id);
            if other != id && store.member_at(p).is_some() {
                below = if steps < below[0] { [steps, below[0]] } else { [below[0], below[1].min(steps)] };
            }
        }
        Turn { id, homes: below[1] }
    }

    fn takes(&self, key: u64) -> bool {
        distance(key >> 56, self.id) < self.homes
    }
}

/// The memory copies of the primaries of ready buckets; a lost primary has none.
fn ready_tables(store: &Store) -> impl Iterator<Item = usize> + use<> {
    let tables: [Option<usize>; BUCKETS] = std::array::from_fn(|g| {
        let primary = store.brick(store.of_bucket(g, PRIMARY)).filter(|_| store.of_bucket(g, READY) == 1);
        primary.map(|at| store.memory(at, g))
    });
    tables.into_iter().flatten()
}

/// How many chunks a mend adds. A key may be named twice, so they are sorted. Not inlined: the keys take much of the stack.
#[inline(never)]
fn missing(store: &Store, brick: usize, turn: &Turn) -> usize {
    let mut keys = [0; BUCKETS * MOST_ENTRIES];
    let mut count = 0;
    for at in ready_tables(store) {
        for row in table::used(&store.words[at..]) {
            let key = read(row[1]);
            if turn.takes(key) && !log::holds(store.log(brick), &store.shape, key) && holder(store, key).is_some() {
                keys[count] = key;
                count += 1;
            }
        }
    }
    keys[..count].sort_unstable();
    keys[..count].chunk_by(|a, b| a == b).count()
}

/// The chunk becomes saved; one that is not held comes from a holder.
fn mend_chunk(store: &mut Store, brick: usize, key: u64) {
    let shape = store.shape;
    match log::find(store.log(brick), &shape, key) {
        Ok(row) => log::save(store.log_mut(brick), row),
        Err(position) => {
            if let Some((from, row)) = holder(store, key) {
                let (from, to) = (store.cell(from, row), append(store, brick, position, key, 1));
                store.words.copy_within(from..from + shape.cell, to);
            }
        }
    }
}

/// Not inlined: the marks take much of the stack.
#[inline(never)]
pub fn collect(store: &mut Store, place_field: u64) -> Told {
    let brick = member_at(store, place(store, place_field)?)?;
    let members = store.bricks().all(|at| store.get(at + UP) == 1 && store.get(at + MEMBER) == 1);
    let no_items = (0..PROXIES).all(|p| store.get(proxy_at(p) + 1) == 0);
    ask(members && no_items && (0..BUCKETS).all(|g| store.of_bucket(g, READY) == 1 && nothing_pending(store, g)), 13)?;
    let shape = store.shape;
    let mut marks = named(store, brick);
    log::keep(store.log_mut(brick), &shape, &mut marks);
    Ok(0)
}

/// The rows of a brick's log that the primaries name; where nothing is pending, their memory has what every copy of a pair has.
fn named(store: &Store, brick: usize) -> log::Marks {
    let log = store.log(brick);
    let homes = log::homes(log);
    let mut marks = log::Marks::none();
    for at in ready_tables(store) {
        // a log has chunks of few homes: most of the others' keys need no search
        for key in table::used(&store.words[at..]).iter().map(|row| read(row[1])).filter(|key| homes[(key >> 56) as usize]) {
            if let Ok(row) = log::find(log, &store.shape, key) {
                marks.mark(row);
            }
        }
    }
    marks
}

/// The pair's four copies are the same; a lost brick's are empty.
fn nothing_pending(store: &Store, bucket: usize) -> bool {
    let [one, two] = [PRIMARY, BACKUP].map(|role| copies(store, store.brick(store.of_bucket(bucket, role)), bucket));
    same(one[0], one[1]) && same(one[0], two[0]) && same(one[0], two[1])
}

/// The words in use of a brick's copies, memory and disk.
fn copies<'a>(store: &'a Store, brick: Option<usize>, bucket: usize) -> [&'a [Word]; 2] {
    const EMPTY: &[Word] = &[[0; 8]];
    let Some(brick) = brick else { return [EMPTY; 2] };
    [store.memory(brick, bucket), store.disk(brick, bucket)].map(|at| &store.words[at..at + 1 + 2 * store.get(at) as usize])
}
