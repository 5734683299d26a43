//! Whether words are a sound store. Nearly all of a step's time goes here.
use super::store::{bucket_at, proxy_at, Shape, AT_GIVEN, AT_STARTED, AT_VIEW, BEGAN, CEILING, MEMBER, MOST_PLACES, NEXT, UP};
use super::words::{get, read, rows, same, Row, Word};
use call_tests::store::model::{
    bucket_of, Settings, AT_BAG, AT_BUFFER, AT_COPIES, AT_PLACES, AT_SETTINGS, BLOCKS, BUCKET, BUCKETS, MAX_ID, MAX_ITEMS, MAX_NUMBER, MAX_RELAYS,
    MAX_WAITING, PROXIES, RELAY, SEQUENCES, VERSION,
};

type Ids = [u64; MOST_PLACES];

/// By id the highest key that may stand anywhere, 0 for an id that is not given. The highest and not one more, which might not fit a word.
struct Limits([u64; 256]);

impl Limits {
    /// One less on the left, so that neither key 0 passes nor any key of an id that is not given.
    fn allows(&self, key: u64) -> bool {
        key.wrapping_sub(1) < self.0[(key >> 56) as usize]
    }
}

struct Check<'a> {
    words: &'a [Word],
    shape: Shape,
    given: u64,
    ids: Ids,
    limits: &'a Limits,
}

/// The sizes and the ids by place of a sound store.
pub fn check(words: &[Word]) -> Option<(Shape, Ids)> {
    let shape = shape_of(words)?;
    let (view, given, started) = (get(words, AT_VIEW), get(words, AT_GIVEN), get(words, AT_STARTED));
    if !(1..=MAX_NUMBER).contains(&view) || given > MAX_ID || started > shape.places as u64 {
        return None;
    }
    let ids = ids_of(words, &shape, given)?;
    let limits = limits_of(words, &shape, given, &ids);
    let c = Check { words, shape, given, ids, limits: &limits };
    let good = (0..BUCKETS).all(|g| c.bucket(g))
        && (0..PROXIES).all(|p| c.proxy(p))
        && c.bag()
        && c.bricks().all(|at| c.brick(at))
        && (0..BUCKETS).all(|g| c.copies(g))
        && c.bricks().all(|at| c.log(&words[at + shape.log..at + shape.place]));
    good.then_some((shape, ids))
}

fn shape_of(words: &[Word]) -> Option<Shape> {
    if words.len() < AT_PLACES || get(words, 0) != VERSION {
        return None;
    }
    let [places, size, entries, chunks] = std::array::from_fn(|i| get(words, AT_SETTINGS + i));
    let s = Settings::new(places, size, entries, chunks);
    (s.in_limits() && words.len() == s.words()).then(|| Shape::new(&s))
}

/// None where one is not given or at two places.
fn ids_of(words: &[Word], shape: &Shape, given: u64) -> Option<Ids> {
    let mut ids = [0; MOST_PLACES];
    for p in 0..shape.places {
        let id = get(words, shape.at(p));
        if id > given || id != 0 && ids[..p].contains(&id) {
            return None;
        }
        ids[p] = id;
    }
    Some(ids)
}

/// A brick's next number bounds its keys; of a brick that is not here any key may stand.
fn limits_of(words: &[Word], shape: &Shape, given: u64, ids: &Ids) -> Limits {
    let mut limits = [0; 256];
    for id in 1..=given {
        limits[id as usize] = id << 56 | (SEQUENCES - 1);
    }
    for p in (0..shape.places).filter(|&p| ids[p] != 0) {
        let next = get(words, shape.at(p) + NEXT);
        limits[ids[p] as usize] = (ids[p] << 56).wrapping_add(next).wrapping_sub(1);
    }
    Limits(limits)
}

impl Check<'_> {
    fn get(&self, i: usize) -> u64 {
        get(self.words, i)
    }

    fn bricks(&self) -> impl Iterator<Item = usize> + '_ {
        (0..self.shape.places).filter(|&p| self.ids[p] != 0).map(|p| self.shape.at(p))
    }

    /// The words of a table that are in use, its count first; None where that is above the most.
    fn table(&self, at: usize, most: usize) -> Option<&[Word]> {
        let count = self.get(at);
        (count <= most as u64).then(|| &self.words[at..at + 1 + 2 * count as usize])
    }

    /// Rows ascending by block, all blocks with these bits under the mask. From the last row to the first, so that one comparison tells that a block is in
    /// range and below the next.
    fn sorted(&self, rows: &[Row], mask: u64, bits: u64) -> bool {
        let mut above = BLOCKS;
        for row in rows.iter().rev() {
            let (block, key) = (read(row[0]), read(row[1]));
            if block >= above || block & mask != bits || !self.limits.allows(key) {
                return false;
            }
            above = block;
        }
        true
    }

    fn bucket(&self, bucket: usize) -> bool {
        let w: [u64; BUCKET] = std::array::from_fn(|i| self.get(bucket_at(bucket) + i));
        let given = w[..4].iter().all(|&id| id.wrapping_sub(1) < self.given);
        given && w[0] != w[1] && w[2] != w[3] && w[4] | w[5] <= 1 && w[6] | w[7] <= MAX_NUMBER
    }

    fn proxy(&self, proxy: usize) -> bool {
        let at = proxy_at(proxy);
        self.get(at) <= MAX_NUMBER && self.table(at + 1, MAX_ITEMS).is_some_and(|t| self.sorted(rows(&t[1..]), 3 << 49, (proxy as u64) << 49))
    }

    fn bag(&self) -> bool {
        let count = self.get(AT_BAG);
        count <= MAX_RELAYS as u64
            && (0..count as usize).all(|i| {
                let [view, bucket, number, block, key] = std::array::from_fn(|j| self.get(AT_BAG + 1 + i * RELAY + j));
                view | number <= MAX_NUMBER && block < BLOCKS && bucket == bucket_of(block) && self.limits.allows(key)
            })
    }

    /// All of a brick but its copies and its log.
    fn brick(&self, at: usize) -> bool {
        let (up, member, began) = (self.get(at + UP), self.get(at + MEMBER), self.get(at + BEGAN));
        let numbers = self.get(at + NEXT) <= self.get(at + CEILING) && self.get(at + CEILING) <= SEQUENCES;
        if up | member | began > 1 || member > up || !numbers {
            return false;
        }
        let most = if up == 1 { MAX_WAITING } else { 0 };
        self.table(at + AT_BUFFER, most).is_some_and(|t| rows(&t[1..]).iter().all(|row| read(row[0]) < BLOCKS && self.limits.allows(read(row[1]))))
    }

    /// All copies of a bucket. A copy that has the same words as one found good is good: most are the same, and memcmp tells it sooner.
    fn copies(&self, bucket: usize) -> bool {
        let mut known: &[Word] = &[];
        self.bricks().all(|at| {
            let memory = at + AT_COPIES + 2 * bucket * self.shape.copy;
            let (Some(memory), Some(disk)) = (self.table(memory, self.shape.entries), self.table(memory + self.shape.copy, self.shape.entries)) else {
                return false;
            };
            for copy in [memory, disk] {
                if copy.len() > 1 && !same(copy, known) {
                    if !self.sorted(rows(&copy[1..]), 15 << 10, (bucket as u64) << 10) {
                        return false;
                    }
                    known = copy;
                }
            }
            self.get(at + UP) == 1 || same(memory, disk)
        })
    }

    /// Along the positions keys ascend. From the last to the first, one comparison tells that a key is below the next and has the same id; where it is not,
    /// the keys of a lower id begin, with the highest of them.
    fn log(&self, log: &[Word]) -> bool {
        let count = get(log, 0);
        if count > self.shape.chunks as u64 {
            return false;
        }
        let rows = rows(&log[1..1 + 2 * count as usize]);
        let positions = &log[1 + 2 * self.shape.chunks..][..count as usize];
        let (mut id, mut first, mut above, mut flags) = (256, 0, 0, 0);
        for &p in positions.iter().rev() {
            let Some(row) = rows.get(read(p) as usize) else { return false };
            let key = read(row[0]);
            let sequence = key.wrapping_sub(first);
            if sequence < above {
                above = sequence;
            } else if key >> 56 < id && self.limits.allows(key) {
                id = key >> 56;
                first = id << 56;
                above = key - first;
            } else {
                return false;
            }
            flags |= read(row[1]);
        }
        flags <= 1
    }
}
