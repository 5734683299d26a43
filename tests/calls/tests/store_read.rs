//! Many blocks in one call, each as a get answers it: numbers of blocks and lengths of areas, unsound stores, proxies and blocks out of range, each code of a
//! get, the least and the greatest block size, random stores.
use call_tests::code::{BAD_INPUT, CODES, OK, UNSOUND};
use call_tests::counts::Counts;
use call_tests::kind::{self, GET, PUT};
use call_tests::lent::Lent;
use call_tests::random::Random;
use call_tests::store::model::{self, Settings};
use call_tests::store::random::{readable_store, small_settings};
use call_tests::store::{block_answers, read, step, BlockAnswer, HEAD};
use call_tests::text::model::Event;

const SMALL: Settings = Settings { places: 3, size: 8, entries: 2, chunks: 4 };
const MOST: usize = 64;

/// All that a call is lent.
#[derive(Clone, PartialEq)]
struct Asked {
    store: Vec<u8>,
    proxy: u64,
    blocks: Vec<u64>,
    answers: Vec<u8>,
}

impl Asked {
    /// The answers' area has what they need and so many bytes more.
    fn new(r: &mut Random, store: &[u8], proxy: u64, blocks: &[u64], more: usize) -> Self {
        let needed = blocks.len() * (HEAD + Settings::of(store).size as usize);
        Asked { store: store.to_vec(), proxy, blocks: blocks.to_vec(), answers: r.bytes(needed + more) }
    }

    /// The bytes of a block; the store is sound.
    fn size(&self) -> usize {
        Settings::of(&self.store).size as usize
    }

    fn needed(&self) -> usize {
        self.blocks.len() * (HEAD + self.size())
    }

    /// What each block is told, which is what gets are told, or the number that refuses the call. The store stays, and every byte of the area that no answer
    /// fills.
    fn told(&mut self) -> Result<Vec<BlockAnswer>, u64> {
        let old = self.clone();
        let code = read(&self.store, self.proxy, &self.blocks, &mut self.answers);
        let end = if code == 0 { self.needed() } else { 0 };
        assert!(self.store == old.store && self.blocks == old.blocks && self.answers[end..] == old.answers[end..], "a lent byte changed");
        if code != 0 {
            return Err(code);
        }
        let told = block_answers(&self.answers, self.size(), self.blocks.len());
        assert_eq!(told, self.gets());
        Ok(told)
    }

    /// What gets are told, one after the other.
    fn gets(&self) -> Vec<BlockAnswer> {
        let mut store = self.store.clone();
        let zeros = vec![0; self.size()];
        let get = |&block: &u64| {
            let mut bytes = zeros.clone();
            let told = step(&mut store, &event(GET, self.proxy, block, 0), &[], &zeros, &mut bytes);
            BlockAnswer { code: told.code, key: told.key, bytes }
        };
        self.blocks.iter().map(get).collect()
    }

    /// The number that refuses the call, if one does.
    fn refusal(&self) -> Option<u64> {
        match model::check(&self.store) {
            0 => (self.blocks.len() > MOST || self.answers.len() < self.needed()).then_some(3),
            unsound => Some(unsound),
        }
    }
}

/// How many blocks were told each code, as gets are, and how many of them showed a write.
#[derive(Debug, Default)]
struct Tally {
    gets: Counts,
    shown: u64,
}

impl Tally {
    fn add(&mut self, told: &[BlockAnswer]) {
        for answer in told {
            self.gets.add(GET, answer.code);
            self.shown += (answer.key != 0) as u64;
        }
    }
}

fn event(kind: u64, a: u64, b: u64, c: u64) -> Event {
    Event { code: 0, kind, a, b, c }
}

/// In blocks of eight bytes: of a refused block, or of one without a mapping.
fn without_key(code: u64) -> BlockAnswer {
    BlockAnswer { code, key: 0, bytes: vec![0; 8] }
}

/// A block written, from put to done, where every place has an up member; what a get of it is told.
fn write(r: &mut Random, store: &mut Lent, place: u64, block: u64) -> BlockAnswer {
    let (proxy, bytes) = (model::proxy_of(block), r.bytes(store.size()));
    let told = store.call(&event(PUT, proxy, place, block), &bytes, &[], &mut []);
    assert_eq!(told.code, 0);
    let at_all = |word: &str| (0..store.settings.places).map(|place| format!("{word},{place}")).collect::<Vec<_>>().join(" ");
    let (logs, maps) = (at_all("savelog"), at_all("savemap"));
    store.accepted(&format!("learn,{proxy} copy,{} {logs} map,{proxy},{block} send,{block} deliver,0 {maps} done,{proxy},{block}", told.key));
    BlockAnswer { code: 0, key: told.key, bytes }
}

/// Each number of blocks with areas of each length up to what they need and a little more; on a sound store, and on one that is not.
#[test]
fn numbers_of_blocks_and_bytes() {
    const MORE: usize = 20;
    let mut r = Random::new(61);
    let mut lent = Lent::new(&mut r, SMALL);
    write(&mut r, &mut lent, 0, 5);
    write(&mut r, &mut lent, 1, 6);
    let (mut taken, mut refused) = (0, 0);
    for count in 0..=MOST + 2 {
        let blocks: Vec<u64> = [5, 6, 7, 1 << 49, 1 << 51].into_iter().cycle().take(count).collect();
        let mut asked = Asked::new(&mut r, &lent.bytes, 0, &blocks, MORE);
        let mut unsound = Asked { store: lent.bytes[8..].to_vec(), ..asked.clone() };
        for length in (0..=asked.needed() + MORE).rev() {
            asked.answers.truncate(length);
            unsound.answers.truncate(length);
            assert_eq!(unsound.told(), Err(2));
            let told = asked.told();
            assert_eq!(told.as_ref().err().copied(), asked.refusal(), "{count} blocks, {length} bytes");
            if told.is_ok() {
                taken += 1
            } else {
                refused += 1
            }
        }
    }
    assert_eq!(taken, (MOST + 1) * (MORE + 1));
    assert_eq!(refused, (1..=MOST + 2).sum::<usize>() * (HEAD + 8) + 2 * (MORE + 1));
}

/// Bytes that are no store: 2, whatever else is lent.
#[test]
fn no_store() {
    for store in [vec![], vec![0; 8], vec![0; SMALL.bytes()], vec![255; SMALL.bytes()]] {
        for (count, length) in [(0, 0), (0, 100), (1, 0), (1, HEAD + 8), (65, 0), (65, 65 * (HEAD + 8))] {
            let mut asked = Asked { store: store.clone(), proxy: 0, blocks: vec![5; count], answers: vec![7; length] };
            assert_eq!(asked.told(), Err(2));
        }
    }
}

/// They refuse each block, not the call; a number that is a block's but for its high bits is none.
#[test]
fn proxies_and_blocks_out_of_range() {
    let mut r = Random::new(62);
    let mut lent = Lent::new(&mut r, SMALL);
    let shown = write(&mut r, &mut lent, 0, 5);
    lent.accepted("learn,3");
    for proxy in [4, 5, 256, 1 << 32, u64::MAX - 1, u64::MAX] {
        let mut asked = Asked::new(&mut r, &lent.bytes, proxy, &[5, 6, 1 << 49, 1 << 51], 3);
        assert_eq!(asked.told(), Ok(vec![without_key(3); 4]));
    }
    let blocks = [5, (1 << 51) - 1, 1 << 51, 5 | 1 << 51, 5 | 1 << 63, u64::MAX, 5];
    let codes = |first: BlockAnswer, second: u64| {
        let mut told = vec![without_key(3); 7];
        (told[0], told[1], told[6]) = (first.clone(), without_key(second), first);
        Ok(told)
    };
    assert_eq!(Asked::new(&mut r, &lent.bytes, 0, &blocks, 0).told(), codes(shown, 4));
    assert_eq!(Asked::new(&mut r, &lent.bytes, 3, &blocks, 0).told(), codes(without_key(4), 0));
}

/// Five bricks, of which the last two are gone since a view and the third since; bucket 0 alone is ready, its pair there.
#[test]
fn each_code_of_a_get() {
    let mut r = Random::new(63);
    let mut lent = Lent::new(&mut r, Settings::new(5, 8, 4, 8));
    let kept = write(&mut r, &mut lent, 0, 5);
    // its chunk is at the last two alone
    write(&mut r, &mut lent, 3, 6);
    lent.accepted("crash,3 crash,4 view learn,0 fetch,0 ready,0");
    // pending
    lent.accepted(&format!("put,0,0,7,a1a1a1a1a1a1a1a1 copy,{} savelog,0 savelog,1 map,0,7 crash,2", kept.key + 1));
    // block 1024 is of bucket 1, whose primary is gone, 2048 of bucket 2, which is not ready
    let blocks = [6, 5, 7, 1024, 8, 2048, 1 << 49, 1 << 51, 5, 6];
    let told = Asked::new(&mut r, &lent.bytes, 0, &blocks, 1).told().unwrap();
    let expected = [11, 0, 8, 6, 0, 7, 4, 3, 0, 11];
    assert_eq!(told.iter().map(|answer| answer.code).collect::<Vec<_>>(), expected);
    // a block that is named twice is answered twice, one without a mapping by zeros
    assert!(told[1] == kept && told[8] == kept && told[4] == without_key(0));
    let unknown = Asked::new(&mut r, &lent.bytes, 1, &[1 << 49, 5, 1 << 51, 1 << 49], 1).told().unwrap();
    assert_eq!(unknown, [5, 4, 3, 5].map(without_key));
}

/// An answer byte by byte: each byte of the key is another one.
#[test]
fn bytes_of_an_answer() {
    const KEY: u64 = 0x01_02_03_04_05_06_07_08;
    let mut lent = Lent::new(&mut Random::new(64), SMALL);
    // the next sequence number of the first brick, and its ceiling
    [4, 5].iter().for_each(|word| model::put(&mut lent.bytes, model::AT_PLACES + word, KEY % model::SEQUENCES));
    lent.accepted(&format!("learn,0 put,0,0,5,64726177696e6721 copy,{KEY} savelog,0 savelog,1 map,0,5 send,5 deliver,0 savemap,0 savemap,1 done,0,5"));
    let mut answers = [0x5a; 3 * 17 + 2];
    assert_eq!(read(&lent.bytes, 0, &[1 << 49, 5, 6], &mut answers), 0);
    let refused = [&[4][..], &[0; 16]].concat();
    let shown = [&[0, 1, 2, 3, 4, 5, 6, 7, 8][..], b"drawing!"].concat();
    assert_eq!(answers[..], [&refused[..], &shown, &[0; 17], &[0x5a; 2]].concat());
}

/// Sixty-four written blocks of the least and of the greatest size, in any order.
#[test]
fn least_and_greatest_blocks() {
    let mut r = Random::new(65);
    for size in [8, 8192] {
        let mut lent = Lent::new(&mut r, Settings::new(3, size, 4, 64));
        let mut written: Vec<(u64, BlockAnswer)> = Vec::new();
        for i in 0..MOST as u64 {
            let block = 3 << 49 | i % 16 << 10 | i / 16;
            written.push((block, write(&mut r, &mut lent, i % 3, block)));
        }
        (1..MOST).for_each(|i| written.swap(i, r.below(i as u64 + 1) as usize));
        let (blocks, answers): (Vec<u64>, Vec<BlockAnswer>) = written.into_iter().unzip();
        assert_eq!(Asked::new(&mut r, &lent.bytes, 3, &blocks, 5).told(), Ok(answers));
        let longer = [&blocks[..], &[5]].concat();
        assert_eq!(Asked::new(&mut r, &lent.bytes, 3, &longer, 5).told(), Err(3));
    }
}

/// A block of a random table, or any.
fn some_block(r: &mut Random, store: &[u8], s: Settings) -> u64 {
    let table = model::AT_PLACES + r.below(s.places) as usize * s.place() + model::AT_COPIES + r.below(32) as usize * s.copy();
    let rows = model::get(store, table).min(s.entries);
    match r.below(20) {
        0 => r.number(),
        1 => r.below(model::BLOCKS),
        _ if rows > 0 => model::get(store, table + 1 + 2 * r.below(rows) as usize),
        _ => r.below(model::BLOCKS),
    }
}

/// Some blocks, mostly of one proxy, with an area that is mostly long enough.
fn some_blocks(r: &mut Random, store: &[u8], s: Settings) -> Asked {
    let proxy = if r.one_in(20) { r.number() } else { r.below(4) };
    let count = if r.one_in(20) { r.among(60, 70) } else { r.below(12) };
    let block = |r: &mut Random| {
        let found = (0..20).map(|_| some_block(r, store, s)).find(|&block| model::proxy_of(block) == proxy);
        if r.one_in(8) {
            some_block(r, store, s)
        } else {
            found.unwrap_or(5)
        }
    };
    let mut blocks: Vec<u64> = (0..count).map(|_| block(r)).collect();
    if count > 1 && r.one_in(2) {
        blocks[0] = blocks[count as usize - 1];
    }
    let more = r.below(40) as usize;
    let mut asked = Asked::new(r, store, proxy, &blocks, more);
    if r.one_in(8) {
        asked.answers.truncate(r.below(asked.answers.len() as u64 + 1) as usize);
    }
    asked
}

#[test]
fn random_stores() {
    let mut r = Random::new(66);
    let (mut tally, mut refused) = (Tally::default(), [0; CODES]);
    for _ in 0..2000 {
        let (s, percent) = (small_settings(&mut r), r.below(101));
        let store = readable_store(&mut r, s, percent);
        for _ in 0..10 {
            let mut asked = some_blocks(&mut r, &store, s);
            let told = asked.told();
            assert_eq!(told.as_ref().err().copied(), asked.refusal());
            match told {
                Ok(told) => tally.add(&told),
                Err(code) => refused[code as usize] += 1,
            }
        }
    }
    println!("{tally:?} {refused:?}");
    let Tally { gets, shown } = tally;
    assert!(shown > 1000 && gets.of(GET, OK) > shown + 1000, "{shown}, {}", gets.table());
    assert!(kind::of(GET).refusals.iter().all(|&code| gets.of(GET, code) > 500), "{}", gets.table());
    assert!(refused[UNSOUND as usize] == 0 && refused[BAD_INPUT as usize] > 500, "{refused:?}");
}

/// One word or the length changed: 2 exactly where the check says so, before 3.
#[test]
fn damaged_stores() {
    let mut r = Random::new(67);
    let mut codes = [0; CODES];
    for _ in 0..4000 {
        let (s, percent) = (small_settings(&mut r), r.below(101));
        let store = readable_store(&mut r, s, percent);
        let mut asked = some_blocks(&mut r, &store, s);
        match r.below(4) {
            0 => asked.store.truncate(r.below(s.bytes() as u64) as usize),
            1 => asked.store.extend(r.bytes(8)),
            _ => model::put(&mut asked.store, r.below(s.words() as u64) as usize, r.number()),
        }
        let code = asked.told().err();
        assert_eq!(code, asked.refusal());
        codes[code.unwrap_or(0) as usize] += 1;
    }
    assert!(codes[0] > 500 && codes[2] > 1500 && codes[3] > 50, "{codes:?}");
}
