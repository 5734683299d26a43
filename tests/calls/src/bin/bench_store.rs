//! Side by side with the independent implementation, in one run: check at 0, 10 and 100 % use, of a store with blocks mapped, and by the number of
//! chunks; format;
//! a move of words side by side with memmove; and buckets and proxies of blocks side by side with divisions.
use call_tests::moves::{memmove, move_words};
use call_tests::numbers::{bench_numbers, chain, divided, divided_at_run_time, Numbers};
use call_tests::store::model::{self, Settings};
use call_tests::random::Random;
use call_tests::time::{compare, heading};
use call_tests::store::random::{mapped_store, sound_store};
use std::cell::RefCell;
use std::hint::black_box;

fn main() {
    let mut r = Random::new(21);
    heading();
    let s = Settings::new(8, 512, 256, 4096);
    for percent in [0, 10, 100] {
        let store = sound_store(&mut r, s, percent);
        compare(&format!("check, {percent} % in use"), || call_tests::store::check(&store), || model::check(&store));
    }
    for blocks in [100, 1000] {
        let store = mapped_store(Settings::new(4, 512, 256, 1024), blocks);
        assert_eq!(model::check(&store), 0);
        compare(&format!("check, {blocks} blocks mapped"), || call_tests::store::check(&store), || model::check(&store));
    }
    for chunks in [1000, 60000] {
        let s = Settings::new(3, 8, 2, chunks);
        let store = sound_store(&mut Random::new(22), s, 100);
        compare(&format!("check, logs of {chunks} chunks"), || call_tests::store::check(&store), || model::check(&store));
    }
    for (entries, chunks) in [(2, 4), (1024, 65536)] {
        let s = Settings::new(8, 8, entries, chunks);
        let store = sound_store(&mut r, s, 0);
        compare(&format!("check of an empty store, M {entries}, L {chunks}"), || call_tests::store::check(&store), || model::check(&store));
    }
    for s in [Settings::new(3, 8, 2, 4), Settings::new(8, 512, 256, 4096)] {
        let mut ours = r.bytes(s.bytes());
        let mut theirs = ours.clone();
        compare(&format!("format, {} bytes", s.bytes()), || call_tests::store::format(&mut ours, s), || model::format(&mut theirs, s));
    }
    for n in [8, 64, 512, 2048, 65536] {
        for (way, from, to) in [("up by 2", 0, 2), ("down by 2", 2, 0), ("apart", 0, n)] {
            // both move the same bytes: where they lie in a cache line matters
            let bytes = RefCell::new(r.bytes(8 * (2 * n + 2)));
            let name = format!("move of {n} words {way}; memmove");
            compare(&name, || move_words(&mut bytes.borrow_mut(), from, to, n), || memmove(&mut bytes.borrow_mut(), from, to, n));
        }
    }
    let blocks: Vec<u64> = (0..1000).map(|_| r.below(1 << 51)).collect();
    for (name, peer) in [("divided", divided as Numbers), ("divided at run time", divided_at_run_time)] {
        let [ours, theirs] = black_box([bench_numbers, peer]);
        compare(&format!("numbers of 1,000 blocks; {name}"), || chain(ours, &blocks), || chain(theirs, &blocks));
    }
}
