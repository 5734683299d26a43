//! The proved step side by side with the peer, in one run: every kind, the whole write path, and how a call grows with the blocks mapped.
use call_tests::kind;
use call_tests::store::model::Settings;
use speed::bench::event::compare;
use speed::bench::fixture::{block, cases, event, Store};
use speed::bench::path::{memcpy, reads, writes};

const ROUNDS: usize = 100;

/// Kinds that move cells by the hundred are timed with small blocks too: 8 KB ones hide what else they do.
const SMALL: [u64; 3] = [kind::CRASH, kind::MEND, kind::COLLECT];

fn main() {
    every_kind();
    whole_path();
    growth();
}

fn row(name: &str, [proved, peer]: [f64; 2]) -> String {
    format!("{name:<26} {proved:>12.0} {peer:>12.0} {:>8.2}", proved / peer)
}

fn heading(name: &str) -> String {
    format!("{name:<26} {:>12} {:>12} {:>8}", "proved", "peer", "ratio")
}

fn every_kind() {
    println!("{} {:>16} {:>8}", heading("one call, ns"), "no check: proved", "peer");
    for size in [8192, 64] {
        for (store, e) in cases(size) {
            if size == 8192 || SMALL.contains(&e.kind) {
                let rounds = if SMALL.contains(&e.kind) { ROUNDS / 5 } else { ROUNDS };
                let [step, check] = compare(&store, &e, rounds, 50);
                let name = format!("{:>2} {:<10} S {size}", e.kind, kind::of(e.kind).word);
                println!("{} {:>16.0} {:>8.0}", row(&name, step), step[0] - check[0], step[1] - check[1]);
            }
        }
    }
    let store = Store::mapped(Settings::new(4, 64, 256, 1024), 1000);
    println!("{}", row("check alone", compare(&store, &event(kind::LEARN, 0, 0, 0), ROUNDS, 50)[1]));
    println!("4 places, 1,000 blocks mapped; each call accepted; \"no check\" is what is left without the time of the check alone\n");
}

fn whole_path() {
    let store = Store::mapped(Settings::new(4, 8192, 256, 1024), 1000);
    let speed = |ns: f64| 8192.0 / ns * 1e3;
    let copied = memcpy(8192, 200);
    println!("{} {:>12}", heading("8 KB blocks, MB/s"), "memcpy");
    for (name, [proved, peer], copied) in [("put to done, 10 calls", writes(&store, 100), copied[0]), ("get", reads(&store, 200), copied[1])] {
        println!("{name:<26} {:>12.0} {:>12.0} {:>8.2} {:>12.0}", speed(proved), speed(peer), proved / peer, speed(copied));
    }
    println!("4 places, 1,000 blocks mapped; the ratio is of times\n");
}

fn growth() {
    println!("{}", heading("by blocks mapped, ns"));
    for blocks in [100, 1_000, 10_000] {
        let store = Store::mapped(Settings::new(4, 512, 1024, 8192), blocks);
        println!("{}", row(&format!("get, {blocks}"), compare(&store, &event(kind::GET, 0, block(50), 0), ROUNDS, 20)[0]));
        println!("{}", row(&format!("put, {blocks}"), compare(&store, &store.write(block(50))[0], ROUNDS, 20)[0]));
        println!("{}", row(&format!("put to done, {blocks}"), writes(&store, ROUNDS)));
    }
    println!("4 places, S 512");
}
