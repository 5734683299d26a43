//! Lists of events in one call side by side with the peer and with copies of the same bytes, in one run: whole writes and reads in batches, by the blocks
//! mapped, and what each event takes without the check.
use call_tests::store::model::Settings;
use speed::bench::batch::{alone, reads, writes, Cells};
use speed::bench::fixture::Store;

const ROUNDS: usize = 41;
const SIZE: u64 = 8192;

const NOTES: &str = "4 places, blocks of 8 KB. A write of n blocks is one list, from their puts to their dones. Each row writes or reads the same 32 blocks,
two of each bucket, n in a call; ratios are of times. Copies: of the same bytes from and to the same places, to two cells of the store
as put and copy make them, or from a cell to the area as get does. Cells evicted: before each turn they are taken out of the caches,
as the next cells of a log mostly are.
";

fn main() {
    paths(Cells::Cached, "cells cached");
    paths(Cells::Evicted, "cells evicted");
    println!("{NOTES}");
    events();
}

fn paths(cells: Cells, name: &str) {
    println!("{name:<14} {:>8} {:>6} {:>12} {:>10} {:>10} {:>14} {:>12}", "mapped", "batch", "proved MB/s", "peer", "copies", "proved/copies", "proved/peer");
    for mapped in [100, 1_000, 10_000] {
        let store = Store::mapped(Settings::new(4, SIZE, 1024, 5120), mapped);
        for n in [1, 8, 32] {
            row("write", mapped, n, writes(&store, n, ROUNDS, cells));
        }
        for n in [1, 8, 32] {
            row("get", mapped, n, reads(&store, n, ROUNDS, cells));
        }
    }
    println!();
}

fn row(name: &str, mapped: u64, n: usize, times: [f64; 3]) {
    let [proved, peer, copies] = times;
    let [a, b, c] = times.map(|ns| SIZE as f64 / ns * 1e3);
    println!("{name:<14} {mapped:>8} {n:>6} {a:>12.0} {b:>10.0} {c:>10.0} {:>14.2} {:>12.2}", proved / copies, proved / peer);
}

fn events() {
    println!("{:<24} {:>10} {:>10} {:>8}", "ns without the check", "proved", "peer", "ratio");
    for size in [SIZE, 64] {
        let store = Store::mapped(Settings::new(4, size, 256, 1024), 1000);
        for (name, [proved, peer]) in alone(&store, 5 * ROUNDS) {
            println!("{:<24} {proved:>10.0} {peer:>10.0} {:>8.2}", format!("{name}, S {size}"), proved / peer);
        }
    }
    println!("4 places, 1,000 blocks mapped: what a list of 32 such events takes more than an empty one, for each; a save again and again at each place");
}
