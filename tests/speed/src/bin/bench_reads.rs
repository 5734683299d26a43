//! A read of 64 blocks in one call side by side with the same gets, with the peer's read and with copies of the same bytes, in one run.
use call_tests::store::model::Settings;
use speed::bench::batch::Cells;
use speed::bench::fixture::Store;
use speed::bench::reads::{compare, WAYS};

const ROUNDS: usize = 41;

const COLUMNS: [&str; 9] = ["read, µs", "gets, µs", "list, µs", "peer, µs", "copies, µs", "read/gets", "read/list", "read/peer", "read/copies"];

const NOTES: &str = "4 places. Each way reads the same 64 blocks of S bytes, four of each bucket, to the same places of the area: in one read; by 64 calls
of get; by 64 gets in one list; by the peer's read; and by copies alone, from the same cells. Ratios are of times. Evicted: before each
turn the cells are taken out of the caches, as those of blocks that were not read for long mostly are.
";

fn main() {
    println!("{:<8} {:>8} {:>6}{}", "cells", "mapped", "S", COLUMNS.map(|name| format!("{name:>12}")).concat());
    for (mapped, size) in [(100, 8192), (1_000, 8192), (10_000, 8192), (1_000, 64)] {
        let store = Store::mapped(Settings::new(4, size, 1024, 5120), mapped);
        for (name, cells) in [("cached", Cells::Cached), ("evicted", Cells::Evicted)] {
            println!("{name:<8} {mapped:>8} {size:>6}{}", times(compare(&store, ROUNDS, cells)));
        }
    }
    println!("{NOTES}");
}

fn times(nanoseconds: [f64; WAYS]) -> String {
    let [read, others @ ..] = nanoseconds;
    nanoseconds.map(|ns| format!("{:>12.1}", ns / 1e3)).concat() + &others.map(|other| format!("{:>12.2}", read / other)).concat()
}
