//! Times two implementations side by side.
use std::hint::black_box;
use std::time::Instant;

/// Nanoseconds of one call, over at least 5 ms.
fn time(f: &mut impl FnMut() -> u64) -> f64 {
    let mut calls = 1u32;
    loop {
        let began = Instant::now();
        for _ in 0..calls {
            black_box(f());
        }
        let took = began.elapsed().as_nanos() as f64;
        if took > 5e6 {
            return took / calls as f64;
        }
        calls *= 2;
    }
}

pub fn heading() {
    println!("{:<44} {:>17} {:>17}", "", "proved", "independent");
}

/// The best of several rounds, taken in turns.
pub fn compare(name: &str, mut ours: impl FnMut() -> u64, mut theirs: impl FnMut() -> u64) {
    let (mut a, mut b) = (f64::MAX, f64::MAX);
    for _ in 0..25 {
        a = a.min(time(&mut ours));
        b = b.min(time(&mut theirs));
    }
    println!("{name:<44} {a:>14.1} ns {b:>14.1} ns   ratio {:.2}", a / b);
}
