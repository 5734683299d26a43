//! Random lists of events by calls: the proved store and the model, compared after every event in code, key, data and each byte.
use event_tests::lists::lists;
use event_tests::setting;

/// So many events meet all that can be met.
const ENOUGH: u64 = 1_000_000;

/// A million events, or what DISK_EVENTS says; DISK_SEED gives other lists.
#[test]
fn random_lists() {
    let (seed, events) = (setting("DISK_SEED", 1), setting("DISK_EVENTS", ENOUGH));
    println!("seed {seed}, {events} events");
    let sum = lists(seed, events).unwrap_or_else(|why| panic!("{why}"));
    println!("{} events in {} lists, in {} of them all crashes and losses struck whole stores", sum.events, sum.lists, sum.careful);
    println!("{} without a loss, whose crashes all found every place an up member and every bucket ready", sum.ready);
    println!("{}", sum.counts.table());
    println!("{}", sum.met.table());
    if events >= ENOUGH {
        assert!(sum.counts.missing().is_empty(), "did not happen: {:?}", sum.counts.missing());
        assert!(sum.met.missing().is_empty(), "not met: {:?}", sum.met.missing());
        assert!(sum.careful > 0 && sum.ready > 0);
    }
}
