//! Random lists of events, cut into batches at random places: each batch by one call, and its events one by one, compared after every batch in codes, keys,
//! the area and each byte of the store.
use event_tests::batches::batches;
use event_tests::runs::Tally;
use event_tests::setting;

/// So many events meet all that can be met.
const ENOUGH: u64 = 400_000;

/// DISK_EVENTS says how many events, and DISK_SEED gives other lists.
#[test]
fn random_batches() {
    let (seed, events) = (setting("DISK_SEED", 1), setting("DISK_EVENTS", ENOUGH));
    println!("seed {seed}, {events} events");
    let sum = batches(seed, events).unwrap_or_else(|why| panic!("{why}"));
    println!("{} lists, {:?}\n{}", sum.lists, sum.tally, sum.counts.table());
    let Tally { events: run, batches, empty, longest, past, shown, overlapping, damaged } = sum.tally;
    assert!(run >= events);
    if events >= ENOUGH {
        assert!(sum.counts.missing().is_empty(), "did not happen: {:?}", sum.counts.missing());
        assert!(batches > events / 10 && empty > events / 100 && longest > 200 && damaged > events / 500);
        assert!(shown > events / 100 && past > events / 200 && overlapping > events / 500);
    }
}
