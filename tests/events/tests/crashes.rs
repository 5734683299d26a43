//! Where nothing is ever lost and each crash finds every place an up member and every bucket ready, no get is refused for want of bytes, even with writes under
//! way: on random lists with thousands of such crashes. Where a map asks for one saved copy alone, the same lists find a get that is refused so.
use event_tests::both::Both;
use event_tests::crashes::{lists, replay, Model, Tally};
use event_tests::history::WANT_OF_BYTES;
use event_tests::model::{kind, Settings, COPIES};
use event_tests::setting;
use event_tests::trial::Trial;

/// So many crashes with writes under way.
const ENOUGH: u64 = 10_000;

fn both(settings: Settings) -> Trial {
    Both::new(settings).0
}

fn saved_once(settings: Settings) -> Model {
    Model::new(COPIES - 1, settings)
}

/// DISK_CRASHES says how many crashes, and DISK_SEED gives other lists.
#[test]
fn crashes_with_writes_under_way() {
    let (seed, crashes) = (setting("DISK_SEED", 1), setting("DISK_CRASHES", ENOUGH));
    let tally = lists(seed, crashes, both).unwrap_or_else(|failure| panic!("seed {seed}: {}", failure.shortened(both).text()));
    println!("seed {seed}, {tally:?}");
    let Tally { under_way, at_holder, shown, shown_of_pending, .. } = tally;
    assert!(under_way >= crashes && at_holder > crashes / 4 && shown > crashes && shown_of_pending > crashes);
}

#[test]
fn a_map_after_one_save() {
    let failure = lists(1, ENOUGH, saved_once).expect_err("a get for want of bytes").shortened(saved_once);
    println!("{}", failure.text());
    assert_eq!(failure.why, WANT_OF_BYTES);
    let kinds: Vec<u64> = failure.calls.iter().map(|call| call.kind).collect();
    assert!(kinds.ends_with(&[kind::GET]) && kinds.contains(&kind::CRASH) && !kinds.contains(&kind::LOSE), "{}", failure.text());
    assert_eq!(replay(Model::new(COPIES, failure.settings), &failure.calls), Ok(()));
}
