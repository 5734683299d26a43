//! The rules' examples by hand and the slips that a showroom would meet, each by lines of text, on the proved calls and on the model.
use call_tests::code::{BAD_SETTINGS, OK};
use call_tests::random::Random;
use event_tests::both::{done, refused, shown, Both};
use event_tests::layout::length;
use event_tests::model::{Pair, Settings, State};

const KEY: u64 = 1 << 56;
const A1: &str = "a1a1a1a1a1a1a1a1";
const B2: &str = "b2b2b2b2b2b2b2b2";
const ZEROS: &str = "0000000000000000";

fn store(places: u64) -> Both {
    Both::new(Settings::new(places, 8, 2, 4))
}

/// A put of block 5, which is in bucket 0, at place 0 with key number `sequence`, up to its map.
fn mapped(data: &str, sequence: u64) -> String {
    format!("learn,0 put,0,0,5,{data} copy,{} savelog,0 savelog,1 map,0,5", KEY + sequence)
}

/// The same carried through to done, with the pair at places 0 and 1.
fn written(data: &str, sequence: u64) -> String {
    format!("{} send,5 deliver,0 savemap,0 savemap,1 done,0,5", mapped(data, sequence))
}

/// Every bucket fetched and made ready.
fn all_ready() -> String {
    (0..16).map(|bucket| format!("fetch,{bucket} ready,{bucket} ")).collect()
}

fn pairs(state: &State) -> Vec<(u64, u64)> {
    state.buckets.iter().map(|b| b.pair).map(|Pair { primary, backup }| (primary, backup)).collect()
}

#[test]
fn numbers_of_places() {
    for (places, passes) in [(2, false), (3, true), (8, true), (9, false)] {
        let settings = Settings::new(places, 8, 2, 4);
        let before = Random::new(1).bytes(length(settings));
        let mut bytes = before.clone();
        assert_eq!(State::formatted(settings).is_some(), passes, "{places}");
        assert_eq!(call_tests::store::length(settings), if passes { before.len() as u64 } else { 0 }, "{places}");
        assert_eq!(call_tests::store::format(&mut bytes, settings), if passes { OK } else { BAD_SETTINGS }, "{places}");
        assert!(passes || bytes == before, "{places}");
    }
}

#[test]
fn blocks_and_their_owners() {
    assert_eq!(store(3).line(&format!("put,0,0,{},{A1}", 1u64 << 51)), refused(3));
    assert_eq!(store(3).line(&format!("put,0,0,{},{A1}", 1u64 << 49)), refused(4));
    assert_eq!(store(3).line(&format!("put,3,0,{},{A1}", (1u64 << 51) - 1)), done(KEY));
}

/// 1,023 is in bucket 0, 1,024 in bucket 1, 16,384 in bucket 0: each is read where that bucket alone is ready.
#[test]
fn buckets_of_blocks() {
    for (block, bucket) in [(1023, 0), (1024, 1), (16_384, 0)] {
        let mut both = store(3);
        both.accepted("view learn,0");
        for other in 0..16 {
            assert_eq!(both.line(&format!("get,0,{block}")), if other <= bucket { refused(7) } else { shown(0, ZEROS) });
            both.accepted(&format!("fetch,{other} ready,{other}"));
        }
    }
}

#[test]
fn pairs_of_three_bricks() {
    let repeating: Vec<(u64, u64)> = [(1, 2), (3, 1), (2, 3)].into_iter().cycle().take(16).collect();
    assert_eq!(pairs(&store(3).0.state), repeating);
    assert_eq!(repeating[15], (1, 2));
}

#[test]
fn pairs_without_brick_2() {
    let mut both = store(3);
    both.accepted("lose,1 view");
    assert_eq!(pairs(&both.0.state)[..3], [(1, 3), (3, 1), (3, 1)]);
}

#[test]
fn a_map_before_savelog() {
    assert_eq!(store(3).last(&format!("learn,0 put,0,0,5,{A1} map,0,5")), refused(11));
}

/// The home alone, a second copy that is not saved, or one at a brick that is no member: each would be lost with one brick.
#[test]
fn a_map_with_one_saved_copy() {
    let put = format!("learn,0 put,0,0,5,{A1} copy,{KEY}");
    for saves in ["savelog,0", "savelog,1", "savelog,0 savelog,1 crash,1", "savelog,0 savelog,1 lose,1", "savelog,0 savelog,1 crash,1 rise,1"] {
        assert_eq!(store(3).last(&format!("{put} {saves} map,0,5")), refused(11), "{saves}");
    }
    assert_eq!(store(3).last(&format!("{put} savelog,0 savelog,1 map,0,5")), done(0));
}

/// Blocks 5, 6 and 7 put at place 0 of a fresh store, saved there and at place 1.
fn put_three() -> String {
    let puts: String = (0..3).map(|i| format!("put,0,0,{},{A1} copy,{} ", 5 + i, KEY + i)).collect();
    format!("learn,0 {puts} savelog,0 savelog,1")
}

#[test]
fn a_third_new_block_with_two_entries() {
    let mut both = store(3);
    both.accepted(&format!("{} map,0,5 map,0,6", put_three()));
    assert_eq!(both.line("map,0,7"), refused(10));
}

#[test]
fn a_second_crash_of_one_place() {
    assert_eq!(store(3).last("crash,1 crash,1"), refused(13));
}

/// A copy under the old key lives at brick 2: the brick's next key is another, and both bricks have its bytes.
#[test]
fn numbering_from_the_last_saved_chunk_after_a_crash() {
    let mut both = store(3);
    both.accepted(&format!("put,0,0,5,{A1} copy,{KEY} savelog,1 crash,0 rise,0 view"));
    assert_eq!(both.line(&format!("put,0,0,6,{B2}")), done(KEY + 1024));
    both.accepted(&format!("copy,{} savelog,0 savelog,1 learn,0 {}", KEY + 1024, all_ready()));
    assert_eq!(both.line("map,0,5"), refused(11));
    both.accepted("map,0,6 send,6 deliver,0 savemap,0 savemap,1 savemap,2");
    assert_eq!(both.line("get,0,6"), shown(KEY + 1024, B2));
    both.accepted(&format!("crash,0 view learn,0 {}", all_ready()));
    assert_eq!(both.line("get,0,6"), shown(KEY + 1024, B2));
}

/// Brick 1 keeps an old copy while it is down. It is up again in the next view, and the lowest id, but no source.
#[test]
fn fetching_from_any_old_holder() {
    let mut both = store(3);
    both.accepted(&format!("{} crash,0 view learn,0 {}", written(A1, 0), all_ready()));
    let key = 2 * KEY;
    both.accepted(&format!("put,0,1,5,{B2} copy,{key} savelog,1 savelog,2 map,0,5 send,5 deliver,0 savemap,1 savemap,2 done,0,5"));
    both.accepted(&format!("rise,0 view learn,0 {}", all_ready()));
    assert_eq!(both.line("get,0,5"), shown(key, B2));
}

/// Bricks 1 and 2 were the last ready pair of bucket 0; with both gone there is no source, whoever is up.
#[test]
fn fetching_where_the_last_pair_is_gone() {
    assert_eq!(store(5).last("crash,0 crash,1 view fetch,0"), refused(13));
    assert_eq!(store(5).last("crash,0 crash,1 view rise,0 fetch,0"), refused(13));
    assert_eq!(store(5).last("crash,0 crash,1 view rise,0 view fetch,0"), done(0));
}

/// The last ready pair's backup is the source where the primary is up and no member.
#[test]
fn fetching_from_a_risen_brick() {
    let mut both = store(3);
    both.accepted(&format!("{} crash,0 view rise,0 learn,0 fetch,0 ready,0", written(A1, 0)));
    assert_eq!(both.line("get,0,5"), shown(KEY, A1));
}

#[test]
fn showing_a_pending_block() {
    let mut both = store(3);
    both.accepted(&mapped(A1, 0));
    for line in ["send,5", "deliver,0", "savemap,0"] {
        assert_eq!(both.line("get,0,5"), refused(8));
        assert_eq!(both.line("done,0,5"), refused(8));
        both.accepted(line);
    }
    assert_eq!(both.line("get,0,5"), refused(8));
    both.accepted("savemap,1");
    assert_eq!(both.line("get,0,5"), shown(KEY, A1));
}

/// A lost backup gives key 0, a crashed one what it has on disk.
#[test]
fn showing_a_block_pending_at_a_backup_that_is_gone() {
    let mut both = store(3);
    both.accepted(&format!("{} lose,1", written(A1, 0)));
    assert_eq!(both.line("get,0,5"), refused(8));
    let mut both = store(3);
    both.accepted(&format!("{} crash,1", written(A1, 0)));
    assert_eq!(both.line("get,0,5"), shown(KEY, A1));
    let mut both = store(3);
    both.accepted(&format!("{} send,5 deliver,0 savemap,0 crash,1", mapped(A1, 0)));
    assert_eq!(both.line("get,0,5"), refused(8));
}

#[test]
fn showing_a_block_that_waits_in_the_buffer() {
    let mut both = store(3);
    both.accepted(&format!("view {}", mapped(A1, 0)));
    assert_eq!(both.line("map,0,5"), refused(8));
    both.accepted("fetch,0 ready,0");
    assert_eq!(both.line("get,0,5"), refused(8));
    both.accepted("send,5 deliver,0 savemap,0 savemap,1");
    assert_eq!(both.line("get,0,5"), shown(KEY, A1));
}

/// The first write's relay is doubled; the second one arrives after the second write's.
#[test]
fn taking_a_relay_by_arrival_alone() {
    let mut both = store(3);
    both.accepted(&format!("{} send,5 send,5", mapped(A1, 0)));
    assert_eq!(both.line("deliver,0"), done(1));
    both.accepted(&format!("savemap,0 savemap,1 done,0,5 {} send,5", mapped(B2, 1)));
    assert_eq!(both.line("deliver,1"), done(1));
    assert_eq!(both.line("deliver,0"), done(0));
    both.accepted("savemap,0 savemap,1 done,0,5");
    assert_eq!(both.line("get,0,5"), shown(KEY + 1, B2));
}

/// Order numbers begin again with each view, so the number alone says nothing of a relay of an older one.
#[test]
fn taking_a_relay_of_an_older_view() {
    let mut both = store(3);
    both.accepted(&format!("{} send,5 send,5 send,5 deliver,0 savemap,0 savemap,1 done,0,5 view learn,0 {}", mapped(A1, 0), all_ready()));
    both.accepted(&format!("{} send,5 deliver,2", mapped(B2, 1)));
    assert_eq!(both.line("deliver,0"), done(0));
    assert_eq!(both.line("deliver,0"), done(0));
    both.accepted("savemap,0 savemap,1 savemap,2 done,0,5");
    assert_eq!(both.line("get,0,5"), shown(KEY + 1, B2));
}

#[test]
fn get_always_zeros() {
    let mut both = store(3);
    both.accepted(&written(A1, 0));
    assert_eq!(both.line("get,0,5"), shown(KEY, A1));
}

#[test]
fn every_relay_set_aside() {
    assert_eq!(store(3).last(&format!("{} send,5 deliver,0", mapped(A1, 0))), done(1));
}

#[test]
fn full_said_of_an_empty_log() {
    let mut both = store(3);
    for sequence in 0..4 {
        assert_eq!(both.line(&format!("put,0,0,{},{A1}", 5 + sequence)), done(KEY + sequence));
        assert_eq!(both.line(&format!("copy,{}", KEY + sequence)), done(0));
    }
    assert_eq!(both.line(&format!("put,0,0,9,{A1}")), refused(10));
    // an abandoned chunk's room is used again after a collect
    both.accepted("reset,0 collect,0");
    assert_eq!(both.line(&format!("put,0,0,9,{A1}")), done(KEY + 4));
}

#[test]
fn only_the_first_event_carried_out() {
    assert_eq!(store(3).last(&format!("put,0,0,5,{A1} put,0,0,6,{A1}")), done(KEY + 1));
}

#[test]
fn code_0_with_nothing_stored() {
    let mut both = store(3);
    both.accepted(&format!("{} {}", written(A1, 0), written(B2, 1)));
    assert_eq!(both.line("get,0,5"), shown(KEY + 1, B2));
}

#[test]
fn refusing_all() {
    let mut both = store(3);
    both.accepted(&format!("{} send,5 drop,0", mapped(A1, 0)));
    both.accepted("abandon,0,5 send,5 deliver,0 savemap,0 savemap,1 mend,0 mend,1 mend,2 collect,0 collect,1 collect,2 reset,0");
    both.accepted("crash,0 rise,0 lose,1 join,1 learn,1 savemap,2 savelog,2");
}

/// A brick crashes and rises, or is lost and a blank one joins; a new view, and every place is mended.
fn crash_and_repair(place: usize, is_lost: bool) -> String {
    let gone = if is_lost { format!("lose,{place} join,{place}") } else { format!("crash,{place} rise,{place}") };
    format!("{gone} view learn,0 {} mend,0 mend,1 mend,2", all_ready())
}

/// Whichever bricks crash or are lost, each from a whole store, the block is shown.
#[test]
fn crashes_and_losses_of_whole_stores() {
    for three in 0..6 * 6 * 6 {
        let mut both = store(3);
        both.accepted(&written(A1, 0));
        for one in [three % 6, three / 6 % 6, three / 36] {
            assert!(both.0.state.is_whole());
            both.accepted(&crash_and_repair(one % 3, one >= 3));
            assert_eq!(both.line("get,0,5"), shown(KEY, A1));
        }
    }
}

/// A second write of the block is cut off by a crash after each of its events, at each place. The next view shows one of the two writes, and the one in which
/// the brick is back shows the same.
#[test]
fn crashes_with_a_write_under_way() {
    let second = format!("put,0,0,5,{B2} copy,{} savelog,0 savelog,1 map,0,5 send,5 deliver,0 savemap,0 savemap,1", KEY + 1);
    let second: Vec<&str> = second.split(' ').collect();
    for (cut, place) in (0..=second.len()).flat_map(|cut| (0..3).map(move |place| (cut, place))) {
        let mut both = store(3);
        both.accepted(&format!("{} {}", written(A1, 0), second[..cut].join(" ")));
        assert!(both.0.state.is_all_up_and_ready());
        both.accepted(&format!("crash,{place} view learn,0 {}", all_ready()));
        let (code, key, _) = both.line("get,0,5");
        assert!(code == 0 && (key == KEY || key == KEY + 1), "{cut} {place}: {code}");
        both.accepted(&format!("rise,{place} view learn,0 {}", all_ready()));
        assert_eq!(both.line("get,0,5"), shown(key, if key == KEY { A1 } else { B2 }));
    }
}

/// A copy has room for two; of three blocks that wait the third is dropped, and it is as if it had not been mapped.
#[test]
fn a_buffer_with_more_than_the_copy_holds() {
    let mut both = store(3);
    both.accepted(&format!("view {} map,0,7 map,0,5 map,0,6 fetch,0 ready,0", put_three()));
    both.accepted("send,5 send,7");
    assert_eq!(both.line("send,6"), refused(13));
    assert_eq!(both.line("get,0,6"), shown(0, ZEROS));
    assert_eq!(both.line("map,0,6"), refused(10));
}

/// The chunk's home is gone; it is found at the next member upward, and then around the circle.
#[test]
fn reads_around_the_circle() {
    let mut both = store(3);
    both.accepted(&format!("learn,0 put,0,2,5,{A1} copy,{} savelog,2 savelog,0 map,0,5 send,5 deliver,0 savemap,0 savemap,1 done,0,5", 3 * KEY));
    both.accepted("crash,2");
    assert_eq!(both.line("get,0,5"), shown(3 * KEY, A1));
    both.accepted("crash,0 rise,0");
    assert_eq!(both.line("get,0,5"), refused(6));
}
