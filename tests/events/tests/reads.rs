//! Random lists of calls, batches and reads of many blocks, compared with the same events one by one, on the proved calls and on the model, which the history
//! machine watches. A read with a slip is found by the same lists.
use call_tests::code::{BAD_INPUT, OK, UNSOUND};
use call_tests::kind::{self, GET};
use call_tests::store::model::Settings;
use call_tests::store::{read, HEAD};
use event_tests::model::PROXIES;
use event_tests::reads::{ReadCall, MOST_BLOCKS};
use event_tests::requests::{lists, Tally};
use event_tests::setting;

/// So many events meet all that can be met.
const ENOUGH: u64 = 400_000;

/// DISK_EVENTS says how many events, and DISK_SEED gives other lists.
#[test]
fn random_requests() {
    let (seed, events) = (setting("DISK_SEED", 1), setting("DISK_EVENTS", ENOUGH));
    println!("seed {seed}, {events} events");
    let tally = lists(seed, events, read).unwrap_or_else(|failure| panic!("seed {seed}: {}", failure.shortened(read).text()));
    println!("{tally:?}");
    let Tally { calls, batches, reads, full, twice, refused, gets, shown, promised, .. } = tally;
    if events >= ENOUGH {
        assert!(kind::of(GET).codes().all(|code| gets.of(GET, code) > events / 20_000), "{}", gets.table());
        assert!(calls > events / 20 && batches.batches > events / 10 && reads > events / 40 && promised > 100);
        assert!(shown > events / 50 && gets.of(GET, OK) > shown + events / 50 && full > 50 && twice > events / 500);
        assert!([UNSOUND, BAD_INPUT].iter().all(|&code| refused[code as usize] > events / 400), "{refused:?}");
    }
}

/// What the lists find first of a slip; the true call passes the list that finds it.
fn found(slip: ReadCall) -> String {
    let failure = lists(1, ENOUGH, slip).expect_err("a slip").shortened(slip);
    println!("{}", failure.text());
    assert_eq!(failure.replay(read), Ok(()));
    failure.why
}

/// An answer is another one.
fn changes_an_answer(slip: ReadCall) {
    let why = found(slip);
    assert!(why.starts_with("answer"), "{why}");
}

/// The call is refused, or is not, or with another number.
fn changes_the_number(slip: ReadCall) {
    let why = found(slip);
    assert!(why.starts_with("read"), "{why}");
}

/// A read in which each answer is then changed, told what its bytes were before.
fn each_changed(store: &[u8], proxy: u64, blocks: &[u64], answers: &mut [u8], change: fn(&mut [u8], &[u8])) -> u64 {
    let old = answers.to_vec();
    let code = read(store, proxy, blocks, answers);
    if code == 0 {
        let length = answer_length(store);
        answers.chunks_exact_mut(length).zip(old.chunks_exact(length)).take(blocks.len()).for_each(|(answer, old)| change(answer, old));
    }
    code
}

/// Of a sound store.
fn answer_length(store: &[u8]) -> usize {
    HEAD + Settings::of(store).size as usize
}

#[test]
fn a_key_low_byte_first() {
    changes_an_answer(|store, proxy, blocks, answers| each_changed(store, proxy, blocks, answers, |answer, _| answer[1..HEAD].reverse()));
}

#[test]
fn a_refused_block_whose_bytes_stay() {
    changes_an_answer(|store, proxy, blocks, answers| {
        each_changed(store, proxy, blocks, answers, |answer, old| {
            if answer[0] != 0 {
                answer[HEAD..].copy_from_slice(&old[HEAD..])
            }
        })
    });
}

#[test]
fn zeros_for_every_block() {
    changes_an_answer(|store, proxy, blocks, answers| each_changed(store, proxy, blocks, answers, |answer, _| answer[HEAD..].fill(0)));
}

#[test]
fn answers_shifted_by_one() {
    changes_an_answer(|store, proxy, blocks, answers| {
        let code = read(store, proxy, blocks, answers);
        if code == 0 && !blocks.is_empty() {
            let length = answer_length(store);
            answers[..blocks.len() * length].rotate_left(length);
        }
        code
    });
}

#[test]
fn a_block_named_twice_and_answered_once() {
    changes_an_answer(|store, proxy, blocks, answers| {
        let once: Vec<u64> = (0..blocks.len()).filter(|&i| !blocks[..i].contains(&blocks[i])).map(|i| blocks[i]).collect();
        read(store, proxy, &once, answers)
    });
}

#[test]
fn no_answer_after_a_refused_block() {
    changes_an_answer(|store, proxy, blocks, answers| {
        let old = answers.to_vec();
        let code = read(store, proxy, blocks, answers);
        if code == 0 {
            let length = answer_length(store);
            let refused = answers.chunks_exact(length).take(blocks.len()).position(|answer| answer[0] != 0);
            let end = length * refused.map_or(blocks.len(), |i| i + 1);
            answers[end..].copy_from_slice(&old[end..]);
        }
        code
    });
}

#[test]
fn bytes_past_the_last_answer_cleared() {
    let why = found(|store, proxy, blocks, answers| {
        let code = read(store, proxy, blocks, answers);
        if code == 0 {
            answers[blocks.len() * answer_length(store)..].fill(0);
        }
        code
    });
    assert!(why.starts_with("a byte past the answers"), "{why}");
}

#[test]
fn a_proxy_out_of_range_that_refuses_the_call() {
    changes_the_number(|store, proxy, blocks, answers| match read(store, proxy, &[], &mut []) {
        0 if proxy >= PROXIES as u64 => 3,
        _ => read(store, proxy, blocks, answers),
    });
}

#[test]
fn one_block_more_than_the_most() {
    changes_the_number(|store, proxy, blocks, answers| read(store, proxy, &blocks[..blocks.len().min(MOST_BLOCKS)], answers));
}

#[test]
fn one_block_less_than_the_most() {
    changes_the_number(|store, proxy, blocks, answers| match read(store, proxy, &[], &mut []) {
        0 if blocks.len() >= MOST_BLOCKS => 3,
        _ => read(store, proxy, blocks, answers),
    });
}

#[test]
fn an_area_that_has_to_be_longer() {
    changes_the_number(|store, proxy, blocks, answers| match read(store, proxy, &[], &mut []) {
        0 if answers.len() <= blocks.len() * answer_length(store) => 3,
        _ => read(store, proxy, blocks, answers),
    });
}

#[test]
fn too_many_blocks_before_an_unsound_store() {
    changes_the_number(|store, proxy, blocks, answers| if blocks.len() > MOST_BLOCKS { 3 } else { read(store, proxy, blocks, answers) });
}

#[test]
fn no_blocks_of_an_unsound_store() {
    changes_the_number(|store, proxy, blocks, answers| if blocks.is_empty() { 0 } else { read(store, proxy, blocks, answers) });
}
