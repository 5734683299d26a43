//! The history machine finds what the claim about lists forbids.
use event_tests::history::{Found, History};
use event_tests::model::{kind, Answer, Call};

const A1: u8 = 0xa1;
const B2: u8 = 0xb2;

fn call(kind: u64, numbers: [u64; 3], byte: u8) -> Call {
    Call::new(kind, numbers, vec![byte; 8], 8)
}

fn told(key: u64, data: Option<u8>) -> Answer {
    Answer { code: 0, key, data: data.map(|byte| vec![byte; 8]) }
}

fn put(history: &mut History, block: u64, key: u64, byte: u8) -> Result<(), String> {
    history.watch(&call(kind::PUT, [0, 0, block], byte), &told(key, None), Found::default())
}

fn confirm(history: &mut History, block: u64) -> Result<(), String> {
    history.watch(&call(kind::DONE, [0, block, 0], 0), &told(0, None), Found::default())
}

fn read(history: &mut History, block: u64, key: u64, byte: u8) -> Result<(), String> {
    history.watch(&call(kind::GET, [0, block, 0], 0), &told(key, Some(byte)), Found::default())
}

/// An event of one field, accepted or refused.
fn event(history: &mut History, kind: u64, a: u64, code: u64, found: Found) -> Result<(), String> {
    history.watch(&call(kind, [a, 0, 0], 0), &Answer { code, key: 0, data: None }, found)
}

const LESS: Found = Found { whole: false, all_up_and_ready: false };
const READY: Found = Found { whole: false, all_up_and_ready: true };
const WHOLE: Found = Found { whole: true, all_up_and_ready: true };

/// Block 5 written twice, with keys 1 and 2; the first write confirmed.
fn written_twice() -> History {
    let mut history = History::default();
    put(&mut history, 5, 1, A1).unwrap();
    confirm(&mut history, 5).unwrap();
    put(&mut history, 5, 2, B2).unwrap();
    history
}

#[test]
fn one_key_twice() {
    let mut history = written_twice();
    assert!(put(&mut history, 6, 3, A1).is_ok());
    assert!(put(&mut history, 7, 1, A1).is_err());
}

#[test]
fn reads_that_may_be() {
    let mut history = written_twice();
    assert!(read(&mut history, 5, 1, A1).is_ok());
    assert!(read(&mut history, 5, 2, B2).is_ok());
    assert!(read(&mut history, 9, 0, 0).is_ok());
}

#[test]
fn a_read_older_than_a_shown_one() {
    let mut history = written_twice();
    assert!(read(&mut history, 5, 2, B2).is_ok());
    assert!(read(&mut history, 5, 1, A1).is_err());
}

#[test]
fn a_read_older_than_a_confirmed_one() {
    let mut history = written_twice();
    confirm(&mut history, 5).unwrap();
    assert!(read(&mut history, 5, 1, A1).is_err());
}

#[test]
fn zeros_after_a_confirmed_write() {
    assert!(read(&mut written_twice(), 5, 0, 0).is_err());
}

#[test]
fn other_bytes_and_other_blocks() {
    assert!(read(&mut written_twice(), 5, 1, B2).is_err());
    assert!(read(&mut written_twice(), 6, 1, A1).is_err());
    assert!(read(&mut written_twice(), 5, 7, A1).is_err());
    assert!(read(&mut written_twice(), 9, 0, A1).is_err());
    assert!(confirm(&mut written_twice(), 9).is_err());
}

/// What is refused for want, where every crash and loss struck a whole store, and where one did not.
#[test]
fn want() {
    for (kind, found, forbidden) in [(kind::CRASH, WHOLE, true), (kind::CRASH, LESS, false), (kind::LOSE, WHOLE, true), (kind::LOSE, READY, false)] {
        let mut history = History::default();
        assert!(event(&mut history, kind, 0, 0, found).is_ok());
        assert_eq!(event(&mut history, kind::GET, 0, 11, LESS).is_err(), forbidden);
        assert!(event(&mut history, kind::FETCH, 3, 13, LESS).is_ok());
        event(&mut history, kind::VIEW, 0, 0, LESS).unwrap();
        assert_eq!(event(&mut history, kind::FETCH, 3, 13, LESS).is_err(), forbidden);
        event(&mut history, kind::READY, 3, 0, LESS).unwrap();
        assert!(event(&mut history, kind::FETCH, 3, 13, LESS).is_ok());
        assert_eq!(event(&mut history, kind::FETCH, 4, 13, LESS).is_err(), forbidden);
    }
}

/// Lists of crashes and losses, with what each found: after which a get for want of bytes is forbidden, as long as no loss is accepted and each crash finds
/// every place an up member and every bucket ready, or each of both a whole store.
#[test]
fn want_of_bytes() {
    let rows: [(&[(u64, u64, Found)], bool); 9] = [
        (&[], true),
        (&[(kind::CRASH, 0, READY)], true),
        (&[(kind::CRASH, 0, READY), (kind::CRASH, 0, READY)], true),
        (&[(kind::CRASH, 0, WHOLE), (kind::CRASH, 0, READY)], true),
        (&[(kind::CRASH, 0, READY), (kind::CRASH, 0, LESS)], false),
        (&[(kind::CRASH, 0, LESS), (kind::CRASH, 0, READY)], false),
        (&[(kind::LOSE, 0, WHOLE), (kind::CRASH, 0, READY)], false),
        (&[(kind::CRASH, 0, READY), (kind::LOSE, 0, WHOLE)], false),
        (&[(kind::CRASH, 0, READY), (kind::LOSE, 13, LESS), (kind::CRASH, 13, LESS)], true),
    ];
    for (list, forbidden) in rows {
        let mut history = History::default();
        list.iter().for_each(|&(kind, code, found)| event(&mut history, kind, 0, code, found).unwrap());
        assert_eq!(event(&mut history, kind::GET, 0, 11, LESS).is_err(), forbidden, "{list:?}");
    }
}

/// The claim on two saved copies says nothing of sources.
#[test]
fn want_of_a_source_with_writes_under_way() {
    let mut history = History::default();
    event(&mut history, kind::CRASH, 0, 0, READY).unwrap();
    event(&mut history, kind::VIEW, 0, 0, LESS).unwrap();
    assert!(event(&mut history, kind::FETCH, 3, 13, LESS).is_ok());
}

/// A crash that is refused strikes nothing.
#[test]
fn refused_crashes() {
    let mut history = History::default();
    assert!(event(&mut history, kind::CRASH, 0, 13, LESS).is_ok());
    assert!(event(&mut history, kind::GET, 0, 11, LESS).is_err());
}
