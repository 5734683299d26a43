//! The calls on a store behind safe functions.
pub mod model;
pub mod random;

use crate::lists::Relay;
use crate::text::model::Event;

/// What a step answers.
#[repr(C)]
#[derive(Clone, Copy, Debug, PartialEq, Eq)]
pub struct Answer {
    pub code: u64,
    pub key: u64,
}

/// An event of a list: its kind, its fields, and the byte at which a put's block begins in the data, a get's in the area.
#[derive(Clone, Copy, Debug, PartialEq, Eq)]
pub struct ListEvent {
    pub kind: u64,
    pub a: u64,
    pub b: u64,
    pub c: u64,
    pub at: u64,
}

/// The words of some events, as a list of them is lent.
pub fn words_of(events: &[ListEvent]) -> Vec<u64> {
    events.iter().flat_map(|e| [e.kind, e.a, e.b, e.c, e.at]).collect()
}

/// The answers in the words that a list of events leaves.
pub fn answers_in(words: &[u64]) -> Vec<Answer> {
    words.chunks(2).map(|two| Answer { code: two[0], key: two[1] }).collect()
}

/// The bytes of an answer of a read of many before the block's: the code in one, the key in eight.
pub const HEAD: usize = 9;

/// What a read of many answers for one block; of a refused one zeros.
#[derive(Clone, Debug, PartialEq, Eq)]
pub struct BlockAnswer {
    pub code: u64,
    pub key: u64,
    pub bytes: Vec<u8>,
}

impl BlockAnswer {
    /// The key lies high byte first.
    fn of(answer: &[u8]) -> Self {
        let (head, bytes) = answer.split_at(HEAD);
        let key = head[1..].iter().fold(0, |key, &byte| key * 256 + byte as u64);
        BlockAnswer { code: head[0] as u64, key, bytes: bytes.to_vec() }
    }
}

/// The answers in the bytes that a read of many leaves, in a store of blocks of so many bytes.
pub fn block_answers(answers: &[u8], size: usize, count: usize) -> Vec<BlockAnswer> {
    answers.chunks_exact(HEAD + size).take(count).map(BlockAnswer::of).collect()
}

/// What the call for the bag answers.
#[repr(C)]
#[derive(Clone, Copy, Debug, PartialEq, Eq)]
pub struct BagAnswer {
    pub code: u64,
    pub count: usize,
}

mod calls {
    use super::{Answer, BagAnswer};
    use crate::lists::Relay;

    extern "C" {
        pub fn disk_length(places: u64, size: u64, entries: u64, chunks: u64) -> u64;
        pub fn disk_format(store: *mut u8, length: usize, places: u64, size: u64, entries: u64, chunks: u64) -> u64;
        pub fn disk_check(store: *const u8, length: usize) -> u64;
        pub fn disk_step(
            store: *mut u8,
            length: usize,
            kind: u64,
            a: u64,
            b: u64,
            c: u64,
            data: *const u8,
            data_length: usize,
            zero: *const u8,
            zero_length: usize,
            answer: *mut u8,
            answer_length: usize,
        ) -> Answer;
        pub fn disk_run(
            store: *mut u8,
            length: usize,
            events: *const u64,
            event_words: usize,
            data: *const u8,
            data_length: usize,
            area: *mut u8,
            area_length: usize,
            answers: *mut u64,
            answer_words: usize,
        ) -> u64;
        pub fn disk_read(store: *const u8, length: usize, proxy: u64, blocks: *const u64, count: usize, answers: *mut u8, answers_length: usize) -> u64;
        pub fn disk_bag(store: *const u8, length: usize, relays: *mut Relay, count: usize) -> BagAnswer;
        pub fn disk_alike(store: *const u8, length: usize, other: *const u8, other_length: usize) -> u64;
    }
}

pub fn length(s: model::Settings) -> u64 {
    unsafe { calls::disk_length(s.places, s.size, s.entries, s.chunks) }
}

pub fn format(store: &mut [u8], s: model::Settings) -> u64 {
    unsafe { calls::disk_format(store.as_mut_ptr(), store.len(), s.places, s.size, s.entries, s.chunks) }
}

pub fn check(store: &[u8]) -> u64 {
    unsafe { calls::disk_check(store.as_ptr(), store.len()) }
}

pub fn step(store: &mut [u8], e: &Event, data: &[u8], zero: &[u8], answer: &mut [u8]) -> Answer {
    unsafe {
        calls::disk_step(
            store.as_mut_ptr(),
            store.len(),
            e.kind,
            e.a,
            e.b,
            e.c,
            data.as_ptr(),
            data.len(),
            zero.as_ptr(),
            zero.len(),
            answer.as_mut_ptr(),
            answer.len(),
        )
    }
}

/// Events and answers are lent as words: five for each event, two for each answer.
pub fn run(store: &mut [u8], events: &[u64], data: &[u8], area: &mut [u8], answers: &mut [u64]) -> u64 {
    unsafe {
        calls::disk_run(
            store.as_mut_ptr(),
            store.len(),
            events.as_ptr(),
            events.len(),
            data.as_ptr(),
            data.len(),
            area.as_mut_ptr(),
            area.len(),
            answers.as_mut_ptr(),
            answers.len(),
        )
    }
}

/// Many blocks of a proxy.
pub fn read(store: &[u8], proxy: u64, blocks: &[u64], answers: &mut [u8]) -> u64 {
    unsafe { calls::disk_read(store.as_ptr(), store.len(), proxy, blocks.as_ptr(), blocks.len(), answers.as_mut_ptr(), answers.len()) }
}

pub fn bag(store: &[u8], relays: &mut [Relay]) -> BagAnswer {
    unsafe { calls::disk_bag(store.as_ptr(), store.len(), relays.as_mut_ptr(), relays.len()) }
}

pub fn alike(store: &[u8], other: &[u8]) -> u64 {
    unsafe { calls::disk_alike(store.as_ptr(), store.len(), other.as_ptr(), other.len()) }
}
