//! The events directly on a store's bytes, written from the rules and docs/LAYOUT.md alone: the opponent of the proved step, of lists of events, and of reads
//! of many blocks.
mod asks;
mod log;
mod maps;
mod members;
mod membership;
mod pairs;
mod reads;
mod relays;
mod sound;
mod store;
mod table;
mod upkeep;
mod views;
mod words;
mod writes;

use call_tests::kind;
use call_tests::store::Answer;
use call_tests::text::model::Event;
use std::ops::Range;
use store::Store;

/// The key of an accepted event, or the number of the question that says no.
type Told = Result<u64, u64>;

/// 0 where the bytes are a sound store, else 2.
#[inline(never)]
pub fn check(store: &[u8]) -> u64 {
    let (words, rest) = store.as_chunks();
    if rest.is_empty() && sound::check(words).is_some() { 0 } else { 2 }
}

/// As disk_step.
#[inline(never)]
pub fn step(store: &mut [u8], e: &Event, data: &[u8], zero: &[u8], answer: &mut [u8]) -> Answer {
    let told = match Store::sound(store) {
        Some(store) if e.kind == kind::GET && !reads::is_zero_block(&store, zero) => Err(3),
        Some(mut store) => event(&mut store, e, data, answer),
        None => Err(2),
    };
    let [code, key] = answer_of(told);
    Answer { code, key }
}

/// As disk_run.
#[inline(never)]
pub fn run(store: &mut [u8], events: &[u64], data: &[u8], area: &mut [u8], answers: &mut [u64]) -> u64 {
    let Some(mut store) = Store::sound(store) else { return 2 };
    let ((events, rest), (answers, half)) = (events.as_chunks(), answers.as_chunks_mut());
    if !rest.is_empty() || !half.is_empty() || events.len() != answers.len() {
        return 3;
    }
    let size = 8 * store.shape.cell;
    for (&[kind, a, b, c, at], answer) in events.iter().zip(answers) {
        let (data, area) = match (kind, block(at, size)) {
            (kind::PUT, Some(block)) => (data.get(block).unwrap_or(&[]), &mut [][..]),
            (kind::GET, Some(block)) => (&[][..], area.get_mut(block).unwrap_or(&mut [])),
            _ => (&[][..], &mut [][..]),
        };
        *answer = answer_of(event(&mut store, &Event { code: 0, kind, a, b, c }, data, area));
    }
    0
}

/// As disk_read.
#[inline(never)]
pub fn read(store: &mut [u8], proxy: u64, blocks: &[u64], answers: &mut [u8]) -> u64 {
    Store::sound(store).map_or(2, |store| reads::read(&store, proxy, blocks, answers))
}

/// The bytes of a block; none where their numbers are too high for any area.
fn block(at: u64, size: usize) -> Option<Range<usize>> {
    let begin = usize::try_from(at).ok()?;
    Some(begin..begin.checked_add(size)?)
}

/// Code and key.
fn answer_of(told: Told) -> [u64; 2] {
    match told {
        Ok(key) => [0, key],
        Err(code) => [code, 0],
    }
}

fn event(s: &mut Store, e: &Event, data: &[u8], answer: &mut [u8]) -> Told {
    match e.kind {
        kind::PUT => writes::put(s, e.a, e.b, e.c, data),
        kind::COPY => writes::copy(s, e.a),
        kind::SAVELOG => writes::savelog(s, e.a),
        kind::MAP => maps::map(s, e.a, e.b),
        kind::SEND => relays::send(s, e.a),
        kind::DELIVER => relays::deliver(s, e.a),
        kind::DROP => relays::drop(s, e.a),
        kind::SAVEMAP => maps::savemap(s, e.a),
        kind::DONE => maps::done(s, e.a, e.b),
        kind::GET => reads::get(s, e.a, e.b, answer),
        kind::ABANDON => writes::abandon(s, e.a, e.b),
        kind::LEARN => membership::learn(s, e.a),
        kind::RESET => membership::reset(s, e.a),
        kind::CRASH => membership::crash(s, e.a),
        kind::LOSE => membership::lose(s, e.a),
        kind::RISE => membership::rise(s, e.a),
        kind::JOIN => membership::join(s, e.a),
        kind::VIEW => views::view(s),
        kind::FETCH => views::fetch(s, e.a),
        kind::READY => views::ready(s, e.a),
        kind::MEND => upkeep::mend(s, e.a),
        kind::COLLECT => upkeep::collect(s, e.a),
        _ => Err(3),
    }
}
