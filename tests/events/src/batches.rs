//! Many random lists of events, cut into batches at random places.
use crate::choose::one_of;
use crate::damage::Damage;
use crate::generate::{Generator, Profile};
use crate::lists::start;
use crate::model::{kind, State};
use crate::runs::{replay, text, Act, Lent, Runs, Tally};
use crate::shrink::shrink;
use call_tests::counts::Counts;
use call_tests::random::Random;
use call_tests::store::ListEvent;

/// What many lists came to.
#[derive(Clone, Debug, Default)]
pub struct Sum {
    pub lists: u64,
    pub tally: Tally,
    pub counts: Counts,
}

/// Room for some blocks, of any length; now and then for none.
fn some_bytes(r: &mut Random, size: usize) -> Vec<u8> {
    let length = if r.one_in(12) { r.below(size as u64) } else { r.among(size as u64, 6 * size as u64) };
    r.bytes(length as usize)
}

/// Mostly of a block within; now and then of one that reaches past by a little, or by far: then the block's end may be past 2^64.
fn at(r: &mut Random, size: u64, length: u64) -> u64 {
    let last = length.saturating_sub(size);
    match r.below(30) {
        0 => last + r.among(1, size + 1),
        1 => u64::MAX - r.below(2 * size),
        2 => r.number(),
        3 => last,
        _ => r.below(last + 1),
    }
}

/// Where a list begins, and how many acts follow.
pub fn lent(r: &mut Random) -> (Lent, u64) {
    let (start, length) = start(r);
    let size = start.size();
    (Lent { start, data: some_bytes(r, size), area: some_bytes(r, size) }, length)
}

/// The next event of a list.
pub fn event(r: &mut Random, generator: &mut Generator, state: &State, lent: &Lent) -> ListEvent {
    let call = generator.call(r, state);
    let length = if call.kind == kind::PUT { lent.data.len() } else { lent.area.len() };
    let at = at(r, state.size() as u64, length as u64);
    ListEvent { kind: call.kind, a: call.a, b: call.b, c: call.c, at }
}

/// What happens next, where a batch has so many events on the average.
pub fn act(r: &mut Random, generator: &mut Generator, state: &State, lent: &Lent, average: u64) -> Act {
    if r.one_in(60) {
        return Act::Probe(Damage::random(r, state));
    }
    if r.one_in(average + 1) {
        return Act::Run;
    }
    Act::Event(event(r, generator, state, lent))
}

/// Why a list fails, and that list made short.
fn explain(seed: u64, lent: &Lent, acts: Vec<Act>) -> String {
    let short = shrink(acts, |acts| replay(lent, acts).is_err());
    let why = replay(lent, &short).err().unwrap_or_default();
    format!("seed {seed}: {why}\n{}", text(lent, &short))
}

/// One list of its own seed.
fn list(seed: u64, sum: &mut Sum) -> Result<(), String> {
    let r = &mut Random::new(seed);
    let (lent, length) = lent(r);
    let profile = Profile::random(r);
    let mut generator = Generator::new(r, profile);
    let average = one_of(r, &[1, 3, 10, 30, 100]);
    let mut runs = Runs::new(&lent).map_err(|_| explain(seed, &lent, Vec::new()))?;
    let mut acts = Vec::new();
    for i in 0..=length {
        acts.push(if i < length { act(r, &mut generator, &runs.single.state, &lent, average) } else { Act::Run });
        runs.take(&acts[acts.len() - 1], &mut sum.tally).map_err(|_| explain(seed, &lent, std::mem::take(&mut acts)))?;
    }
    sum.lists += 1;
    sum.counts.add_all(&runs.single.counts);
    Ok(())
}

/// Lists until so many events are run.
pub fn batches(seed: u64, events: u64) -> Result<Sum, String> {
    let mut sum = Sum::default();
    let mut seeds = Random::new(seed);
    while sum.tally.events < events {
        list(seeds.next(), &mut sum)?;
    }
    Ok(sum)
}
