//! Many random lists, each on the proved calls and on the model.
use crate::generate::{edited, settings, Generator, Profile};
use crate::layout::length;
use crate::model::kind;
use crate::shrink::{replay, show, shrink};
use crate::situations::{Met, Moment};
use crate::trial::{Act, Start, Trial};
use call_tests::counts::Counts;
use call_tests::random::Random;

/// What many lists came to.
#[derive(Clone, Debug, Default)]
pub struct Sum {
    pub counts: Counts,
    pub events: u64,
    pub lists: u64,
    /// of every fourth list
    pub met: Met,
    /// lists from format whose crashes and losses, at least one, all struck whole stores
    pub careful: u64,
    /// lists from format without a loss whose crashes, at least one, all found every place an up member and every bucket ready
    pub ready: u64,
}

/// Stores from here on have short lists, since each byte is compared after every event.
const LARGE: usize = 1 << 18;

/// A start, and how many acts follow.
pub fn start(r: &mut Random) -> (Start, u64) {
    let s = settings(r);
    let acts = if length(s) < LARGE { r.among(50, 1200) } else { 60 };
    if r.one_in(4) && length(s) < LARGE {
        (Start::Edited(edited(r, s)), acts)
    } else {
        (Start::Format(s, r.bytes(length(s))), acts)
    }
}

/// Why a list fails, and that list made short.
fn explain(seed: u64, start: &Start, acts: Vec<Act>) -> String {
    let short = shrink(acts, |acts| replay(start, acts).is_err());
    let why = replay(start, &short).err().unwrap_or_default();
    format!("seed {seed}: {why}\n{}", show(start, &short))
}

/// One list of its own seed.
fn list(seed: u64, most: u64, sum: &mut Sum) -> Result<(), String> {
    let r = &mut Random::new(seed);
    let ((start, length), profile) = (start(r), Profile::random(r));
    let mut generator = Generator::new(r, profile);
    let mut trial = Trial::new(&start).map_err(|_| explain(seed, &start, Vec::new()))?;
    let (mut acts, mut crashes, watched) = (Vec::new(), 0, sum.lists.is_multiple_of(4));
    for _ in 0..length.min(most) {
        let act = generator.act(r, &trial.state);
        acts.push(act.clone());
        let before = watched.then(|| trial.state.clone());
        let answer = trial.take(&act).map_err(|_| explain(seed, &start, std::mem::take(&mut acts)))?;
        if let Act::Step(call) = &act {
            sum.events += 1;
            crashes += (matches!(call.kind, kind::CRASH | kind::LOSE) && answer.code == 0) as u64;
            if let Some(before) = &before {
                sum.met.add(&Moment { before, after: &trial.state, call }, answer.code);
            }
        }
    }
    sum.lists += 1;
    sum.careful += (crashes > 0 && trial.history.as_ref().is_some_and(|h| h.is_careful())) as u64;
    sum.ready += (crashes > 0 && trial.history.as_ref().is_some_and(|h| h.is_ready_before_crashes())) as u64;
    sum.counts.add_all(&trial.counts);
    Ok(())
}

/// Lists until so many events are made.
pub fn lists(seed: u64, events: u64) -> Result<Sum, String> {
    let mut sum = Sum::default();
    let mut seeds = Random::new(seed);
    while sum.events < events {
        list(seeds.next(), events, &mut sum)?;
    }
    Ok(sum)
}
