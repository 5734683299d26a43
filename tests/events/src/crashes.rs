//! Lists without losses whose crashes find every place an up member and every bucket ready, mostly with writes under way: no get is refused for want of bytes.
use crate::choose::one_of;
use crate::generate::{under_way, Care, Generator, Profile};
use crate::history::{Found, History};
use crate::model::{kind, step_with, Answer, Block, Brick, Call, Settings, State};
use crate::shrink::{line, shrink};
use crate::trial::{Act, Trial};
use call_tests::random::Random;
use std::collections::BTreeSet;

/// A store from format whose list the history machine watches.
pub trait Watched {
    fn state(&self) -> &State;
    fn history(&self) -> &History;
    fn take(&mut self, call: &Call) -> Result<Answer, String>;
}

/// The proved calls and the model side by side.
impl Watched for Trial {
    fn state(&self) -> &State {
        &self.state
    }

    fn history(&self) -> &History {
        self.history.as_ref().expect("a list from format")
    }

    fn take(&mut self, call: &Call) -> Result<Answer, String> {
        Trial::take(self, &Act::Step(call.clone()))
    }
}

/// The model alone, its map with so many saved copies.
pub struct Model {
    copies: usize,
    state: State,
    history: History,
}

impl Model {
    pub fn new(copies: usize, settings: Settings) -> Self {
        Model { copies, state: State::formatted(settings).expect("settings in limits"), history: History::default() }
    }
}

impl Watched for Model {
    fn state(&self) -> &State {
        &self.state
    }

    fn history(&self) -> &History {
        &self.history
    }

    fn take(&mut self, call: &Call) -> Result<Answer, String> {
        let found = Found::before(call, &self.state);
        let answer = step_with(self.copies, &mut self.state, call);
        self.history.watch(call, &answer, found)?;
        Ok(answer)
    }
}

/// What was met.
#[derive(Clone, Debug, Default)]
pub struct Tally {
    pub lists: u64,
    pub events: u64,
    /// accepted crashes
    pub crashes: u64,
    /// those of a store with a pending block
    pub under_way: u64,
    /// those at a brick that has the chunk of such a block saved
    pub at_holder: u64,
    /// gets that show a write after such a crash
    pub shown: u64,
    /// those of a block that was pending at the last such crash
    pub shown_of_pending: u64,
}

/// The blocks that a crash finds pending, and whether its brick has the chunk of one of them saved.
#[derive(Default)]
struct Cut {
    pending: BTreeSet<Block>,
    at_holder: bool,
}

impl Cut {
    fn before(call: &Call, state: &State) -> Self {
        if call.kind != kind::CRASH || call.a >= state.settings.places {
            return Cut::default();
        }
        let pending = state.pending();
        let saved = |brick: &Brick| pending.iter().filter_map(|&block| state.mapped(block)).any(|key| brick.has_saved(key));
        Cut { at_holder: state.at(call.a as usize).is_some_and(saved), pending }
    }
}

impl Tally {
    /// What a crash finds pending, if anything, is kept for the gets after it.
    fn add(&mut self, call: &Call, answer: &Answer, cut: Cut, pending: &mut BTreeSet<Block>) {
        self.events += 1;
        match (call.kind, answer.code) {
            (kind::CRASH, 0) => {
                self.crashes += 1;
                self.at_holder += cut.at_holder as u64;
                if !cut.pending.is_empty() {
                    self.under_way += 1;
                    *pending = cut.pending;
                }
            }
            (kind::GET, 0) if answer.key != 0 && !pending.is_empty() => {
                self.shown += 1;
                self.shown_of_pending += pending.contains(&Block(call.b)) as u64;
            }
            _ => (),
        }
    }
}

/// A list that fails, and why.
#[derive(Clone, Debug)]
pub struct Failure {
    pub settings: Settings,
    pub calls: Vec<Call>,
    pub why: String,
}

impl Failure {
    /// The list made short: it still fails for the same reason.
    pub fn shortened<W: Watched>(self, new: impl Fn(Settings) -> W) -> Self {
        let calls = shrink(self.calls, |calls| replay(new(self.settings), calls) == Err(self.why.clone()));
        Failure { calls, ..self }
    }

    /// The reason, and the list as the trace program takes it.
    pub fn text(&self) -> String {
        let Settings { places, size, entries, chunks } = self.settings;
        let lines: String = self.calls.iter().map(line).collect();
        format!("{}\n{places},{size},{entries},{chunks}\n{lines}", self.why)
    }
}

/// Why a list fails.
pub fn replay<W: Watched>(mut store: W, calls: &[Call]) -> Result<(), String> {
    calls.iter().try_for_each(|call| store.take(call).map(drop))
}

/// One list on a store of its own.
fn list<W: Watched>(r: &mut Random, mut store: W, tally: &mut Tally) -> Result<(), Failure> {
    let (wild, skipped) = one_of(r, &[(0, 0), (2, 1), (5, 5)]);
    let mut generator = Generator::new(r, Profile { wild, skipped, care: Care::Ready, plan: under_way, probes: 0 });
    let (mut calls, mut pending) = (Vec::new(), BTreeSet::new());
    for _ in 0..r.among(500, 2500) {
        let call = generator.call(r, store.state());
        let cut = Cut::before(&call, store.state());
        calls.push(call.clone());
        match store.take(&call) {
            Ok(answer) => tally.add(&call, &answer, cut, &mut pending),
            Err(why) => return Err(Failure { settings: store.state().settings, calls, why }),
        }
    }
    assert!(store.history().is_ready_before_crashes(), "the generator made a list without the premise");
    tally.lists += 1;
    Ok(())
}

/// Lists until so many crashes have found writes under way.
pub fn lists<W: Watched>(seed: u64, crashes: u64, new: impl Fn(Settings) -> W) -> Result<Tally, Failure> {
    let (mut tally, mut seeds) = (Tally::default(), Random::new(seed));
    while tally.under_way < crashes {
        let r = &mut Random::new(seeds.next());
        let settings = Settings::new(r.among(3, 6), 8, r.among(2, 6), r.among(12, 40));
        list(r, new(settings), &mut tally)?;
    }
    Ok(tally)
}
