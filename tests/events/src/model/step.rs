//! One event on a state. Each kind asks its questions in their order and then changes the state.
use super::call::{event, Call, Event};
use super::{Block, Key, State, COPIES};

/// The number of the question that says no.
#[derive(Clone, Copy, Debug, PartialEq, Eq)]
pub struct Refusal(pub u64);

/// What an event is told.
#[derive(Clone, Debug, PartialEq, Eq)]
pub struct Answer {
    pub code: u64,
    pub key: u64,
    pub data: Option<Vec<u8>>,
}

pub type Told = Result<Answer, Refusal>;

pub fn ask(question: u64, yes: bool) -> Result<(), Refusal> {
    if yes {
        Ok(())
    } else {
        Err(Refusal(question))
    }
}

pub fn done(key: u64) -> Told {
    Ok(Answer { code: 0, key, data: None })
}

pub fn shown(key: Option<Key>, data: Vec<u8>) -> Told {
    Ok(Answer { code: 0, key: key.map_or(0, |k| k.0), data: Some(data) })
}

impl Answer {
    pub fn refused(code: u64) -> Self {
        Answer { code, key: 0, data: None }
    }
}

impl State {
    /// Question 4.
    pub(super) fn ask_owner(&self, proxy: usize, block: Block) -> Result<(), Refusal> {
        ask(4, block.proxy() == proxy)
    }

    /// Question 5.
    pub(super) fn ask_known_view(&self, proxy: usize) -> Result<(), Refusal> {
        ask(5, self.proxies[proxy].known == self.view)
    }
}

/// On a refusal the state stays as it was.
pub fn step(state: &mut State, call: &Call) -> Answer {
    step_with(COPIES, state, call)
}

/// The same where a map asks for so many saved copies: with fewer than the rules ask for, bytes are lost.
pub fn step_with(copies: usize, state: &mut State, call: &Call) -> Answer {
    let told = event(state, call).and_then(|e| dispatch(copies, state, e));
    told.unwrap_or_else(|Refusal(code)| Answer::refused(code))
}

fn dispatch(copies: usize, state: &mut State, event: Event) -> Told {
    match event {
        Event::Put { proxy, place, block, data } => state.put(proxy, place, block, data),
        Event::Copy(key) => state.copy(key),
        Event::SaveLog(place) => state.savelog(place),
        Event::Map(proxy, block) => state.map(proxy, block, copies),
        Event::Send(block) => state.send(block),
        Event::Deliver(index) => state.deliver(index),
        Event::Drop(index) => state.drop_relay(index),
        Event::SaveMap(place) => state.savemap(place),
        Event::Done(proxy, block) => state.done(proxy, block),
        Event::Get(proxy, block) => state.get(proxy, block),
        Event::Abandon(proxy, block) => state.abandon(proxy, block),
        Event::Learn(proxy) => state.learn(proxy),
        Event::Reset(proxy) => state.reset(proxy),
        Event::Crash(place) => state.crash(place),
        Event::Lose(place) => state.lose(place),
        Event::Rise(place) => state.rise(place),
        Event::Join(place) => state.join(place),
        Event::View => state.begin_view(),
        Event::Fetch(bucket) => state.fetch(bucket),
        Event::Ready(bucket) => state.make_ready(bucket),
        Event::Mend(place) => state.mend(place),
        Event::Collect(place) => state.collect(place),
    }
}
