//! A call of the step with all that it lends, and question 3, which makes it an event.
use super::step::{ask, Refusal};
use super::{kind, Block, Key, State, BUCKETS, PROXIES};

#[derive(Clone, Debug, PartialEq, Eq)]
pub struct Call {
    pub kind: u64,
    pub a: u64,
    pub b: u64,
    pub c: u64,
    pub data: Vec<u8>,
    pub zero: Vec<u8>,
    /// the length of the lent answer area
    pub room: usize,
}

impl Call {
    /// With a right zero block and answer area.
    pub fn new(kind: u64, [a, b, c]: [u64; 3], data: Vec<u8>, size: usize) -> Self {
        Call { kind, a, b, c, data, zero: vec![0; size], room: size }
    }
}

#[derive(Clone, Debug, PartialEq, Eq)]
pub enum Event<'a> {
    Put { proxy: usize, place: usize, block: Block, data: &'a [u8] },
    Copy(Key),
    SaveLog(usize),
    Map(usize, Block),
    Send(Block),
    Deliver(usize),
    Drop(usize),
    SaveMap(usize),
    Done(usize, Block),
    Get(usize, Block),
    Abandon(usize, Block),
    Learn(usize),
    Reset(usize),
    Crash(usize),
    Lose(usize),
    Rise(usize),
    Join(usize),
    View,
    Fetch(usize),
    Ready(usize),
    Mend(usize),
    Collect(usize),
}

fn below(value: u64, end: usize) -> Result<usize, Refusal> {
    ask(3, value < end as u64).map(|()| value as usize)
}

fn block(value: u64) -> Result<Block, Refusal> {
    ask(3, Block(value).in_range()).map(|()| Block(value))
}

fn key(value: u64) -> Result<Key, Refusal> {
    ask(3, Key(value).home() >= 1).map(|()| Key(value))
}

/// The event of a call, where question 3 says yes.
pub fn event<'a>(state: &State, call: &'a Call) -> Result<Event<'a>, Refusal> {
    let Call { a, b, c, .. } = *call;
    let place = |value| below(value, state.places.len());
    let proxy = |value| below(value, PROXIES);
    let index = |value| below(value, state.bag.len());
    let bucket = |value| below(value, BUCKETS);
    Ok(match call.kind {
        kind::PUT => {
            ask(3, call.data.len() == state.size())?;
            Event::Put { proxy: proxy(a)?, place: place(b)?, block: block(c)?, data: &call.data }
        }
        kind::COPY => Event::Copy(key(a)?),
        kind::SAVELOG => Event::SaveLog(place(a)?),
        kind::MAP => Event::Map(proxy(a)?, block(b)?),
        kind::SEND => Event::Send(block(a)?),
        kind::DELIVER => Event::Deliver(index(a)?),
        kind::DROP => Event::Drop(index(a)?),
        kind::SAVEMAP => Event::SaveMap(place(a)?),
        kind::DONE => Event::Done(proxy(a)?, block(b)?),
        kind::GET => {
            ask(3, call.zero.len() == state.size() && call.zero.iter().all(|&z| z == 0) && call.room == state.size())?;
            Event::Get(proxy(a)?, block(b)?)
        }
        kind::ABANDON => Event::Abandon(proxy(a)?, block(b)?),
        kind::LEARN => Event::Learn(proxy(a)?),
        kind::RESET => Event::Reset(proxy(a)?),
        kind::CRASH => Event::Crash(place(a)?),
        kind::LOSE => Event::Lose(place(a)?),
        kind::RISE => Event::Rise(place(a)?),
        kind::JOIN => Event::Join(place(a)?),
        kind::VIEW => Event::View,
        kind::FETCH => Event::Fetch(bucket(a)?),
        kind::READY => Event::Ready(bucket(a)?),
        kind::MEND => Event::Mend(place(a)?),
        kind::COLLECT => Event::Collect(place(a)?),
        _ => return Err(Refusal(3)),
    })
}
