//! One step of a plan: which event it is, is found in the state when its turn comes.
use crate::choose::pick;
use crate::model::{kind, Block, Call, Id, Key, State};
use call_tests::random::Random;

#[derive(Clone, Debug)]
pub enum Task {
    Put(Block, usize),
    /// of the block's item, or else of its mapping
    Copy(Block),
    SaveHome(Block),
    SaveTarget(Block),
    Map(Block),
    Send(Block),
    /// the newest relay of the block
    Deliver(Block),
    /// the oldest relay of the block
    DeliverOldest(Block),
    /// any relay
    DeliverAny,
    DropAny,
    SavePrimary(Block),
    SaveBackup(Block),
    Done(Block),
    Get(Block),
    Abandon(Block),
    Learn(usize),
    Reset(usize),
    Crash(usize),
    /// the place of the block's primary
    CrashPrimary(Block),
    /// the place of its chunk's home, and of the member to which that is copied
    CrashHome(Block),
    CrashTarget(Block),
    Lose(usize),
    Rise(usize),
    Join(usize),
    View,
    Fetch(usize),
    Ready(usize),
    Mend(usize),
    Collect(usize),
}

fn place_of(state: &State, id: Id) -> u64 {
    state.places.iter().position(|&p| p == Some(id)).unwrap_or(0) as u64
}

fn key_of(state: &State, block: Block) -> Key {
    let item = state.proxies[block.proxy()].items.get(&block).copied();
    item.or_else(|| state.mapped(block)).unwrap_or(Key::new(1, 0))
}

fn target(state: &State, key: Key) -> Id {
    state.members_from(key.home()).map(|b| b.id).find(|&id| id != key.home()).unwrap_or(1)
}

fn newest_relay(state: &State, block: Block) -> u64 {
    state.bag.iter().rposition(|relay| relay.block == block).unwrap_or(0) as u64
}

fn oldest_relay(state: &State, block: Block) -> u64 {
    state.bag.iter().position(|relay| relay.block == block).unwrap_or(0) as u64
}

fn any_relay(r: &mut Random, state: &State) -> u64 {
    pick(r, &(0..state.bag.len() as u64).collect::<Vec<_>>()).unwrap_or(0)
}

impl Task {
    /// The kind and the numbers.
    fn event(&self, r: &mut Random, state: &State) -> (u64, [u64; 3]) {
        let one = |kind: u64, number: u64| (kind, [number, 0, 0]);
        let of_proxy = |kind: u64, block: Block| (kind, [block.proxy() as u64, block.0, 0]);
        let pair = |block: Block| state.buckets[block.bucket()].pair;
        let home = |block: Block| place_of(state, key_of(state, block).home());
        let next = |block: Block| place_of(state, target(state, key_of(state, block)));
        match *self {
            Task::Put(block, place) => (kind::PUT, [block.proxy() as u64, place as u64, block.0]),
            Task::Copy(block) => one(kind::COPY, key_of(state, block).0),
            Task::SaveHome(block) => one(kind::SAVELOG, home(block)),
            Task::SaveTarget(block) => one(kind::SAVELOG, next(block)),
            Task::Map(block) => of_proxy(kind::MAP, block),
            Task::Send(block) => one(kind::SEND, block.0),
            Task::Deliver(block) => one(kind::DELIVER, newest_relay(state, block)),
            Task::DeliverOldest(block) => one(kind::DELIVER, oldest_relay(state, block)),
            Task::DeliverAny => one(kind::DELIVER, any_relay(r, state)),
            Task::DropAny => one(kind::DROP, any_relay(r, state)),
            Task::SavePrimary(block) => one(kind::SAVEMAP, place_of(state, pair(block).primary)),
            Task::SaveBackup(block) => one(kind::SAVEMAP, place_of(state, pair(block).backup)),
            Task::Done(block) => of_proxy(kind::DONE, block),
            Task::Get(block) => of_proxy(kind::GET, block),
            Task::Abandon(block) => of_proxy(kind::ABANDON, block),
            Task::Learn(proxy) => one(kind::LEARN, proxy as u64),
            Task::Reset(proxy) => one(kind::RESET, proxy as u64),
            Task::Crash(place) => one(kind::CRASH, place as u64),
            Task::CrashPrimary(block) => one(kind::CRASH, place_of(state, pair(block).primary)),
            Task::CrashHome(block) => one(kind::CRASH, home(block)),
            Task::CrashTarget(block) => one(kind::CRASH, next(block)),
            Task::Lose(place) => one(kind::LOSE, place as u64),
            Task::Rise(place) => one(kind::RISE, place as u64),
            Task::Join(place) => one(kind::JOIN, place as u64),
            Task::View => one(kind::VIEW, 0),
            Task::Fetch(bucket) => one(kind::FETCH, bucket as u64),
            Task::Ready(bucket) => one(kind::READY, bucket as u64),
            Task::Mend(place) => one(kind::MEND, place as u64),
            Task::Collect(place) => one(kind::COLLECT, place as u64),
        }
    }

    /// Whether it would change nothing, or could not be done.
    pub fn is_idle(&self, state: &State) -> bool {
        let has_item = |block: Block| state.proxies[block.proxy()].items.contains_key(&block);
        match *self {
            Task::Put(block, place) => has_item(block) || state.member_at(place).is_none(),
            Task::Map(block) | Task::Done(block) | Task::Abandon(block) => !has_item(block),
            Task::Send(block) => state.mapped(block).is_none(),
            Task::Learn(proxy) => state.proxies[proxy].known == state.view,
            Task::Rise(place) => state.at(place).is_none_or(|b| b.up),
            Task::Join(place) => state.at(place).is_some(),
            Task::Deliver(_) | Task::DeliverOldest(_) | Task::DeliverAny | Task::DropAny => state.bag.is_empty(),
            Task::Fetch(bucket) | Task::Ready(bucket) => state.buckets[bucket].ready,
            _ => false,
        }
    }

    pub fn call(&self, r: &mut Random, state: &State) -> Call {
        let (kind, numbers) = self.event(r, state);
        let size = state.size();
        let data = if kind == kind::PUT { r.bytes(size) } else { Vec::new() };
        Call::new(kind, numbers, data, if kind == kind::GET { size } else { 0 })
    }
}
