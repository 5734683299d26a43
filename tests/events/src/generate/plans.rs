//! Plans: what a store in use goes through.
use super::fields::block;
use super::tasks::Task;
use crate::choose::pick;
use crate::model::{Block, State, BUCKETS, MOST_ITEMS, PROXIES};
use call_tests::random::Random;

/// What makes the next tasks of a list.
pub type Plan = fn(&mut Random, &State, &[Block]) -> Vec<Task>;

pub fn one(r: &mut Random, blocks: &[Block]) -> Block {
    pick(r, blocks).unwrap_or(Block(0))
}

/// A put, saved at two members, and its map.
fn mapped(r: &mut Random, state: &State, block: Block) -> [Task; 5] {
    [Task::Put(block, member_place(r, state)), Task::Copy(block), Task::SaveHome(block), Task::SaveTarget(block), Task::Map(block)]
}

/// A write from put to done and a read. An older write of the block that has an item is finished or abandoned first.
/// Now and then two neighbours change places.
pub fn write(r: &mut Random, state: &State, block: Block) -> Vec<Task> {
    let mut tasks = if r.one_in(2) { vec![Task::Abandon(block)] } else { Vec::new() };
    tasks.push(Task::Learn(block.proxy()));
    tasks.extend(mapped(r, state, block));
    tasks.extend([Task::Send(block), Task::Deliver(block), Task::SavePrimary(block), Task::SaveBackup(block), Task::Done(block), Task::Get(block)]);
    if r.one_in(4) {
        let at = r.below(tasks.len() as u64 - 1) as usize;
        tasks.swap(at, at + 1);
    }
    tasks
}

/// Mostly one with a member.
fn member_place(r: &mut Random, state: &State) -> usize {
    let members: Vec<usize> = (0..state.places.len()).filter(|&place| state.member_at(place).is_some()).collect();
    match pick(r, &members) {
        Some(place) if !r.one_in(20) => place,
        _ => r.below(state.settings.places) as usize,
    }
}

/// The same block again before its first relay is delivered: relays late and doubled.
fn repeated_sends(r: &mut Random, state: &State, block: Block) -> Vec<Task> {
    let mut tasks = write(r, state, block);
    let at = tasks.len() - r.among(4, 6) as usize;
    let repeats = r.among(1, 6);
    tasks.splice(at..at, (0..repeats).map(|_| Task::Send(block)));
    tasks.extend((0..repeats).map(|i| if i % 3 == 2 { Task::DropAny } else { Task::DeliverAny }));
    tasks
}

/// Relays of an older write, in one half of the cases of an older view, that come after a newer write is done.
/// Then the primary crashes, and what the backup has is what is shown.
fn late_relays(r: &mut Random, state: &State, block: Block) -> Vec<Task> {
    let mut tasks = write(r, state, block);
    let at = tasks.len() - 5;
    tasks.splice(at..at, [Task::Send(block), Task::Send(block)]);
    if r.one_in(2) {
        tasks.extend(rebuild(r, state, true));
    }
    tasks.extend(write(r, state, block));
    tasks.extend([Task::DeliverOldest(block), Task::DeliverOldest(block), Task::SaveBackup(block), Task::CrashPrimary(block)]);
    tasks.extend(next_view([block.bucket()]));
    tasks.push(Task::Get(block));
    tasks
}

/// A written block whose saved copies go one after the other, with a third one in between, which is mended in one half of the cases.
fn fewer_copies(r: &mut Random, state: &State, block: Block) -> Vec<Task> {
    let mut tasks = write(r, state, block);
    tasks.extend([Task::CrashTarget(block), Task::Copy(block)]);
    if r.one_in(2) {
        tasks.extend(mend_all(state));
    }
    tasks.extend([Task::CrashHome(block), Task::Get(block), Task::CrashTarget(block), Task::Get(block)]);
    tasks.extend(next_view([block.bucket()]));
    tasks.push(Task::Get(block));
    tasks
}

/// More relays of a block than the bag holds.
fn fill_bag(r: &mut Random, block: Block) -> Vec<Task> {
    let sends = (0..r.among(60, 70)).map(|_| Task::Send(block));
    sends.chain((0..10).map(|_| Task::DeliverAny)).collect()
}

fn learn_all() -> impl Iterator<Item = Task> {
    (0..PROXIES).map(Task::Learn)
}

pub fn mend_all(state: &State) -> impl Iterator<Item = Task> + use<> {
    (0..state.places.len()).map(Task::Mend)
}

pub fn read(blocks: &[Block]) -> Vec<Task> {
    learn_all().chain(blocks.iter().map(|&b| Task::Get(b))).collect()
}

/// Relays, saves and missing chunks, until nothing is pending and every chunk is at two members.
fn settle(state: &State) -> Vec<Task> {
    let pending = state.pending();
    let sends = pending.iter().flat_map(|&b| [Task::Send(b), Task::Deliver(b)]);
    let saves = pending.iter().flat_map(|&b| [Task::SavePrimary(b), Task::SaveBackup(b)]);
    sends.chain(saves).chain(mend_all(state)).chain(learn_all()).collect()
}

/// Items end, then every log is collected.
pub fn collect_all(r: &mut Random, state: &State) -> Vec<Task> {
    let mut tasks = settle(state);
    let items: Vec<Block> = state.proxies.iter().flat_map(|p| p.items.keys().copied()).collect();
    tasks.extend(items.iter().flat_map(|&b| [Task::Done(b), Task::Abandon(b)]));
    if r.one_in(4) {
        tasks.extend((0..PROXIES).map(Task::Reset));
    }
    tasks.extend((0..state.places.len()).map(Task::Collect));
    tasks.extend(mend_all(state));
    tasks
}

/// A new view with what is up, and some buckets ready in it.
pub fn next_view(buckets: impl IntoIterator<Item = usize>) -> impl Iterator<Item = Task> {
    let readies = buckets.into_iter().flat_map(|g| [Task::Fetch(g), Task::Ready(g)]);
    [Task::View].into_iter().chain(learn_all()).chain(readies)
}

/// A new view with what is up; some bricks rise or join before, or all of them.
pub fn rebuild(r: &mut Random, state: &State, all: bool) -> Vec<Task> {
    let mut tasks = Vec::new();
    for place in 0..state.places.len() {
        if all || r.one_in(2) {
            tasks.push(if state.at(place).is_some() { Task::Rise(place) } else { Task::Join(place) });
        }
    }
    tasks.extend(next_view((0..BUCKETS).filter(|_| all || !r.one_in(4))));
    tasks.extend(mend_all(state));
    tasks
}

/// More blocks of one proxy and bucket than it can have items for; after a view more than a buffer holds.
fn many_puts(r: &mut Random, state: &State, proxy: u64) -> Vec<Task> {
    let (bucket, abandoned) = (r.below(16), r.one_in(2));
    let mut tasks = if r.one_in(2) { vec![Task::View] } else { Vec::new() };
    tasks.extend(learn_all());
    for i in 0..MOST_ITEMS as u64 + 4 {
        let block = block(proxy, bucket, i);
        tasks.extend(mapped(r, state, block));
        if abandoned {
            tasks.push(Task::Abandon(block));
        }
    }
    tasks
}

/// Maps that meet a view: the bucket is made ready after them.
fn late_maps(r: &mut Random, state: &State, blocks: &[Block]) -> Vec<Task> {
    let mut tasks = vec![Task::View];
    tasks.extend(learn_all());
    for &b in blocks {
        tasks.extend(mapped(r, state, b));
        tasks.push(Task::Get(b));
    }
    tasks.extend(blocks.iter().flat_map(|b| [Task::Fetch(b.bucket()), Task::Ready(b.bucket())]));
    tasks
}

fn crash_or_lose(r: &mut Random, state: &State) -> Vec<Task> {
    let place = r.below(state.settings.places) as usize;
    vec![if r.one_in(3) { Task::Lose(place) } else { Task::Crash(place) }]
}

/// What a store that is not whole needs next.
pub fn repair(r: &mut Random, state: &State) -> Vec<Task> {
    if !state.is_all_up_and_ready() {
        rebuild(r, state, true)
    } else if !state.nothing_pending() || r.one_in(2) {
        settle(state)
    } else {
        collect_all(r, state)
    }
}

pub fn random(r: &mut Random, state: &State, blocks: &[Block]) -> Vec<Task> {
    let one = one(r, blocks);
    if !state.is_all_up_and_ready() && r.one_in(3) {
        let all = !r.one_in(3);
        return rebuild(r, state, all);
    }
    match r.below(100) {
        0..=51 => write(r, state, one),
        52..=55 => fewer_copies(r, state, one),
        56..=59 => late_relays(r, state, one),
        60..=68 => repeated_sends(r, state, one),
        69..=74 => read(blocks),
        75..=79 => settle(state),
        80..=83 => collect_all(r, state),
        84..=86 => repair(r, state),
        87..=94 => crash_or_lose(r, state),
        95 => late_maps(r, state, blocks),
        96 => fill_bag(r, one),
        _ => many_puts(r, state, one.proxy() as u64),
    }
}
