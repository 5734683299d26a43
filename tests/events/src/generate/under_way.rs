//! Plans in which crashes meet writes under way.
use super::plans::{collect_all, mend_all, next_view, one, read, rebuild, write};
use super::tasks::Task;
use crate::model::{Block, State, BUCKETS};
use call_tests::random::Random;
use std::collections::VecDeque;

/// A write that ends early, mostly between its map and its done; now and then with one saved copy alone, with which the map is to be refused.
fn cut_off(r: &mut Random, state: &State, blocks: &[Block]) -> VecDeque<Task> {
    let block = one(r, blocks);
    let mut tasks = write(r, state, block);
    if r.one_in(4) {
        tasks.retain(|task| !matches!(task, Task::Copy(_) | Task::SaveTarget(_)));
    }
    let map = tasks.iter().position(|task| matches!(task, Task::Map(_))).unwrap_or(0);
    let length = if r.one_in(5) { r.below(tasks.len() as u64) as usize } else { map + r.among(1, 4) as usize };
    tasks.truncate(length);
    tasks.into()
}

/// One list of all, each in its own order.
fn merged(r: &mut Random, mut lists: Vec<VecDeque<Task>>) -> Vec<Task> {
    let mut tasks = Vec::new();
    while !lists.is_empty() {
        let one = r.below(lists.len() as u64) as usize;
        match lists[one].pop_front() {
            Some(task) => tasks.push(task),
            None => drop(lists.swap_remove(one)),
        }
    }
    tasks
}

/// Whether a log has hardly room for the chunks of a few writes.
fn is_nearly_full(state: &State) -> bool {
    state.bricks.values().any(|b| b.log.len() + 6 > state.chunks())
}

/// Writes under way, relays of theirs and older ones; then a crash, now and then a view without the brick and a write in it; then the brick is back. In one
/// half of the cases nothing is mended.
fn crash_under_way(r: &mut Random, state: &State, blocks: &[Block]) -> Vec<Task> {
    let (block, place) = (one(r, blocks), r.below(state.settings.places) as usize);
    let mut writes: Vec<VecDeque<Task>> = (0..r.among(1, 3)).map(|_| cut_off(r, state, blocks)).collect();
    writes.push((0..r.below(4)).map(|_| Task::DeliverAny).collect());
    let mut tasks = merged(r, writes);
    tasks.push(Task::Crash(place));
    tasks.extend(read(blocks));
    if r.one_in(3) {
        tasks.extend(next_view(0..BUCKETS));
        tasks.extend(read(blocks));
        tasks.extend(write(r, state, block));
    }
    tasks.push(Task::Rise(place));
    tasks.extend(next_view(0..BUCKETS));
    if r.one_in(2) {
        tasks.extend(mend_all(state));
    }
    tasks.extend(read(blocks));
    tasks
}

/// One crash with writes under way after the other; the logs are collected where they are nearly full.
pub fn under_way(r: &mut Random, state: &State, blocks: &[Block]) -> Vec<Task> {
    if !state.is_all_up_and_ready() {
        rebuild(r, state, true)
    } else if is_nearly_full(state) && !r.one_in(4) {
        collect_all(r, state)
    } else {
        crash_under_way(r, state, blocks)
    }
}
