//! Members in the circle of ids.
use super::log;
use super::store::Store;

/// Steps upward from one id to another; ids are below 256.
pub fn distance(from: u64, to: u64) -> u64 {
    to.wrapping_sub(from) & 255
}

/// The first member at least so many steps above an id: its steps, and where it begins.
pub fn nearest(store: &Store, id: u64, least: u64) -> Option<(u64, usize)> {
    let members = (0..store.shape.places).filter_map(|p| Some((distance(id, store.ids[p]), store.member_at(p)?)));
    members.filter(|&(steps, _)| steps >= least).min()
}

/// The member and row that hold a key, sought from the home id upward.
pub fn holder(store: &Store, key: u64) -> Option<(usize, usize)> {
    let home = key >> 56;
    let held = |brick| Some((brick, log::find(store.log(brick), &store.shape, key).ok()?));
    // mostly the home has it
    let at_home = store.member(home).and_then(held);
    if at_home.is_some() {
        return at_home;
    }
    members_from(store, home, 1).find_map(held)
}

/// The members at least so many steps above an id, upward.
fn members_from<'a>(store: &'a Store, id: u64, mut least: u64) -> impl Iterator<Item = usize> + use<'a> {
    std::iter::from_fn(move || {
        let (steps, brick) = nearest(store, id, least)?;
        least = steps + 1;
        Some(brick)
    })
}

/// Whether two members have the chunk saved; mostly the home and the next one have.
pub fn saved_twice(store: &Store, key: u64) -> bool {
    let saved = |&brick: &usize| log::find(store.log(brick), &store.shape, key).is_ok_and(|row| log::is_saved(store.log(brick), row));
    members_from(store, key >> 56, 0).filter(saved).nth(1).is_some()
}
