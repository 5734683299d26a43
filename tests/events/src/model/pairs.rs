//! The pairs of a view.
use super::Id;
use std::collections::BTreeSet;

#[derive(Clone, Copy, Debug, PartialEq, Eq)]
pub struct Pair {
    pub primary: Id,
    pub backup: Id,
}

/// Primary, then backup; None is not filled yet.
type Slots = [Option<Id>; 2];

struct Assignment<'a> {
    members: &'a BTreeSet<Id>,
    slots: Vec<Slots>,
}

impl Assignment<'_> {
    /// Both roles count, over all buckets.
    fn load(&self, id: Id) -> usize {
        self.slots.iter().flatten().filter(|&&slot| slot == Some(id)).count()
    }

    /// The member of fewest assignments outside a bucket's pair, the lowest id on a tie.
    fn least_loaded(&self, bucket: usize) -> Option<Id> {
        let outside = self.members.iter().copied().filter(|&id| !self.slots[bucket].contains(&Some(id)));
        outside.min_by_key(|&id| (self.load(id), id))
    }

    fn fill(&mut self) {
        for bucket in 0..self.slots.len() {
            for role in 0..2 {
                if self.slots[bucket][role].is_none() {
                    self.slots[bucket][role] = self.least_loaded(bucket);
                }
            }
        }
    }

    fn level(&mut self, role: usize) {
        let share = (2 * self.slots.len()).div_ceil(self.members.len());
        for bucket in 0..self.slots.len() {
            let overloaded = self.slots[bucket][role].is_some_and(|id| self.load(id) > share);
            let relief = self.least_loaded(bucket).filter(|&id| self.load(id) < share);
            if overloaded && relief.is_some() {
                self.slots[bucket][role] = relief;
            }
        }
    }
}

/// Members keep their roles, but a lone backup becomes primary.
fn kept(last: &Option<Pair>, members: &BTreeSet<Id>) -> Slots {
    let Some(Pair { primary, backup }) = *last else { return [None, None] };
    match (members.contains(&primary), members.contains(&backup)) {
        (true, true) => [Some(primary), Some(backup)],
        (true, false) => [Some(primary), None],
        (false, true) => [Some(backup), None],
        (false, false) => [None, None],
    }
}

/// The pairs from the last ready ones (none at format), with at least two members.
pub fn pairs(last: &[Option<Pair>], members: &BTreeSet<Id>) -> Vec<Pair> {
    let mut assignment = Assignment { members, slots: last.iter().map(|pair| kept(pair, members)).collect() };
    assignment.fill();
    assignment.level(1);
    assignment.level(0);
    let full = |slots: &Slots| Pair { primary: slots[0].expect("two members"), backup: slots[1].expect("two members") };
    assignment.slots.iter().map(full).collect()
}
