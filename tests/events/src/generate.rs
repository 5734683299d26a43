//! Random lists of events: plans carried out step by step, mixed with events of any kind and field.
mod fields;
mod plans;
mod start;
mod tasks;
mod under_way;

pub use plans::{random, Plan};
pub use start::{edited, settings};
pub use tasks::Task;
pub use under_way::under_way;

use crate::choose::one_of;
use crate::damage::Damage;
use crate::model::{kind, Block, Call, State};
use crate::trial::Act;
use call_tests::random::Random;
use std::collections::VecDeque;

/// What crashes and losses strike.
#[derive(Clone, Copy, Debug, PartialEq, Eq)]
pub enum Care {
    /// any store
    None,
    /// crashes one with every place an up member and every bucket ready; there are no losses
    Ready,
    /// both a whole one
    Whole,
}

impl Care {
    fn allows(self, kind: u64, state: &State) -> bool {
        match (self, kind) {
            (Care::Ready, kind::CRASH) => state.is_all_up_and_ready(),
            (Care::Ready, kind::LOSE) => false,
            (Care::Whole, kind::CRASH | kind::LOSE) => state.is_whole(),
            _ => true,
        }
    }
}

/// How a list behaves.
#[derive(Clone, Debug)]
pub struct Profile {
    /// of a hundred events so many of any kind and field
    pub wild: u64,
    /// of a hundred tasks of a plan so many left out
    pub skipped: u64,
    pub care: Care,
    /// what makes its plans
    pub plan: Plan,
    /// of a thousand acts so many on a damaged copy
    pub probes: u64,
}

impl Profile {
    pub fn random(r: &mut Random) -> Self {
        let (wild, skipped) = match r.below(6) {
            0 => (0, 0),
            1 => (2, 2),
            2 | 3 => (10, 10),
            4 => (40, 20),
            _ => (95, 30),
        };
        Profile { wild, skipped, care: one_of(r, &[Care::None, Care::None, Care::Ready, Care::Whole]), plan: random, probes: 30 }
    }
}

pub struct Generator {
    pub blocks: Vec<Block>,
    profile: Profile,
    /// plans under way, each with what it still has to do
    plans: Vec<VecDeque<Task>>,
}

impl Generator {
    pub fn new(r: &mut Random, profile: Profile) -> Self {
        Generator { blocks: fields::some_blocks(r), profile, plans: Vec::new() }
    }

    pub fn act(&mut self, r: &mut Random, state: &State) -> Act {
        if r.below(1000) < self.profile.probes {
            return Act::Probe(Damage::random(r, state), self.wild(r, state));
        }
        Act::Step(self.call(r, state))
    }

    pub fn call(&mut self, r: &mut Random, state: &State) -> Call {
        let mut call = if r.below(100) < self.profile.wild { self.wild(r, state) } else { self.planned(r, state) };
        while !self.profile.care.allows(call.kind, state) {
            self.plans = vec![plans::repair(r, state).into()];
            call = self.planned(r, state);
        }
        call
    }

    /// The next task of one of the plans.
    fn planned(&mut self, r: &mut Random, state: &State) -> Call {
        loop {
            self.plans.retain(|p| !p.is_empty());
            let at_once = if self.profile.wild == 0 { 1 } else { 3 };
            if self.plans.is_empty() || self.plans.len() < at_once && r.one_in(8) {
                self.plans.push((self.profile.plan)(r, state, &self.blocks).into());
            }
            let plan = r.below(self.plans.len() as u64) as usize;
            let Some(task) = self.plans[plan].pop_front() else { continue };
            let skipped = r.below(100) < self.profile.skipped || task.is_idle(state) && !r.one_in(20);
            if !skipped {
                return task.call(r, state);
            }
        }
    }

    fn wild(&self, r: &mut Random, state: &State) -> Call {
        fields::wild(r, state, &self.blocks)
    }
}
