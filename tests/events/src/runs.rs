//! A list of events in batches, each batch one call of the proved run, beside the same events one by one; whatever differs ends it.
use crate::damage::Damage;
use crate::decode::decode;
use crate::model::{kind, Answer, Call};
use crate::shrink::{line, show};
use crate::trial::{self, proved_step, same, same_bytes, Start, Trial};
use call_tests::code::UNSOUND;
use call_tests::store::{self, answers_in, words_of, ListEvent};

/// What a word of the answers holds before a call.
const UNSET: u64 = 0x5a5a_5a5a_5a5a_5a5a;

#[derive(Clone, Debug)]
pub enum Act {
    Event(ListEvent),
    /// the events since the last batch are the next one
    Run,
    /// the same on a damaged copy of the store, which then goes
    Probe(Damage),
}

/// Where a list begins: the store, and what is lent with every batch. What gets fill of the area stays in it.
#[derive(Clone, Debug)]
pub struct Lent {
    pub start: Start,
    pub data: Vec<u8>,
    pub area: Vec<u8>,
}

/// What was met.
#[derive(Clone, Debug, Default)]
pub struct Tally {
    pub events: u64,
    pub batches: u64,
    pub empty: u64,
    pub longest: u64,
    /// puts and gets whose block reaches past the end
    pub past: u64,
    /// accepted gets
    pub shown: u64,
    /// those that fill bytes of the one before in their batch
    pub overlapping: u64,
    /// batches on stores that damage made unsound
    pub damaged: u64,
}

/// What a call leaves.
struct Left {
    code: u64,
    answers: Vec<store::Answer>,
    store: Vec<u8>,
    area: Vec<u8>,
}

pub struct Runs {
    /// the events one by one
    pub single: Trial,
    /// the area as they leave it
    single_area: Vec<u8>,
    store: Vec<u8>,
    data: Vec<u8>,
    area: Vec<u8>,
    /// the events since the last batch, and what the steps answered
    events: Vec<ListEvent>,
    told: Vec<store::Answer>,
}

/// The block that begins at a byte, cut off where it reaches past the end.
fn block(bytes: &[u8], at: u64, size: usize) -> &[u8] {
    let begin = at.min(bytes.len() as u64) as usize;
    &bytes[begin..bytes.len().min(begin + size)]
}

/// The call of the step that an event of a list stands for.
fn call(e: &ListEvent, size: usize, data: &[u8], area: &[u8]) -> Call {
    let data = if e.kind == kind::PUT { block(data, e.at, size).to_vec() } else { Vec::new() };
    Call { kind: e.kind, a: e.a, b: e.b, c: e.c, data, zero: vec![0; size], room: block(area, e.at, size).len() }
}

/// A get's data into its block of the area.
fn fill(area: &mut [u8], e: &ListEvent, answer: Answer) -> store::Answer {
    if let Some(shown) = answer.data {
        area[e.at as usize..][..shown.len()].copy_from_slice(&shown);
    }
    store::Answer { code: answer.code, key: answer.key }
}

impl Runs {
    pub fn new(lent: &Lent) -> Result<Self, String> {
        let single = Trial::new(&lent.start)?;
        Ok(Runs {
            store: single.proved().to_vec(),
            single,
            single_area: lent.area.clone(),
            data: lent.data.clone(),
            area: lent.area.clone(),
            events: Vec::new(),
            told: Vec::new(),
        })
    }

    pub fn take(&mut self, act: &Act, tally: &mut Tally) -> Result<(), String> {
        match act {
            Act::Event(e) => self.event(e),
            Act::Run => self.run(tally),
            Act::Probe(damage) => self.probe(damage, tally),
        }
    }

    /// The store as batches and calls have left it.
    pub fn store(&self) -> &[u8] {
        &self.store
    }

    /// The batch ends, if it has events.
    pub fn end(&mut self, tally: &mut Tally) -> Result<(), String> {
        if self.events.is_empty() {
            return Ok(());
        }
        self.run(tally)
    }

    /// An event by a call of its own, after the batch that ends with it.
    pub fn call(&mut self, e: &ListEvent, tally: &mut Tally) -> Result<(), String> {
        self.end(tally)?;
        self.event(e)?;
        self.events.clear();
        let answer = proved_step(&mut self.store, &call(e, self.single.state.size(), &self.data, &self.area))?;
        same("call", vec![fill(&mut self.area, e, answer)], std::mem::take(&mut self.told))?;
        same_bytes(&self.store, self.single.proved())?;
        same("area", &self.area, &self.single_area)
    }

    /// One by one: its turn in a batch comes later.
    fn event(&mut self, e: &ListEvent) -> Result<(), String> {
        let call = call(e, self.single.state.size(), &self.data, &self.single_area);
        let answer = self.single.take(&trial::Act::Step(call))?;
        self.told.push(fill(&mut self.single_area, e, answer));
        self.events.push(*e);
        Ok(())
    }

    fn run(&mut self, tally: &mut Tally) -> Result<(), String> {
        let answers = std::mem::take(&mut self.told);
        self.count(&answers, tally);
        let expected = Left { code: 0, answers, store: self.single.proved().to_vec(), area: self.single_area.clone() };
        let left = self.compare(self.store.clone(), expected)?;
        (self.store, self.area) = (left.store, left.area);
        self.events.clear();
        Ok(())
    }

    /// 2 and nothing changed where the damage makes the store unsound, else what the steps say.
    fn probe(&mut self, damage: &Damage, tally: &mut Tally) -> Result<(), String> {
        let mut store = self.store.clone();
        damage.apply(&mut store);
        let expected = match decode(&store) {
            Some(state) => self.stepped(store.clone(), state.size())?,
            None => Left { code: 2, answers: answers_in(&self.unset()), store: store.clone(), area: self.area.clone() },
        };
        if expected.code == 2 {
            tally.damaged += 1;
            self.events.iter().for_each(|e| self.single.counts.add(e.kind, UNSOUND));
        }
        self.compare(store, expected).map(drop)
    }

    /// What the events one by one leave of a store.
    fn stepped(&self, mut store: Vec<u8>, size: usize) -> Result<Left, String> {
        let (mut area, mut answers) = (self.area.clone(), Vec::new());
        for e in &self.events {
            let answer = proved_step(&mut store, &call(e, size, &self.data, &area))?;
            answers.push(fill(&mut area, e, answer));
        }
        Ok(Left { code: 0, answers, store, area })
    }

    fn unset(&self) -> Vec<u64> {
        vec![UNSET; 2 * self.events.len()]
    }

    /// The events since the last batch in one call.
    fn compare(&self, mut store: Vec<u8>, expected: Left) -> Result<Left, String> {
        let (mut area, mut words) = (self.area.clone(), self.unset());
        let code = store::run(&mut store, &words_of(&self.events), &self.data, &mut area, &mut words);
        same("run", code, expected.code)?;
        let answers = answers_in(&words);
        same("answers", &answers, &expected.answers)?;
        same_bytes(&store, &expected.store)?;
        same("area", &area, &expected.area)?;
        Ok(Left { code, answers, store, area })
    }

    fn count(&self, answers: &[store::Answer], tally: &mut Tally) {
        let size = self.single.state.size();
        let count = self.events.len() as u64;
        tally.events += count;
        tally.batches += 1;
        tally.empty += (count == 0) as u64;
        tally.longest = tally.longest.max(count);
        let mut before = None;
        for (e, answer) in self.events.iter().zip(answers) {
            let bytes = if e.kind == kind::PUT { &self.data } else { &self.area };
            tally.past += (matches!(e.kind, kind::PUT | kind::GET) && block(bytes, e.at, size).len() < size) as u64;
            if e.kind == kind::GET && answer.code == 0 {
                tally.shown += 1;
                tally.overlapping += before.is_some_and(|at: u64| at.abs_diff(e.at) < size as u64) as u64;
                before = Some(e.at);
            }
        }
    }
}

/// The first thing that differs.
pub fn replay(lent: &Lent, acts: &[Act]) -> Result<(), String> {
    let (mut runs, mut tally) = (Runs::new(lent)?, Tally::default());
    acts.iter().try_for_each(|act| runs.take(act, &mut tally))
}

/// As lines of text; what text cannot say stands in brackets.
pub fn text(lent: &Lent, acts: &[Act]) -> String {
    let lines: String = acts.iter().map(|act| act_text(lent, act)).collect();
    show(&lent.start, &[]) + &lines
}

pub fn act_text(lent: &Lent, act: &Act) -> String {
    match act {
        Act::Event(e) => event_text(lent, e),
        Act::Run => "[run]\n".to_string(),
        Act::Probe(damage) => format!("[run on a copy with {damage:?}]\n"),
    }
}

pub fn event_text(lent: &Lent, e: &ListEvent) -> String {
    let call = call(e, lent.start.size(), &lent.data, &lent.area);
    format!("[at {}, data {}, area {}] {}", e.at, lent.data.len(), lent.area.len(), line(&call))
}
