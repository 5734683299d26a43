//! Lists of requests: calls of the step, batches and reads of many blocks, beside the same events one by one, which the history machine watches.
//! Whatever differs ends a list.
use crate::batches::{act, event, lent};
use crate::choose::one_of;
use crate::damage::Damage;
use crate::decode::decode;
use crate::generate::{Generator, Profile};
use crate::model::{step, State};
use crate::reads::{Read, ReadCall, Told, MOST_BLOCKS};
use crate::runs::{self, act_text, event_text, Lent, Runs};
use crate::shrink::{show, shrink};
use crate::trial;
use call_tests::code::CODES;
use call_tests::counts::Counts;
use call_tests::kind::GET;
use call_tests::random::Random;
use call_tests::store::ListEvent;

#[derive(Clone, Debug)]
pub enum Request {
    /// an event by a call of its own
    Call(ListEvent),
    /// an event of a batch, or its end
    Batch(runs::Act),
    Read(Read),
    /// of a damaged copy of the store, which then goes
    Probe(Damage, Read),
}

/// What was met.
#[derive(Clone, Debug, Default)]
pub struct Tally {
    pub lists: u64,
    /// lists from format at whose end no get could be refused for want of bytes
    pub promised: u64,
    pub calls: u64,
    pub batches: runs::Tally,
    /// reads whose blocks were answered, and of those how many had 64, and how many named a mapped block twice
    pub reads: u64,
    pub full: u64,
    pub twice: u64,
    /// reads by the number that refused them
    pub refused: [u64; CODES],
    /// blocks by their codes, as gets, and those that showed a write
    pub gets: Counts,
    pub shown: u64,
}

impl Tally {
    /// Every get of a read counts as an event.
    pub fn events(&self) -> u64 {
        self.batches.events + self.calls + self.gets.total()
    }

    fn read(&mut self, read: &Read, told: &Told) {
        let answers = match told {
            Ok(answers) => answers,
            Err(code) => return self.refused[*code as usize] += 1,
        };
        self.reads += 1;
        self.full += (answers.len() == MOST_BLOCKS) as u64;
        let shown: Vec<u64> = read.blocks.iter().zip(answers).filter(|(_, answer)| answer.key != 0).map(|(&block, _)| block).collect();
        self.shown += shown.len() as u64;
        self.twice += (1..shown.len()).any(|i| shown[..i].contains(&shown[i])) as u64;
        answers.iter().for_each(|answer| self.gets.add(GET, answer.code));
    }
}

struct Requests {
    runs: Runs,
    read: ReadCall,
}

impl Requests {
    fn new(lent: &Lent, read: ReadCall) -> Result<Self, String> {
        Ok(Requests { runs: Runs::new(lent)?, read })
    }

    fn take(&mut self, request: &Request, tally: &mut Tally) -> Result<(), String> {
        match request {
            Request::Call(e) => {
                tally.calls += 1;
                self.runs.call(e, &mut tally.batches)
            }
            Request::Batch(act) => self.runs.take(act, &mut tally.batches),
            Request::Read(read) => self.read(read, tally),
            Request::Probe(damage, read) => self.probe(damage, read, tally),
        }
    }

    /// After the batch that ends with it, the gets one by one.
    fn read(&mut self, read: &Read, tally: &mut Tally) -> Result<(), String> {
        self.runs.end(&mut tally.batches)?;
        let size = self.runs.single.state.size();
        let expected = read.expected(size, |get| self.runs.single.take(&trial::Act::Step(get.clone())))?;
        tally.read(read, &expected);
        read.compare(self.read, self.runs.store(), size, &expected)
    }

    /// 2 where the damage makes the store unsound, else what the model says of what the bytes then say.
    fn probe(&mut self, damage: &Damage, read: &Read, tally: &mut Tally) -> Result<(), String> {
        let mut store = self.runs.store().to_vec();
        damage.apply(&mut store);
        let size = self.runs.single.state.size();
        let expected = match decode(&store) {
            Some(mut state) => read.expected(size, |get| Ok(step(&mut state, get)))?,
            None => Err(2),
        };
        tally.read(read, &expected);
        read.compare(self.read, &store, size, &expected)
    }
}

/// A list that fails, and why.
#[derive(Clone, Debug)]
pub struct Failure {
    lent: Lent,
    list: Vec<Request>,
    pub why: String,
}

impl Failure {
    /// The first thing that differs, with this call for reads.
    pub fn replay(&self, read: ReadCall) -> Result<(), String> {
        replay(&self.lent, read, &self.list)
    }

    /// The list made short, and what it then fails for.
    pub fn shortened(self, read: ReadCall) -> Self {
        let list = shrink(self.list, |list| replay(&self.lent, read, list).is_err());
        let why = replay(&self.lent, read, &list).err().unwrap_or_default();
        Failure { list, why, lent: self.lent }
    }

    /// The reason, and the list as lines of text; what text cannot say stands in brackets.
    pub fn text(&self) -> String {
        let line = |request: &Request| match request {
            Request::Call(e) => format!("[call] {}", event_text(&self.lent, e)),
            Request::Batch(act) => act_text(&self.lent, act),
            Request::Read(read) => format!("[{read:?}]\n"),
            Request::Probe(damage, read) => format!("[on a copy with {damage:?}: {read:?}]\n"),
        };
        let lines: String = self.list.iter().map(line).collect();
        format!("{}\n{}{lines}", self.why, show(&self.lent.start, &[]))
    }
}

fn replay(lent: &Lent, read: ReadCall, list: &[Request]) -> Result<(), String> {
    let (mut requests, mut tally) = (Requests::new(lent, read)?, Tally::default());
    list.iter().try_for_each(|request| requests.take(request, &mut tally))
}

/// What happens next, where a batch has so many events on the average.
fn request(r: &mut Random, generator: &mut Generator, state: &State, lent: &Lent, average: u64) -> Request {
    match r.below(60) {
        0 => Request::Probe(Damage::random(r, state), Read::random(r, state, &generator.blocks)),
        1..=3 => Request::Read(Read::random(r, state, &generator.blocks)),
        4..=9 => Request::Call(event(r, generator, state, lent)),
        _ => Request::Batch(act(r, generator, state, lent, average)),
    }
}

/// One list of its own seed.
fn list(seed: u64, read: ReadCall, tally: &mut Tally) -> Result<(), Failure> {
    let r = &mut Random::new(seed);
    let (lent, length) = lent(r);
    let profile = Profile::random(r);
    let mut generator = Generator::new(r, profile);
    let average = one_of(r, &[1, 3, 10, 30]);
    let mut list = Vec::new();
    let mut requests = Requests::new(&lent, read).map_err(|why| Failure { lent: lent.clone(), list: Vec::new(), why })?;
    for i in 0..=length {
        let last = Request::Batch(runs::Act::Run);
        list.push(if i < length { request(r, &mut generator, &requests.runs.single.state, &lent, average) } else { last });
        if let Err(why) = requests.take(&list[list.len() - 1], tally) {
            return Err(Failure { lent, list, why });
        }
    }
    tally.lists += 1;
    tally.promised += requests.runs.single.history.is_some_and(|h| h.is_careful() || h.is_ready_before_crashes()) as u64;
    Ok(())
}

/// Lists until so many events are made.
pub fn lists(seed: u64, events: u64, read: ReadCall) -> Result<Tally, Failure> {
    let (mut tally, mut seeds) = (Tally::default(), Random::new(seed));
    while tally.events() < events {
        list(seeds.next(), read, &mut tally)?;
    }
    Ok(tally)
}
