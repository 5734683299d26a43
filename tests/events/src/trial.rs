//! A list of events on the proved calls and on the model side by side; whatever differs ends it.
use crate::damage::Damage;
use crate::decode::decode;
use crate::encode::encode;
use crate::history::{Found, History};
use crate::model::{kind, step, Answer, Call, Settings, State, MOST_RELAYS};
use call_tests::counts::Counts;
use call_tests::lists::Relay;
use call_tests::store;
use call_tests::text::model::Event;

/// What an answer area holds before a call.
const AREA: u8 = 0x5a;

#[derive(Clone, Debug)]
pub enum Start {
    /// formatted over these bytes
    Format(Settings, Vec<u8>),
    /// a sound store that no list need lead to
    Edited(Vec<u8>),
}

impl Start {
    /// The bytes of a block.
    pub fn size(&self) -> usize {
        match self {
            Start::Format(settings, _) => settings.size as usize,
            Start::Edited(bytes) => Settings::of(bytes).size as usize,
        }
    }
}

#[derive(Clone, Debug)]
pub enum Act {
    Step(Call),
    /// a step on a damaged copy of the store, which then goes
    Probe(Damage, Call),
}

/// The same store twice: as the proved calls write it, and as the model says.
pub struct Trial {
    pub state: State,
    proved: Vec<u8>,
    expected: Vec<u8>,
    /// of a list that began with format
    pub history: Option<History>,
    pub counts: Counts,
}

pub fn same<T: PartialEq + std::fmt::Debug>(what: &str, proved: T, expected: T) -> Result<(), String> {
    if proved == expected {
        Ok(())
    } else {
        Err(format!("{what}: proved {proved:?}, expected {expected:?}"))
    }
}

pub fn same_bytes(proved: &[u8], expected: &[u8]) -> Result<(), String> {
    if proved == expected {
        return Ok(());
    }
    let at = proved.iter().zip(expected).position(|(p, e)| p != e);
    Err(format!("the store differs at byte {at:?}, word {:?}", at.map(|i| i / 8)))
}

/// One proved call; the answer as the model gives it, and that no area is written but as it says.
pub fn proved_step(bytes: &mut [u8], call: &Call) -> Result<Answer, String> {
    let mut area = vec![AREA; call.room];
    let event = Event { code: 0, kind: call.kind, a: call.a, b: call.b, c: call.c };
    let told = store::step(bytes, &event, &call.data, &call.zero, &mut area);
    let is_read = told.code == 0 && call.kind == kind::GET;
    if !is_read && area.iter().any(|&b| b != AREA) {
        return Err("the answer area is written".to_string());
    }
    Ok(Answer { code: told.code, key: told.key, data: is_read.then_some(area) })
}

/// The bag that the proved call hands out; none where it refuses.
fn proved_bag(bytes: &[u8]) -> Option<Vec<Relay>> {
    let mut relays = [[0; 5]; MOST_RELAYS];
    let told = store::bag(bytes, &mut relays);
    (told.code == 0).then(|| relays[..told.count].to_vec())
}

fn bag(state: &State) -> Vec<Relay> {
    state.bag.iter().map(|r| [r.view.0, r.bucket as u64, r.order, r.block.0, r.key.0]).collect()
}

impl Trial {
    pub fn new(start: &Start) -> Result<Self, String> {
        let (state, proved, history) = match start {
            Start::Format(settings, bytes) => {
                let mut proved = bytes.clone();
                same("length", store::length(*settings), bytes.len() as u64)?;
                same("format", store::format(&mut proved, *settings), 0)?;
                (State::formatted(*settings).ok_or("settings")?, proved, Some(History::default()))
            }
            Start::Edited(bytes) => (decode(bytes).ok_or("no sound store")?, bytes.clone(), None),
        };
        let (Start::Format(_, bytes) | Start::Edited(bytes)) = start;
        let mut expected = bytes.clone();
        encode(&state, &mut expected);
        same_bytes(&proved, &expected)?;
        same("check", store::check(&proved), 0)?;
        Ok(Trial { state, proved, expected, history, counts: Counts::default() })
    }

    /// The store as the proved calls have left it.
    pub fn proved(&self) -> &[u8] {
        &self.proved
    }

    pub fn take(&mut self, act: &Act) -> Result<Answer, String> {
        match act {
            Act::Step(call) => self.step(call),
            Act::Probe(damage, call) => self.probe(damage, call),
        }
    }

    fn step(&mut self, call: &Call) -> Result<Answer, String> {
        let found = Found::before(call, &self.state);
        let answer = step(&mut self.state, call);
        if answer.code == 0 {
            encode(&self.state, &mut self.expected);
        }
        let told = proved_step(&mut self.proved, call)?;
        same("answer", &told, &answer)?;
        self.counts.add(call.kind, told.code);
        same_bytes(&self.proved, &self.expected)?;
        same("check", store::check(&self.proved), 0)?;
        if matches!(call.kind, kind::SEND | kind::DELIVER | kind::DROP) {
            same("bag", proved_bag(&self.proved), Some(bag(&self.state)))?;
        }
        if let Some(history) = &mut self.history {
            history.watch(call, &answer, found)?;
        }
        Ok(answer)
    }

    /// 2 and no byte changed where the damage makes the store unsound, else the model's outcome from what the bytes then say.
    fn probe(&mut self, damage: &Damage, call: &Call) -> Result<Answer, String> {
        same("decoded", decode(&self.expected).as_ref(), Some(&self.state))?;
        let mut proved = self.proved.clone();
        damage.apply(&mut proved);
        let mut expected = proved.clone();
        let damaged = decode(&expected);
        let code = if damaged.is_some() { 0 } else { 2 };
        same("check of a damaged store", store::check(&proved), code)?;
        same("read of no blocks of a damaged store", store::read(&proved, call.a, &[], &mut []), code)?;
        same("bag of a damaged store", proved_bag(&proved), damaged.as_ref().map(bag))?;
        let alike = damaged.as_ref().map_or(2, |state| !state.is_alike(&self.state) as u64);
        same("alike", store::alike(&self.proved, &proved), alike)?;
        same("alike", store::alike(&proved, &self.proved), alike)?;
        let answer = damaged.map_or(Answer::refused(2), |mut state| {
            let answer = step(&mut state, call);
            encode(&state, &mut expected);
            answer
        });
        let told = proved_step(&mut proved, call)?;
        same("answer of a damaged store", &told, &answer)?;
        self.counts.add(call.kind, told.code);
        same_bytes(&proved, &expected)?;
        Ok(answer)
    }
}
