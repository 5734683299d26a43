//! Events that were taken one by one are taken again in batches, each batch by one call.
use call_tests::kind::{GET, PUT};
use call_tests::random::Random;
use call_tests::store::{answers_in, run, words_of, Answer, ListEvent};
use call_tests::text::model::Event;
use speed::peer;

pub struct Kept {
    start: Vec<u8>,
    events: Vec<ListEvent>,
    told: Vec<Answer>,
    /// the data of the puts, one after the other
    data: Vec<u8>,
    /// the areas of the gets, as they were and as they were left
    area: Vec<u8>,
    filled: Vec<u8>,
}

impl Kept {
    pub fn new(start: &[u8]) -> Self {
        Kept { start: start.to_vec(), events: Vec::new(), told: Vec::new(), data: Vec::new(), area: Vec::new(), filled: Vec::new() }
    }

    /// Areas that do not fit become a block past the end.
    pub fn add(&mut self, e: &Event, fits: bool, data: &[u8], (area, filled): (&[u8], &[u8]), told: Answer) {
        let end = if e.kind == PUT { self.data.len() } else { self.area.len() };
        let at = if fits { end as u64 } else { u64::MAX - self.events.len() as u64 % 20 };
        if e.kind == PUT && fits {
            self.data.extend(data);
        }
        if e.kind == GET && fits {
            self.area.extend(area);
            self.filled.extend(filled);
        }
        self.events.push(ListEvent { kind: e.kind, a: e.a, b: e.b, c: e.c, at });
        self.told.push(told);
    }

    /// From the start to the store that they left one by one.
    pub fn again_in_batches(&self, r: &mut Random, end: &[u8]) {
        for run in [run, peer::run] {
            let (mut store, mut area, mut told) = (self.start.clone(), self.area.clone(), Vec::new());
            while told.len() < self.events.len() {
                let left = &self.events[told.len()..];
                let batch = &left[..left.len().min(r.below(100) as usize)];
                let mut answers = vec![u64::MAX; 2 * batch.len()];
                assert_eq!(run(&mut store, &words_of(batch), &self.data, &mut area, &mut answers), 0);
                told.extend(answers_in(&answers));
            }
            assert_eq!(told, self.told);
            assert!(store == end && area == self.filled);
        }
    }
}
