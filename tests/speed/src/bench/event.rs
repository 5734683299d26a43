//! One event of a store, again and again: what it changes is put back between two calls, outside the time.
use super::fixture::Store;
use super::samples::{medians, time};
use super::{CHECKS, STEPS};
use call_tests::text::model::Event;

/// The parts that events changed, with what they held before.
pub struct Undo(Vec<(usize, Vec<u8>)>);

impl Undo {
    /// Runs of changed words; a run ends where eight words in a row are the same.
    pub fn new(before: &[u8], after: &[u8]) -> Self {
        const STRIDE: usize = 64;
        let mut parts: Vec<(usize, Vec<u8>)> = Vec::new();
        for (i, (old, new)) in before.chunks(STRIDE).zip(after.chunks(STRIDE)).enumerate() {
            if old == new {
                continue;
            }
            match parts.last_mut() {
                Some((at, part)) if *at + part.len() == i * STRIDE => part.extend(old),
                _ => parts.push((i * STRIDE, old.to_vec())),
            }
        }
        Undo(parts)
    }

    pub fn put_back(&self, bytes: &mut [u8]) {
        self.0.iter().for_each(|(at, part)| bytes[*at..*at + part.len()].copy_from_slice(part));
    }
}

/// Nanoseconds of one accepted call of the proved step and of the peer, and of the check alone of each.
pub fn compare(store: &Store, e: &Event, rounds: usize, batch: usize) -> [[f64; 2]; 2] {
    let size = store.settings.size as usize;
    let (data, zero, mut answer) = (vec![0xa5; size], vec![0; size], vec![0; size]);
    let mut bytes = store.clone().after(&[*e]).bytes;
    let undo = Undo::new(&store.bytes, &bytes);
    undo.put_back(&mut bytes);
    let [a, b, c, d] = medians(rounds, batch, |way| {
        let mut code = 0;
        let took = match way {
            0 | 1 => time(|| code = STEPS[way](&mut bytes, e, &data, &zero, &mut answer).code),
            _ => time(|| code = CHECKS[way - 2](&bytes)),
        };
        assert_eq!(code, 0);
        // also after a check, so that the caches are alike
        undo.put_back(&mut bytes);
        took
    });
    [[a, b], [c, d]]
}
