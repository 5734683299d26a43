//! A store in lent bytes that is stepped by lines of text. What every call must keep is asserted at each step.
use crate::kind::GET;
use crate::random::Random;
use crate::store::model::{get, Settings, AT_BAG};
use crate::store::{check, format, step, Answer};
use crate::text::model::{parse, Event};

#[derive(Clone)]
pub struct Lent {
    pub settings: Settings,
    pub bytes: Vec<u8>,
}

impl Lent {
    /// Formatted over random bytes.
    pub fn new(r: &mut Random, settings: Settings) -> Self {
        let mut bytes = r.bytes(settings.bytes());
        assert_eq!(format(&mut bytes, settings), 0);
        Lent { settings, bytes }
    }

    pub fn size(&self) -> usize {
        self.settings.size as usize
    }

    pub fn relays(&self) -> u64 {
        get(&self.bytes, AT_BAG)
    }

    /// A refusal has key 0 and leaves every byte, only an accepted get writes the answer area, a get leaves the store, and the store stays sound.
    pub fn call(&mut self, e: &Event, data: &[u8], zero: &[u8], answer: &mut [u8]) -> Answer {
        let (store, area) = (self.bytes.clone(), answer.to_vec());
        let told = step(&mut self.bytes, e, data, zero, answer);
        if told.code != 0 {
            assert_eq!(told.key, 0, "{e:?}");
        }
        assert!((told.code == 0 && e.kind != GET) || self.bytes == store, "{e:?} {told:?}");
        assert!((told.code == 0 && e.kind == GET) || *answer == area[..], "{e:?} {told:?}");
        assert_eq!(check(&self.bytes), 0, "{e:?}");
        told
    }

    /// One line, without its line feed: code, key, and the data of an accepted get or "-".
    pub fn line(&mut self, text: &str) -> (u64, u64, String) {
        let mut data = vec![0; self.size()];
        let e = parse(format!("{text}\n").as_bytes(), self.size(), &mut data);
        assert_eq!(e.code, 0, "{text}");
        let (zero, mut answer) = (vec![0; self.size()], vec![0x5a; self.size()]);
        let told = self.call(&e, &data, &zero, &mut answer);
        let shown = told.code == 0 && e.kind == GET;
        (told.code, told.key, if shown { answer.iter().map(|b| format!("{b:02x}")).collect() } else { "-".to_string() })
    }

    /// Lines parted by spaces; what the last one is told.
    pub fn lines(&mut self, text: &str) -> (u64, u64, String) {
        text.split(' ').map(|l| self.line(l)).last().unwrap()
    }

    /// Lines that are all accepted.
    pub fn accepted(&mut self, text: &str) {
        text.split(' ').for_each(|l| assert_eq!(self.line(l).0, 0, "{l}"));
    }
}
