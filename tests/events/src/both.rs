//! Lines of text on the proved calls and on the model at once.
use crate::layout::length;
use crate::lines::{call, data};
use crate::model::Settings;
use crate::trial::{Act, Start, Trial};
use call_tests::random::Random;

/// Code, key, and the data of a read or a dash.
pub type Told = (u64, u64, String);

pub struct Both(pub Trial);

impl Both {
    /// Formatted over random bytes.
    pub fn new(settings: Settings) -> Self {
        let bytes = Random::new(1).bytes(length(settings));
        Both(Trial::new(&Start::Format(settings, bytes)).unwrap_or_else(|why| panic!("{why}")))
    }

    /// What both are told of a line without its line feed. That they are told the same, and write the same bytes, is asserted.
    pub fn line(&mut self, line: &str) -> Told {
        let call = call(format!("{line}\n").as_bytes(), self.0.state.size()).unwrap_or_else(|| panic!("no event: {line}"));
        let answer = self.0.take(&Act::Step(call)).unwrap_or_else(|why| panic!("{line}: {why}"));
        (answer.code, answer.key, data(&answer))
    }

    /// Lines that are all accepted, parted by spaces; the key that the last one answers.
    pub fn accepted(&mut self, lines: &str) -> u64 {
        let keys = lines.split_whitespace().map(|line| {
            let (code, key, _) = self.line(line);
            assert_eq!(code, 0, "{line} in {lines}");
            key
        });
        keys.last().unwrap_or(0)
    }

    /// What the last of some lines is told.
    pub fn last(&mut self, lines: &str) -> Told {
        lines.split_whitespace().map(|l| self.line(l)).last().unwrap()
    }
}

pub fn refused(code: u64) -> Told {
    (code, 0, "-".to_string())
}

pub fn done(key: u64) -> Told {
    (0, key, "-".to_string())
}

pub fn shown(key: u64, data: &str) -> Told {
    (0, key, data.to_string())
}
