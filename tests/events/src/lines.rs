//! Lines of text on a state: what the trace program has to print.
use crate::layout::length;
use crate::model::{step, Answer, Call, Settings, State};
use call_tests::text::model::{parse, parse_settings, Event};

pub const HEADER: &str = "line,code,key,data\n";
/// The largest store that the trace program makes.
pub const LARGEST: usize = 49_152;

/// The call that a line of an event stands for, with a right zero block and answer area; none where the line is no event.
pub fn call(line: &[u8], size: usize) -> Option<Call> {
    let mut data = vec![0; size];
    let Event { code, kind, a, b, c } = parse(line, size, &mut data);
    (code == 0).then(|| Call::new(kind, [a, b, c], data, size))
}

/// The data of a read in lower-case hexadecimal, or a dash.
pub fn data(answer: &Answer) -> String {
    match &answer.data {
        Some(bytes) => bytes.iter().map(|b| format!("{b:02x}")).collect(),
        None => "-".to_string(),
    }
}

/// The settings of a settings line, where the trace program takes them.
pub fn settings(line: &[u8]) -> Option<Settings> {
    let four = parse_settings(line);
    let s = Settings::new(four.places, four.size, four.entries, four.chunks);
    (four.code == 0 && s.in_limits() && length(s) <= LARGEST).then_some(s)
}

/// A trace under way.
pub struct Trace {
    pub state: State,
    number: u64,
}

impl Trace {
    pub fn new(settings_line: &[u8]) -> Option<Self> {
        let state = settings(settings_line).and_then(State::formatted)?;
        Some(Trace { state, number: 0 })
    }

    /// What is printed for a line with its line feed, or for the last one without.
    pub fn line(&mut self, line: &[u8]) -> String {
        self.number += 1;
        let answer = match call(line, self.state.size()) {
            Some(call) => step(&mut self.state, &call),
            None => Answer::refused(3),
        };
        format!("{},{},{},{}\n", self.number, answer.code, answer.key, data(&answer))
    }
}

/// What the trace program prints for an input.
pub fn trace(input: &[u8]) -> String {
    let mut lines = input.split_inclusive(|&b| b == b'\n');
    let mut printed = HEADER.to_string();
    match lines.next().and_then(Trace::new) {
        Some(mut trace) => lines.for_each(|line| printed += &trace.line(line)),
        None => printed += "0,1,0,-\n",
    }
    printed
}
