//! A failing list made short, and shown as lines of text.
use crate::model::Call;
use crate::trial::{Act, Start, Trial};
use call_tests::kind;
use call_tests::text::model::{text, Event};

/// The first thing that differs.
pub fn replay(start: &Start, acts: &[Act]) -> Result<(), String> {
    let mut trial = Trial::new(start)?;
    acts.iter().try_for_each(|act| trial.take(act).map(drop))
}

/// Drops runs of a list, halves first, then shorter ones, as long as the rest still fails; until no single one can go.
pub fn shrink<T: Clone>(mut list: Vec<T>, fails: impl Fn(&[T]) -> bool) -> Vec<T> {
    let mut run = list.len().div_ceil(2);
    while run > 0 {
        let before = list.len();
        let mut at = 0;
        while at < list.len() {
            let rest = [&list[..at], &list[(at + run).min(list.len())..]].concat();
            if fails(&rest) {
                list = rest;
            } else {
                at += run;
            }
        }
        if run > 1 || list.len() == before {
            run /= 2;
        }
    }
    list
}

/// The line of a call. A kind that is none has no word: its line is no event, which answers 3 as well.
pub fn line(call: &Call) -> String {
    if kind::find(call.kind).is_none() {
        return format!("{},{},{},{}\n", call.kind, call.a, call.b, call.c);
    }
    let event = Event { code: 0, kind: call.kind, a: call.a, b: call.b, c: call.c };
    String::from_utf8_lossy(&text(&event, &call.data)).into_owned()
}

/// The settings line first, as the trace program takes it; what text cannot say stands in brackets.
pub fn show(start: &Start, acts: &[Act]) -> String {
    let mut shown = match start {
        Start::Format(s, _) => format!("{},{},{},{}\n", s.places, s.size, s.entries, s.chunks),
        Start::Edited(bytes) => format!("[from {:?}]\n", crate::decode::decode(bytes)),
    };
    for act in acts {
        match act {
            Act::Step(call) => shown += &line(call),
            Act::Probe(damage, call) => shown += &format!("[on a copy with {damage:?}] {}", line(call)),
        }
    }
    shown
}
