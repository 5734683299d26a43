//! Side by side with the independent implementation, in one run: puts of 8,192 bytes and short lines, read and written.
use call_tests::kind::{COLLECT, COPY, GET, PUT, VIEW};
use call_tests::random::Random;
use call_tests::text::model::{self, Event};
use call_tests::time::{compare, heading};
use std::hint::black_box;

fn main() {
    let mut r = Random::new(31);
    heading();
    let cases = [
        ("put of 8,192 bytes", Event { code: 0, kind: PUT, a: 3, b: 7, c: 1_125_899_906_842_624 }, 8192),
        ("put of 8 bytes", Event { code: 0, kind: PUT, a: 0, b: 0, c: 5 }, 8),
        ("get,0,5", Event { code: 0, kind: GET, a: 0, b: 5, c: 0 }, 8),
        ("copy of a key", Event { code: 0, kind: COPY, a: 72_057_594_037_927_936, b: 0, c: 0 }, 8),
        ("view", Event { code: 0, kind: VIEW, a: 0, b: 0, c: 0 }, 8),
        ("collect,7", Event { code: 0, kind: COLLECT, a: 7, b: 0, c: 0 }, 8),
    ];
    for (name, e, size) in cases {
        let data = r.bytes(size);
        let line = model::text(&e, &data);
        let (mut one, mut two) = (vec![0; size], vec![0; size]);
        compare(
            &format!("parse, {name}"),
            || call_tests::text::parse(black_box(&line), size, &mut one).kind,
            || model::parse(black_box(&line), size, &mut two).kind,
        );
        let (mut one, mut two) = (vec![0; 17_000], vec![0; 17_000]);
        compare(
            &format!("print, {name}"),
            || call_tests::text::print(black_box(&e), &data, size, &mut one).length as u64,
            || model::print(black_box(&e), &data, size, &mut two).length as u64,
        );
    }
    let line = b"3,8,2,4\n";
    compare(
        "parse the settings 3,8,2,4",
        || call_tests::text::parse_settings(black_box(line)).chunks,
        || model::parse_settings(black_box(line)).chunks,
    );
}
