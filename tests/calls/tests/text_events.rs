//! Events of all kinds, both ways, in areas of every length.
use call_tests::kind::{self, PUT};
use call_tests::random::Random;
use call_tests::text::model::{self, Event, Line};
use call_tests::text::{parse, print};
use call_tests::tries;

const SIZES: [usize; 5] = [0, 1, 8, 16, 64];

fn both_ways(r: &mut Random, e: &Event, data: &[u8], size: usize, room: usize) {
    let before = r.bytes(room);
    let (mut ours, mut theirs) = (before.clone(), before.clone());
    let answer = print(e, data, size, &mut ours);
    assert_eq!(answer, model::print(e, data, size, &mut theirs), "{e:?} in {room} bytes");
    assert_eq!(ours, theirs, "{e:?} in {room} bytes");
    if answer.code != 0 {
        assert_eq!(ours, before);
        return;
    }
    let line = &ours[..answer.length];
    assert_eq!(line, &model::text(e, data)[..]);
    let mut area = r.bytes(data.len());
    assert_eq!(parse(line, size, &mut area), *e);
    assert_eq!(area, data);
}

#[test]
fn random_events_are_printed_and_read_back() {
    let mut r = Random::new(1);
    for _ in 0..tries() / 4 {
        let size = SIZES[r.below(5) as usize];
        let kind = r.kind();
        let (e, data) = r.event(kind, size);
        let length = model::text(&e, &data).len();
        let room = (length + 3).saturating_sub(r.below(6) as usize);
        both_ways(&mut r, &e, &data, size, room);
    }
}

#[test]
fn every_kind_with_the_longest_numbers_and_blocks() {
    let mut r = Random::new(2);
    for kind in kind::all() {
        for size in [8, 512, 8192] {
            let (mut e, data) = r.event(kind, size);
            e.a = if e.a == 0 { 0 } else { u64::MAX };
            both_ways(&mut r, &e, &data, size, 20_000);
        }
    }
}

#[test]
fn lines_of_16_500_bytes_and_one_more() {
    let mut r = Random::new(3);
    for size in 8_200..8_250 {
        for n in 0..60 {
            let (p, q) = (n % 20, n / 20 * 9);
            let e = Event { code: 0, kind: PUT, a: 10u64.pow(p), b: 10u64.pow(q), c: 7 };
            let data = r.bytes(size);
            both_ways(&mut r, &e, &data, size, 17_000);
            let line = model::text(&e, &data);
            let (mut ours, mut theirs) = (r.bytes(size), vec![0; size]);
            theirs.copy_from_slice(&ours);
            assert_eq!(parse(&line, size, &mut ours), model::parse(&line, size, &mut theirs));
            assert_eq!(ours, theirs);
        }
    }
}

#[test]
fn what_is_no_event_is_not_printed() {
    let mut r = Random::new(4);
    let mut refuse = |e: Event, data: &[u8], size: usize| {
        let before = r.bytes(100);
        let mut line = before.clone();
        assert_eq!(print(&e, data, size, &mut line), Line { code: 3, length: 0 });
        assert_eq!(line, before);
    };
    for kind in kind::NONE {
        refuse(Event { kind, ..Event::default() }, &[], 0);
    }
    let put = Event { kind: PUT, ..Event::default() };
    for (length, size) in [(7, 8), (9, 8), (0, 8), (8, 0), (8, usize::MAX), (8, 1 << 63)] {
        refuse(put, &vec![0; length], size);
    }
}

#[test]
fn numbers_and_data_that_a_kind_lacks_are_not_looked_at() {
    let mut r = Random::new(5);
    for kind in kind::all().filter(|&kind| !kind::of(kind).data) {
        let (e, _) = r.event(kind, 8);
        let mut more = e;
        [&mut more.a, &mut more.b, &mut more.c].into_iter().skip(kind::of(kind).fields.len()).for_each(|n| *n = r.number());
        let mut line = vec![0; 100];
        let answer = print(&more, &[1, 2, 3], 8, &mut line);
        assert_eq!(&line[..answer.length], &model::text(&e, &[])[..]);
    }
}
