//! The step: the printed trace, a whole write, the slips, every kind refused, the areas of a get, wild events, damaged stores.
use call_tests::code::{BACKUP_FULL, BAD_INPUT, BAD_SETTINGS, UNSOUND};
use call_tests::counts::Counts;
use call_tests::kind::{self, GET, KINDS, PUT};
use call_tests::lent::Lent;
use call_tests::random::Random;
use call_tests::store::model::{self, Settings};
use call_tests::store::random::{small_settings, sound_store};
use call_tests::store::{check, step, Answer};
use call_tests::text::model::Event;

const SMALL: Settings = Settings { places: 3, size: 8, entries: 2, chunks: 4 };
const A1: &str = "a1a1a1a1a1a1a1a1";
const KEY: u64 = 1 << 56;

fn event(kind: u64, a: u64, b: u64, c: u64) -> Event {
    Event { code: 0, kind, a, b, c }
}

fn places(n: u64) -> Settings {
    Settings { places: n, ..SMALL }
}

fn refused(code: u64) -> (u64, u64, String) {
    (code, 0, "-".to_string())
}

fn done(key: u64) -> (u64, u64, String) {
    (0, key, "-".to_string())
}

fn shown(key: u64, data: &str) -> (u64, u64, String) {
    (0, key, data.to_string())
}

#[test]
fn printed_trace() {
    let mut store = Lent::new(&mut Random::new(1), SMALL);
    let lines = ["learn,0", "get,0,5", "put,0,0,5,a1a1a1a1a1a1a1a1", "copy,72057594037927936", "savelog,0", "savelog,1", "map,0,5", "get,0,5"];
    let mut text = "line,code,key,data\n".to_string();
    for (i, l) in lines.iter().enumerate() {
        let (code, key, data) = store.line(l);
        text += &format!("{},{code},{key},{data}\n", i + 1);
    }
    let printed = "line,code,key,data\n1,0,0,-\n2,0,0,0000000000000000\n3,0,72057594037927936,-\n4,0,0,-\n5,0,0,-\n6,0,0,-\n7,0,0,-\n8,8,0,-\n";
    assert_eq!(text, printed);
}

/// Put, copy, savelog twice, map, send, deliver, savemap twice, done, get; and a second write of the block.
#[test]
fn whole_writes() {
    let mut r = Random::new(2);
    for s in [SMALL, Settings::new(8, 8192, 4, 5), Settings::new(5, 64, 1024, 300)] {
        let mut store = Lent::new(&mut r, s);
        store.accepted("learn,0");
        for sequence in 0..2 {
            let data = r.bytes(store.size());
            let told = store.call(&event(PUT, 0, 0, 5), &data, &[], &mut []);
            let key = KEY + sequence;
            assert_eq!(told, Answer { code: 0, key });
            store.accepted(&format!("copy,{key} savelog,0 savelog,1 map,0,5 send,5 deliver,0 savemap,0 savemap,1 done,0,5"));
            let (zero, mut answer) = (vec![0; store.size()], r.bytes(store.size()));
            let told = store.call(&event(GET, 0, 5, 0), &[], &zero, &mut answer);
            assert_eq!(told, Answer { code: 0, key });
            assert!(answer == data);
        }
    }
}

/// Lists from the rules' worked examples, with what the last event is told.
#[test]
fn slips() {
    let saved_once = format!("learn,0 put,0,0,5,{A1} savelog,0");
    let put_5 = format!("learn,0 put,0,0,5,{A1} copy,{KEY} savelog,0 savelog,1");
    let mapped_5 = format!("{put_5} map,0,5");
    let written_5 = format!("{mapped_5} send,5 deliver,0 savemap,0 savemap,1 done,0,5");
    let four = format!("put,0,0,5,{A1} put,0,0,6,{A1} put,0,0,7,{A1} put,0,0,8,{A1}");
    let ids = "lose,0 join,0 ".repeat(252);
    let bag = " send,5".repeat(64);
    let rows = [
        // numbering from the last saved chunk after a crash
        (3, format!("put,0,0,5,{A1} crash,0 rise,0 view put,0,0,6,{A1}"), done(KEY + 1024)),
        // fetching from any old holder
        (5, "lose,0 lose,1 view fetch,0".to_string(), refused(13)),
        // showing a pending block
        (3, format!("{mapped_5} get,0,5"), refused(8)),
        (3, format!("{mapped_5} send,5 deliver,0 savemap,0 get,0,5"), refused(8)),
        // taking a relay by arrival alone
        (3, format!("{mapped_5} send,5 send,5 deliver,1 deliver,0"), done(0)),
        // useless stores
        (3, format!("{written_5} get,0,5"), shown(KEY, A1)),
        (3, format!("put,0,0,5,{A1}"), done(KEY)),
        (3, format!("{mapped_5} send,5 deliver,0"), done(1)),
        (3, "learn,0 get,0,5".to_string(), shown(0, "0000000000000000")),
        (3, format!("{written_5} crash,0 rise,0 view fetch,0 ready,0 learn,0 mend,0 get,0,5"), shown(KEY, A1)),
        (3, format!("view {put_5} map,0,5 fetch,0 ready,0 send,5"), done(0)),
        // the order of the questions
        (3, format!("put,0,0,{},{A1}", 1u64 << 49), refused(4)),
        (3, format!("get,0,{}", 1u64 << 51), refused(3)),
        (3, "get,1,5".to_string(), refused(4)),
        (3, "crash,0 get,0,5".to_string(), refused(5)),
        (3, "view learn,0 crash,0 get,0,5".to_string(), refused(6)),
        (3, "view learn,0 get,0,5".to_string(), refused(7)),
        (3, "crash,0 fetch,0".to_string(), refused(6)),
        (3, "crash,0 ready,0".to_string(), refused(6)),
        (3, format!("{mapped_5} abandon,0,5 map,0,5"), refused(8)),
        (3, format!("{four} put,0,0,5,{A1}"), refused(9)),
        (3, format!("{four} put,0,0,9,{A1}"), refused(10)),
        (3, format!("put,0,1,5,{A1} put,0,1,6,{A1} put,0,1,7,{A1} put,0,1,8,{A1} copy,{KEY}"), refused(10)),
        (3, format!("copy,{KEY}"), refused(11)),
        (3, format!("learn,0 put,0,0,5,{A1} map,0,5"), refused(11)),
        // two members have the chunk saved, or it is not mapped
        (3, format!("{saved_once} map,0,5"), refused(11)),
        (3, format!("{saved_once} copy,{KEY} map,0,5"), refused(11)),
        (3, format!("{put_5} crash,1 map,0,5"), refused(11)),
        (3, format!("{put_5} crash,1 rise,1 map,0,5"), refused(11)),
        (3, mapped_5.clone(), done(0)),
        (3, format!("{mapped_5}{bag} send,6"), refused(10)),
        (3, format!("{mapped_5} send,6"), refused(13)),
        (3, format!("{ids}join,0"), refused(12)),
        (3, "view ready,0".to_string(), refused(13)),
        (3, "lose,0 crash,1 join,0 view".to_string(), refused(13)),
        (3, "lose,0 crash,1 join,0 rise,1 view".to_string(), done(0)),
        (3, format!("{mapped_5} abandon,0,5 collect,0"), refused(13)),
        (3, format!("{put_5} done,0,5"), refused(15)),
    ];
    let mut r = Random::new(3);
    for (n, lines, told) in rows {
        assert_eq!(Lent::new(&mut r, places(n)).lines(&lines), told, "{lines}");
    }
}

/// Each kind with a list before which it is refused; that no byte changes is asserted in every step.
#[test]
fn every_kind_refused() {
    let rows: [(&str, u64); KINDS.len()] = [
        ("crash,0 put,0,0,5,a1a1a1a1a1a1a1a1", 6),
        ("copy,1", 3),
        ("savelog,3", 3),
        ("learn,0 map,0,5", 9),
        ("send,5", 13),
        ("deliver,0", 3),
        ("drop,0", 3),
        ("crash,1 savemap,1", 6),
        ("learn,0 done,0,5", 9),
        ("get,0,5", 5),
        ("abandon,0,5", 9),
        ("learn,4", 3),
        ("reset,4", 3),
        ("crash,1 crash,1", 13),
        ("lose,1 lose,1", 13),
        ("rise,0", 13),
        ("join,0", 13),
        ("crash,0 crash,1 view", 13),
        ("fetch,0", 13),
        ("ready,0", 13),
        ("crash,2 mend,2", 6),
        ("crash,2 collect,0", 13),
    ];
    let mut r = Random::new(4);
    for (kind, (lines, code)) in KINDS.iter().zip(rows) {
        let word = lines.split(' ').last().unwrap().split(',').next().unwrap();
        assert_eq!(word, kind.word);
        assert_eq!(Lent::new(&mut r, SMALL).lines(lines), refused(code), "{lines}");
    }
}

#[test]
fn no_kind() {
    let mut r = Random::new(5);
    let mut store = Lent::new(&mut r, SMALL);
    for kind in kind::NONE {
        for _ in 0..20 {
            let (data, zero, mut answer) = (r.bytes(8), vec![0; 8], r.bytes(8));
            let e = event(kind, r.below(4), r.below(3), r.number());
            assert_eq!(store.call(&e, &data, &zero, &mut answer), Answer { code: BAD_INPUT, key: 0 });
        }
    }
}

/// Zero blocks and areas of every length around S, and a byte in the zero block that is not 0.
#[test]
fn areas_of_a_get() {
    let mut r = Random::new(6);
    let get = event(GET, 0, 5, u64::MAX);
    for size in [8, 16, 24] {
        let mut store = Lent::new(&mut r, Settings::new(3, size, 2, 4));
        store.accepted("learn,0");
        for length in 0..=2 * size {
            for room in 0..=2 * size {
                let (zero, mut answer) = (vec![0; length as usize], r.bytes(room as usize));
                let code = if length == size && room == size { 0 } else { 3 };
                assert_eq!(store.call(&get, &[], &zero, &mut answer), Answer { code, key: 0 });
                assert!(code == 3 || answer.iter().all(|&b| b == 0));
            }
        }
        for i in 0..size as usize {
            let (mut zero, mut answer) = (vec![0; size as usize], r.bytes(size as usize));
            zero[i] = 1 << r.below(8);
            assert_eq!(store.call(&get, &[], &zero, &mut answer), Answer { code: 3, key: 0 });
        }
    }
}

/// Data of every length around S.
#[test]
fn data_of_a_put() {
    let mut r = Random::new(7);
    for size in [8, 16, 24] {
        for length in 0..=2 * size {
            let mut store = Lent::new(&mut r, Settings::new(3, size, 2, 4));
            let data = r.bytes(length as usize);
            let expected = if length == size { Answer { code: 0, key: KEY } } else { Answer { code: 3, key: 0 } };
            assert_eq!(store.call(&event(PUT, 0, 0, 5), &data, &[], &mut []), expected);
        }
    }
}

/// No list from format fills the backup alone: its copy is written by hand.
#[test]
fn no_room_at_the_backup() {
    let mut store = Lent::new(&mut Random::new(10), SMALL);
    store.accepted(&format!("learn,0 put,0,0,5,{A1} copy,{KEY} savelog,0 savelog,1 map,0,5 send,5"));
    let memory = model::AT_PLACES + SMALL.place() + model::AT_COPIES;
    for (i, word) in [2, 6, KEY, 7, KEY].into_iter().enumerate() {
        model::put(&mut store.bytes, memory + i, word);
    }
    assert_eq!(store.line("deliver,0"), refused(14));
    // a block that it has needs no room
    model::put(&mut store.bytes, memory + 1, 5);
    assert_eq!(store.line("deliver,0"), done(1));
}

/// Events of all kinds, mostly with fields in range, on formatted and on random sound stores.
#[test]
fn wild_events() {
    let mut r = Random::new(8);
    let mut counts = Counts::default();
    let mut left = call_tests::tries().min(200_000);
    while left > 0 {
        let s = small_settings(&mut r);
        let (percent, calm) = (r.below(101), r.one_in(2));
        let mut store = if r.one_in(2) { Lent::new(&mut r, s) } else { Lent { settings: s, bytes: sound_store(&mut r, s, percent) } };
        for _ in 0..500.min(left) {
            let kind = r.wild_kind(calm);
            let [a, b, c] = r.wild_fields(kind, s.places, store.relays());
            let length = |r: &mut Random| if r.one_in(20) { r.below(40) as usize } else { s.size as usize };
            let (n, z, a_length) = (length(&mut r), length(&mut r), length(&mut r));
            let (data, zero, mut answer) = (r.bytes(n), vec![0; z], r.bytes(a_length));
            counts.add(kind, store.call(&event(kind, a, b, c), &data, &zero, &mut answer).code);
        }
        left -= 500.min(left);
    }
    if counts.total() >= call_tests::ENOUGH {
        assert_eq!(counts.codes_missing(&[BACKUP_FULL]), [BAD_SETTINGS, UNSOUND]);
        assert!(counts.accepted_less(1).is_empty(), "{}", counts.table());
    }
}

/// Whatever is asked of damaged bytes is answered 2, and no byte changes.
#[test]
fn damaged_stores() {
    let mut r = Random::new(9);
    let mut refused = 0;
    for _ in 0..200 {
        let s = small_settings(&mut r);
        let percent = r.below(101);
        let sound = sound_store(&mut r, s, percent);
        for _ in 0..100 {
            let mut bytes = sound.clone();
            let word = r.below(s.words() as u64) as usize;
            match r.below(3) {
                0 => model::put(&mut bytes, word, r.number()),
                1 => bytes.truncate(r.below(sound.len() as u64) as usize),
                _ => bytes.extend(r.bytes(8)),
            }
            if check(&bytes) == 0 {
                continue;
            }
            refused += 1;
            let kind = if r.one_in(10) { r.number() } else { r.kind() };
            let e = event(kind, r.below(4), r.below(4), r.below(4));
            let size = s.size as usize;
            let (old, area, data) = (bytes.clone(), r.bytes(size), r.bytes(size));
            let mut answer = area.clone();
            assert_eq!(step(&mut bytes, &e, &data, &vec![0; size], &mut answer), Answer { code: 2, key: 0 });
            assert!(bytes == old && answer == area);
        }
    }
    assert!(refused > 1000);
    let none = Answer { code: 2, key: 0 };
    assert_eq!(step(&mut [], &event(GET, 0, 0, 0), &[], &[], &mut []), none);
}
