//! A short list from format for each kind and each code that such a list can lead to, and for the order of the questions.
//! Both the proved calls and the model are told what the rules say.
use call_tests::counts::Counts;
use event_tests::both::{refused, Both};
use event_tests::model::Settings;

const KEY: u64 = 1 << 56;
const A1: &str = "a1a1a1a1a1a1a1a1";

/// Three bricks, two entries in a copy, four chunks in a log. Blocks below 1,024 are in bucket 0, of bricks 1 and 2.
fn store() -> Both {
    Both::new(Settings::new(3, 8, 2, 4))
}

/// `P5` and the like are puts at place 0, `W5` is a write of block 5 up to its map, `W56` one of two blocks, `V5` one that is saved at places 1 and 2 and
/// not at the primary; other words are lines.
fn lines(short: &str) -> String {
    let two = "learn,0 P5 P6 copy,KEY copy,KEY+1 SAVE map,0,5 map,0,6";
    let away = "learn,0 put,0,1,5,A1 copy,2*KEY savelog,1 savelog,2 map,0,5";
    let long = short.replace("W56", two).replace("W5", "learn,0 P5 copy,KEY SAVE map,0,5").replace("V5", away).replace("FULL", "P5 P6 P7 P8");
    let long = long.replace("SAVE", "savelog,0 savelog,1").replace("2*KEY", &(2 * KEY).to_string());
    let long = long.replace("KEY+1", &(KEY + 1).to_string()).replace("KEY+2", &(KEY + 2).to_string()).replace("KEY", &KEY.to_string());
    let puts = (5..10).fold(long, |text, block| text.replace(&format!("P{block}"), &format!("put,0,0,{block},A1")));
    puts.replace("A1", A1)
}

/// The last line of each list answers the code.
const REFUSED: &[(u64, &str)] = &[
    // put
    (3, "put,4,0,5,A1"),
    (3, "put,0,3,5,A1"),
    (3, "put,0,0,2251799813685248,A1"),
    (4, "put,1,0,5,A1"),
    (4, "crash,0 put,1,0,5,A1"),
    (6, "crash,0 P5"),
    (6, "lose,0 P5"),
    (6, "crash,0 rise,0 P5"),
    (6, "lose,0 join,0 P5"),
    (6, "P5 crash,1 put,0,1,5,A1"),
    (9, "FULL P5"),
    (10, "FULL P9"),
    // copy
    (3, "copy,5"),
    (6, "copy,648518346341351424"),
    (6, "P5 crash,0 copy,KEY"),
    (10, "put,0,1,5,A1 put,0,1,6,A1 put,0,1,7,A1 put,0,1,8,A1 copy,KEY"),
    (11, "copy,KEY"),
    // savelog
    (3, "savelog,3"),
    (6, "crash,0 savelog,0"),
    // map
    (3, "map,4,5"),
    (3, "map,0,2251799813685248"),
    (4, "map,1,5"),
    (5, "crash,0 map,0,5"),
    (6, "learn,0 crash,0 map,0,5"),
    (8, "W5 map,0,5"),
    (8, "W5 abandon,0,5 map,0,5"),
    (9, "learn,0 map,0,5"),
    (9, "W56 map,0,7"),
    (10, "W56 P7 copy,KEY+2 SAVE map,0,7"),
    (10, "W56 P7 map,0,7"),
    (11, "learn,0 P5 map,0,5"),
    (11, "learn,0 P5 savelog,0 map,0,5"),
    (11, "learn,0 P5 savelog,0 copy,KEY map,0,5"),
    (11, "learn,0 P5 copy,KEY savelog,1 map,0,5"),
    (11, "learn,0 P5 copy,KEY SAVE crash,1 map,0,5"),
    (11, "learn,0 P5 copy,KEY SAVE crash,1 rise,1 map,0,5"),
    (11, "view learn,0 P5 savelog,0 map,0,5"),
    // send
    (3, "send,2251799813685248"),
    (6, "view crash,0 send,5"),
    (7, "view send,5"),
    (10, "W5 SENDS send,6"),
    (13, "W5 send,6"),
    // deliver, drop
    (3, "deliver,0"),
    (3, "W5 send,5 deliver,1"),
    (6, "W5 send,5 crash,1 deliver,0"),
    (3, "drop,0"),
    (3, "W5 send,5 drop,0 drop,0"),
    // savemap
    (3, "savemap,3"),
    (6, "lose,1 savemap,1"),
    // done
    (3, "done,4,5"),
    (4, "done,1,5"),
    (5, "W5 reset,0 done,0,5"),
    (6, "view learn,0 crash,0 done,0,5"),
    (7, "view learn,0 done,0,5"),
    (8, "W5 done,0,5"),
    (8, "W5 abandon,0,5 done,0,5"),
    (9, "learn,0 done,0,5"),
    (15, "learn,0 P5 savelog,0 done,0,5"),
    // get
    (3, "get,4,5"),
    (3, "get,0,2251799813685248"),
    (4, "get,1,5"),
    (5, "view crash,0 get,0,5"),
    (6, "view learn,0 crash,0 get,0,5"),
    (7, "view learn,0 get,0,5"),
    (8, "W5 get,0,5"),
    (11, "V5 send,5 deliver,0 savemap,0 savemap,1 crash,1 crash,2 get,0,5"),
    // abandon
    (3, "abandon,4,5"),
    (4, "abandon,1,5"),
    (9, "abandon,0,5"),
    // learn, reset
    (3, "learn,4"),
    (3, "reset,4"),
    // crash, lose, rise, join
    (3, "crash,3"),
    (13, "crash,0 crash,0"),
    (13, "lose,0 crash,0"),
    (3, "lose,3"),
    (13, "lose,0 lose,0"),
    (3, "rise,3"),
    (13, "rise,0"),
    (13, "lose,0 rise,0"),
    (3, "join,3"),
    (12, "JOINS join,1"),
    (13, "join,0"),
    (13, "crash,0 join,0"),
    // view
    (13, "crash,0 crash,1 view"),
    (13, "crash,0 lose,1 join,1 view"),
    // fetch, ready
    (3, "fetch,16"),
    (6, "crash,0 fetch,0"),
    (13, "fetch,0"),
    (3, "ready,16"),
    (6, "view fetch,0 crash,1 ready,0"),
    (13, "view ready,0"),
    (13, "view fetch,0 ready,0 ready,0"),
    // mend
    (3, "mend,3"),
    (6, "crash,0 rise,0 mend,0"),
    (10, "W5 crash,1 put,0,2,6,A1 put,0,2,7,A1 put,0,2,8,A1 put,0,2,9,A1 mend,2"),
    // collect
    (3, "collect,3"),
    (6, "crash,0 collect,0"),
    (13, "crash,2 collect,0"),
    (13, "crash,2 rise,2 collect,0"),
    (13, "view collect,0"),
    (13, "W5 abandon,0,5 collect,0"),
    (13, "P5 collect,0"),
];

/// All lines of each list are accepted, and the last one answers the key.
const ACCEPTED: &[(u64, &str)] = &[
    (KEY, "P5"),
    (KEY + 3, "FULL"),
    (0, "P5 copy,KEY copy,KEY"),
    (0, "P5 crash,1 crash,2 copy,KEY"),
    (0, "W5"),
    (0, "V5"),
    (0, "view W5"),
    (1, "W5 send,5 deliver,0"),
    // set aside, whatever the backup is
    (0, "W5 send,5 send,5 deliver,1 crash,1 deliver,0"),
    (0, "W5 send,5 view deliver,0"),
    (0, "W5 send,5 drop,0"),
    (0, "W5 send,5 deliver,0 savemap,0 savemap,1 done,0,5"),
    (KEY, "W5 send,5 deliver,0 savemap,0 savemap,1 get,0,5"),
    (0, "learn,0 P5 get,0,5"),
    (0, "P5 abandon,0,5"),
    (0, "P5 reset,0 collect,0"),
    (0, "crash,0 rise,0 crash,0 lose,0 join,0 lose,0"),
    (0, "crash,0 view rise,0 view"),
    (0, "view fetch,0 fetch,0 ready,0"),
    (0, "W5 crash,1 mend,2 mend,2"),
    // a chunk that no member holds is not asked for
    (0, "V5 crash,1 crash,2 mend,0"),
];

fn full(short: &str) -> String {
    let sends = "send,5 ".repeat(64);
    let joins = "lose,0 join,0 ".repeat(252);
    lines(short).replace("SENDS", &sends).replace("JOINS", &joins)
}

/// What no list from format leads to soon, or at all.
const OTHERS: &[&str] = &["put 12", "send 12", "deliver 14", "view 12"];

#[test]
fn every_kind_and_code() {
    let mut counts = Counts::default();
    for &(code, list) in REFUSED {
        let mut both = store();
        assert_eq!(both.last(&full(list)), refused(code), "{list}");
        counts.add_all(&both.0.counts);
    }
    for &(key, list) in ACCEPTED {
        let mut both = store();
        assert_eq!(both.accepted(&full(list)), key, "{list}");
        counts.add_all(&both.0.counts);
    }
    let missing: Vec<String> = counts.missing().into_iter().filter(|cell| !cell.ends_with(" 2") && !cell.starts_with("no kind")).collect();
    assert_eq!(missing, OTHERS);
}
