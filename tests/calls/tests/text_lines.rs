//! Damaged lines, and data areas of other lengths, against the independent parser.
use call_tests::kind::PUT;
use call_tests::random::Random;
use call_tests::text::model;
use call_tests::text::random::WAYS;
use call_tests::text::{parse, parse_settings};
use call_tests::tries;

fn compare(r: &mut Random, line: &[u8], size: usize, room: usize) -> bool {
    let before = r.bytes(room);
    let (mut ours, mut theirs) = (before.clone(), before.clone());
    let answer = parse(line, size, &mut ours);
    let text = String::from_utf8_lossy(line);
    assert_eq!(answer, model::parse(line, size, &mut theirs), "{text:?}, blocks of {size}, {room} bytes lent");
    assert_eq!(ours, theirs, "{text:?}, blocks of {size}, {room} bytes lent");
    if answer.code != 0 {
        assert_eq!(ours, before, "{text:?}");
    }
    answer.code == 0
}

#[test]
fn damaged_lines() {
    let mut r = Random::new(11);
    let (mut lines, mut accepted) = (0, 0u64);
    while lines < tries() {
        let size = [0, 1, 2, 8, 9][r.below(5) as usize];
        let kind = r.kind();
        let (e, data) = r.event(kind, size);
        let line = model::text(&e, &data);
        assert!(compare(&mut r, &line, size, size));
        for place in 0..line.len() {
            for way in 0..WAYS {
                let once = r.damage(&line, place, way);
                accepted += compare(&mut r, &once, size, size) as u64;
                lines += 1;
            }
        }
    }
    assert!(accepted > 0 && accepted < lines);
}

#[test]
fn lines_damaged_twice() {
    let mut r = Random::new(12);
    for _ in 0..tries() / 4 {
        let size = 8 * r.below(3) as usize;
        let kind = r.kind();
        let (e, data) = r.event(kind, size);
        let mut line = model::text(&e, &data);
        for _ in 0..2 {
            if !line.is_empty() {
                let place = r.below(line.len() as u64) as usize;
                let way = r.below(WAYS as u64 - 1) as usize;
                line = r.damage(&line, place, way);
            }
        }
        compare(&mut r, &line, size, size);
    }
}

#[test]
fn long_lines_damaged() {
    let mut r = Random::new(13);
    let size = 8192;
    let (e, data) = r.event(PUT, size);
    let line = model::text(&e, &data);
    for i in 0..tries() / 1000 {
        let place = if i % 2 == 0 { r.below(line.len() as u64) as usize } else { line.len() - 1 - r.below(40) as usize };
        let way = r.below(WAYS as u64) as usize;
        let damaged = r.damage(&line, place, way);
        compare(&mut r, &damaged, size, size);
    }
}

#[test]
fn data_areas_of_other_lengths() {
    let mut r = Random::new(14);
    for _ in 0..tries() / 20 {
        let size = r.below(20) as usize;
        let room = r.below(20) as usize;
        let kind = if r.below(2) == 0 { PUT } else { r.kind() };
        let (e, data) = r.event(kind, size);
        let line = model::text(&e, &data);
        assert_eq!(compare(&mut r, &line, size, room), kind != PUT || room == size);
        let other = r.below(20) as usize;
        compare(&mut r, &line, other, room);
    }
}

#[test]
fn lines_of_any_bytes() {
    let mut r = Random::new(15);
    for _ in 0..tries() / 10 {
        let length = r.below(30) as usize;
        let mut line: Vec<u8> = (0..length).map(|_| b"0123456789,,,abcdef\n"[r.below(20) as usize]).collect();
        line.push(b'\n');
        compare(&mut r, &line, 8, 8);
        assert_eq!(parse_settings(&line), model::parse_settings(&line));
    }
}

#[test]
fn settings_lines() {
    let mut r = Random::new(16);
    let mut lines = 0;
    while lines < tries() / 4 {
        let four: Vec<String> = (0..4).map(|_| r.number().to_string()).collect();
        let line = format!("{}\n", four.join(",")).into_bytes();
        assert_eq!(parse_settings(&line).code, 0);
        assert_eq!(parse_settings(&line), model::parse_settings(&line));
        for place in 0..line.len() {
            for way in 0..WAYS {
                let damaged = r.damage(&line, place, way);
                assert_eq!(parse_settings(&damaged), model::parse_settings(&damaged), "{:?}", String::from_utf8_lossy(&damaged));
                lines += 1;
            }
        }
    }
}
