//! The trace program on random text: what it prints is what the model says. TRACE names another program.
use call_tests::random::Random;
use call_tests::text::model::LONGEST;
use call_tests::text::random::WAYS;
use event_tests::choose::one_of;
use event_tests::generate::{settings, Generator, Profile};
use event_tests::layout::length;
use event_tests::lines::{self, trace, Trace, HEADER, LARGEST};
use event_tests::model::Settings;
use event_tests::shrink::{line, shrink};
use std::io::{Read, Write};
use std::path::PathBuf;
use std::process::{Child, Command, Stdio};

/// The address space of the program when it is fed a gigabyte, in KiB.
const LIMIT: &str = "65536";

fn program() -> PathBuf {
    let default = || PathBuf::from(env!("CARGO_MANIFEST_DIR")).join("../../crates/trace/out/trace");
    std::env::var_os("TRACE").map_or_else(default, PathBuf::from)
}

/// Feeds a child and reads all that it prints. It may stop reading where nothing more matters.
fn feed(mut child: Child, write: impl FnOnce(&mut dyn Write) -> std::io::Result<()> + Send + 'static) -> String {
    let mut input = child.stdin.take().unwrap();
    let writer = std::thread::spawn(move || drop(write(&mut input)));
    let mut printed = Vec::new();
    child.stdout.take().unwrap().read_to_end(&mut printed).unwrap();
    writer.join().unwrap();
    assert!(child.wait().unwrap().code().is_some(), "ended by a signal");
    String::from_utf8(printed).unwrap()
}

fn spawn(mut command: Command) -> Child {
    let child = command.stdin(Stdio::piped()).stdout(Stdio::piped()).spawn();
    child.unwrap_or_else(|why| panic!("{:?}: {why}", command.get_program()))
}

fn run(input: &[u8]) -> String {
    let input = input.to_vec();
    feed(spawn(Command::new(program())), move |pipe| pipe.write_all(&input))
}

fn differs(input: &[u8]) -> bool {
    run(input) != trace(input)
}

/// How many lines were answered. An input that fails is made short.
fn check(input: &[u8]) -> usize {
    let printed = run(input);
    if printed != trace(input) {
        let lines: Vec<&[u8]> = input.split_inclusive(|&b| b == b'\n').collect();
        let short = shrink(lines, |lines| differs(&lines.concat())).concat();
        panic!("{}\nprogram {:?}\nmodel {:?}", short.escape_ascii(), run(&short), trace(&short));
    }
    printed.lines().count() - 1
}

fn small_settings(r: &mut Random) -> Settings {
    loop {
        let s = settings(r);
        if length(s) <= LARGEST {
            return s;
        }
    }
}

fn settings_line(s: Settings) -> Vec<u8> {
    format!("{},{},{},{}\n", s.places, s.size, s.entries, s.chunks).into_bytes()
}

/// A line that is no event, or at most by chance.
fn malformed(r: &mut Random, line: &[u8]) -> Vec<u8> {
    let body = &line[..line.len() - 1];
    match r.below(12) {
        0 => b"\n".to_vec(),
        1 => [body, b"\r\n"].concat(),
        2 => [body, b",\n"].concat(),
        3 => [body, b",0\n"].concat(),
        4 => line.to_ascii_uppercase(),
        5 => [body, b"0".repeat(20).as_slice(), b"\n"].concat(),
        6 => String::from_utf8_lossy(line).replacen(',', ",0", 1).into_bytes(),
        7 => {
            let n = r.below(40) as usize;
            [r.bytes(n).as_slice(), b"\n"].concat()
        }
        8 => overlong(r, line),
        _ => {
            let (at, way) = (r.below(line.len() as u64) as usize, r.below(WAYS as u64) as usize);
            r.damage(line, at, way)
        }
    }
}

/// Longer than a line may be, with an event where a buffer of some size would end.
fn overlong(r: &mut Random, line: &[u8]) -> Vec<u8> {
    let sizes = [LONGEST, LONGEST - 1, LONGEST + 1, 1 << 12, 1 << 13, 1 << 14, 1 << 15, 1 << 16, 2 * LONGEST];
    let fill = one_of(r, &sizes);
    let cut = r.below(line.len() as u64 + 1) as usize;
    [b"x".repeat(fill - cut.min(fill)).as_slice(), line].concat()
}

/// A list of events as text, some lines of it malformed.
fn text(r: &mut Random, events: u64) -> Vec<u8> {
    let mut input = settings_line(small_settings(r));
    let mut trace = Trace::new(&input).unwrap();
    let profile = Profile { probes: 0, ..Profile::random(r) };
    let mut generator = Generator::new(r, profile);
    let noise = one_of(r, &[0, 2, 10]);
    for _ in 0..events {
        let mut next = line(&generator.call(r, &trace.state)).into_bytes();
        if r.below(100) < noise {
            next = malformed(r, &next);
        }
        // what follows a line feed within the line is a line too
        next.split_inclusive(|&b| b == b'\n').for_each(|l| drop(trace.line(l)));
        input.extend(next);
    }
    input
}

/// At least 100,000 events.
#[test]
fn random_events() {
    let mut r = Random::new(1);
    let mut lines = 0;
    while lines < 100_000 {
        let events = r.among(500, 1500);
        let mut input = text(&mut r, events);
        if r.one_in(3) {
            input.truncate(r.below(input.len() as u64 + 1) as usize);
        }
        lines += check(&input);
    }
}

/// Cut at every place.
#[test]
fn cut_inputs() {
    let input = b"3,8,2,4\nlearn,0\nput,0,0,5,a1a1a1a1a1a1a1a1\ncopy,72057594037927936\nsavelog,0\nsavelog,1\nmap,0,5\nget,0,6\n\n";
    for n in 0..=input.len() {
        check(&input[..n]);
    }
}

#[test]
fn settings_lines() {
    let mut r = Random::new(2);
    for _ in 0..150 {
        let s = if r.one_in(4) { Settings::new(r.below(12), r.number(), r.number(), r.number()) } else { settings(&mut r) };
        let mut first = settings_line(s);
        if r.one_in(3) {
            first = malformed(&mut r, &first);
        }
        check(&[&first, b"learn,0\nget,0,5\nview\n".as_slice()].concat());
    }
}

/// The nearest settings on both sides of the largest store.
#[test]
fn largest_stores() {
    let all = (3..=8).flat_map(|n| (1..=400).flat_map(move |s| (2..=24).map(move |m| Settings::new(n, 8 * s, m, 4 + s % 7))));
    let mut near: Vec<Settings> = all.filter(|s| s.in_limits()).collect();
    near.sort_by_key(|&s| length(s).abs_diff(LARGEST));
    let (passed, refused): (Vec<_>, Vec<_>) = near[..40].iter().copied().partition(|&s| length(s) <= LARGEST);
    assert!(!passed.is_empty() && !refused.is_empty());
    for s in near.into_iter().take(40) {
        check(&[settings_line(s).as_slice(), b"learn,0\nget,0,5\nlose,2\njoin,2\nview\n"].concat());
    }
}

#[test]
fn any_input() {
    let mut r = Random::new(3);
    check(b"");
    check(b"\n");
    check(b"\n\n\n");
    for length in [1, 7, 100, 16_499, 16_500, 16_501, 65_536, 1_000_000] {
        check(&r.bytes(length));
        check(&[b"3,8,2,4\n", r.bytes(length).as_slice()].concat());
        check(&[b"3,8,2,4\n", b"\n".repeat(length.min(50_000)).as_slice()].concat());
        check(&vec![0; length]);
    }
}

/// A line of so many bytes between a head and a tail, with little memory; a line of one byte has the same answer.
fn check_long_line(head: &'static [u8], bytes: usize, tail: &'static [u8]) {
    let mut command = Command::new("sh");
    command.args(["-c", "ulimit -v \"$0\" && exec \"$1\"", LIMIT]).arg(program());
    let printed = feed(spawn(command), move |pipe| {
        let piece = vec![b'x'; 1 << 20];
        pipe.write_all(head)?;
        (0..bytes / piece.len()).try_for_each(|_| pipe.write_all(&piece))?;
        pipe.write_all(tail)
    });
    assert!(printed.starts_with(HEADER));
    assert_eq!(printed, lines::trace(&[head, b"x", tail].concat()));
}

#[test]
fn a_line_of_a_gigabyte() {
    const HEAD: &[u8] = b"3,8,2,4\nlearn,0\nput,0,0,5,a1a1a1a1a1a1a1a1\ncopy,72057594037927936\nsavelog,0\nsavelog,1\n";
    check_long_line(HEAD, 1 << 30, b"\nmap,0,5\nget,0,6\n");
    check_long_line(HEAD, 1 << 28, b"");
    check_long_line(b"", 1 << 28, b"\nlearn,0\n");
    check_long_line(b"3,8,2,4", 1 << 27, b"\nlearn,0\n");
}
