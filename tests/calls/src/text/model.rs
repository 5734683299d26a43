//! The text form of events, written from the rules alone.
use crate::kind::{self, Kind, KINDS};

pub const LONGEST: usize = 16_500;

#[repr(C)]
#[derive(Clone, Copy, Debug, PartialEq, Eq, Default)]
pub struct Event {
    pub code: u64,
    pub kind: u64,
    pub a: u64,
    pub b: u64,
    pub c: u64,
}

#[repr(C)]
#[derive(Clone, Copy, Debug, PartialEq, Eq)]
pub struct Line {
    pub code: u64,
    pub length: usize,
}

#[repr(C)]
#[derive(Clone, Copy, Debug, PartialEq, Eq, Default)]
pub struct Four {
    pub code: u64,
    pub places: u64,
    pub size: u64,
    pub entries: u64,
    pub chunks: u64,
}

fn number(text: &[u8]) -> Option<u64> {
    let leading_zero = text.len() > 1 && text[0] == b'0';
    if text.is_empty() || leading_zero || !text.iter().all(u8::is_ascii_digit) {
        return None;
    }
    text.iter().try_fold(0u64, |v, b| v.checked_mul(10)?.checked_add((b - b'0') as u64))
}

fn is_hexadecimal(b: &u8) -> bool {
    matches!(b, b'0'..=b'9' | b'a'..=b'f')
}

fn value(digit: u8) -> u8 {
    match digit {
        b'0'..=b'9' => digit - b'0',
        _ => digit - b'a' + 10,
    }
}

fn body(line: &[u8]) -> Option<&[u8]> {
    match line.split_last() {
        Some((b'\n', body)) if line.len() <= LONGEST => Some(body),
        _ => None,
    }
}

fn event(line: &[u8], size: usize, data: &mut [u8]) -> Option<Event> {
    let mut fields = body(line)?.split(|&b| b == b',');
    let word = fields.next()?;
    let index = KINDS.iter().position(|k| k.word.as_bytes() == word)?;
    let kind = &KINDS[index];
    let mut numbers = [0; 3];
    for slot in &mut numbers[..kind.fields.len()] {
        *slot = number(fields.next()?)?;
    }
    let text = if kind.data { fields.next()? } else { &[] };
    if fields.next().is_some() {
        return None;
    }
    if kind.data {
        if text.len() != 2 * size || data.len() != size || !text.iter().all(is_hexadecimal) {
            return None;
        }
        for (byte, pair) in data.iter_mut().zip(text.chunks_exact(2)) {
            *byte = value(pair[0]) << 4 | value(pair[1]);
        }
    }
    Some(Event { code: 0, kind: index as u64 + 1, a: numbers[0], b: numbers[1], c: numbers[2] })
}

#[inline(never)]
pub fn parse(line: &[u8], size: usize, data: &mut [u8]) -> Event {
    event(line, size, data).unwrap_or(Event { code: 3, ..Event::default() })
}

/// The line, whatever its length.
pub fn text(e: &Event, data: &[u8]) -> Vec<u8> {
    let kind = kind::of(e.kind);
    let mut line = kind.word.as_bytes().to_vec();
    for n in &[e.a, e.b, e.c][..kind.fields.len()] {
        line.push(b',');
        line.extend(n.to_string().bytes());
    }
    if kind.data {
        line.push(b',');
        data.iter().for_each(|b| line.extend(format!("{b:02x}").bytes()));
    }
    line.push(b'\n');
    line
}

fn digits(v: u64) -> usize {
    v.checked_ilog10().map_or(1, |n| n as usize + 1)
}

fn put_number(mut v: u64, at: &mut [u8]) -> usize {
    let n = digits(v);
    for slot in at[..n].iter_mut().rev() {
        *slot = b'0' + (v % 10) as u8;
        v /= 10;
    }
    n
}

/// The line in a lent area, without a copy between.
#[inline(never)]
pub fn print(e: &Event, data: &[u8], size: usize, line: &mut [u8]) -> Line {
    const NO: Line = Line { code: 3, length: 0 };
    let Some(&Kind { word, fields, data: payload, .. }) = kind::find(e.kind) else {
        return NO;
    };
    let numbers = &[e.a, e.b, e.c][..fields.len()];
    if payload && (data.len() != size || size > LONGEST) {
        return NO;
    }
    let text = if payload { 1 + 2 * size } else { 0 };
    let length = word.len() + numbers.iter().map(|&n| 1 + digits(n)).sum::<usize>() + text + 1;
    if length > LONGEST || length > line.len() {
        return NO;
    }
    line[..word.len()].copy_from_slice(word.as_bytes());
    let mut at = word.len();
    for &n in numbers {
        line[at] = b',';
        at += 1 + put_number(n, &mut line[at + 1..]);
    }
    if payload {
        line[at] = b',';
        for (pair, byte) in line[at + 1..].chunks_exact_mut(2).zip(data) {
            pair[0] = b"0123456789abcdef"[(byte >> 4) as usize];
            pair[1] = b"0123456789abcdef"[(byte & 15) as usize];
        }
    }
    line[length - 1] = b'\n';
    Line { code: 0, length }
}

fn four(line: &[u8]) -> Option<Four> {
    let fields: Vec<&[u8]> = body(line)?.split(|&b| b == b',').collect();
    match fields.iter().map(|f| number(f)).collect::<Option<Vec<u64>>>()?[..] {
        [places, size, entries, chunks] => Some(Four { code: 0, places, size, entries, chunks }),
        _ => None,
    }
}

#[inline(never)]
pub fn parse_settings(line: &[u8]) -> Four {
    four(line).unwrap_or(Four { code: 3, ..Four::default() })
}
