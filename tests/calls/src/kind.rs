//! The kinds of events: one table for all packages of tests, from the rules alone.
use crate::code::*;
use std::ops::RangeInclusive;
use Field::*;

/// What a number of an event is.
#[derive(Clone, Copy, Debug, PartialEq, Eq)]
pub enum Field {
    Proxy,
    Place,
    Block,
    Key,
    Index,
    Bucket,
}

pub struct Kind {
    number: u64,
    /// the word at the head of its line
    pub word: &'static str,
    /// the numbers that follow
    pub fields: &'static [Field],
    /// whether a block's bytes follow those
    pub data: bool,
    /// the questions that may say no on a sound store
    pub refusals: &'static [u64],
}

macro_rules! kinds {
    ($($number:literal $name:ident $word:literal $fields:tt $data:literal $refusals:tt)*) => {
        $(pub const $name: u64 = $number;)*
        pub const KINDS: &[Kind] = &[$(Kind { number: $number, word: $word, fields: &$fields, data: $data, refusals: &$refusals }),*];
    };
}

kinds! {
    1 PUT "put" [Proxy, Place, Block] true [BAD_INPUT, WRONG_PROXY, NO_MEMBER, WRONG_ITEM, NO_ROOM, NO_NUMBER]
    2 COPY "copy" [Key] false [BAD_INPUT, NO_MEMBER, NO_ROOM, NO_CHUNK]
    3 SAVELOG "savelog" [Place] false [BAD_INPUT, NO_MEMBER]
    4 MAP "map" [Proxy, Block] false [BAD_INPUT, WRONG_PROXY, VIEW_UNKNOWN, NO_MEMBER, PENDING, WRONG_ITEM, NO_ROOM, NO_CHUNK]
    5 SEND "send" [Block] false [BAD_INPUT, NO_MEMBER, NOT_READY, NO_ROOM, NO_NUMBER, WRONG_STATE]
    6 DELIVER "deliver" [Index] false [BAD_INPUT, NO_MEMBER, BACKUP_FULL]
    7 DROP "drop" [Index] false [BAD_INPUT]
    8 SAVEMAP "savemap" [Place] false [BAD_INPUT, NO_MEMBER]
    9 DONE "done" [Proxy, Block] false [BAD_INPUT, WRONG_PROXY, VIEW_UNKNOWN, NO_MEMBER, NOT_READY, PENDING, WRONG_ITEM, OTHER_KEY]
    10 GET "get" [Proxy, Block] false [BAD_INPUT, WRONG_PROXY, VIEW_UNKNOWN, NO_MEMBER, NOT_READY, PENDING, NO_CHUNK]
    11 ABANDON "abandon" [Proxy, Block] false [BAD_INPUT, WRONG_PROXY, WRONG_ITEM]
    12 LEARN "learn" [Proxy] false [BAD_INPUT]
    13 RESET "reset" [Proxy] false [BAD_INPUT]
    14 CRASH "crash" [Place] false [BAD_INPUT, WRONG_STATE]
    15 LOSE "lose" [Place] false [BAD_INPUT, WRONG_STATE]
    16 RISE "rise" [Place] false [BAD_INPUT, WRONG_STATE]
    17 JOIN "join" [Place] false [BAD_INPUT, NO_NUMBER, WRONG_STATE]
    18 VIEW "view" [] false [NO_NUMBER, WRONG_STATE]
    19 FETCH "fetch" [Bucket] false [BAD_INPUT, NO_MEMBER, WRONG_STATE]
    20 READY "ready" [Bucket] false [BAD_INPUT, NO_MEMBER, WRONG_STATE]
    21 MEND "mend" [Place] false [BAD_INPUT, NO_MEMBER, NO_ROOM]
    22 COLLECT "collect" [Place] false [BAD_INPUT, NO_MEMBER, WRONG_STATE]
}

// a row out of its order does not compile
const _: () = {
    let mut i = 0;
    while i < KINDS.len() {
        assert!(KINDS[i].number == i as u64 + 1);
        i += 1;
    }
};

const LAST: u64 = KINDS.len() as u64;

/// Numbers that are no kind: around those that are, and such as have a kind in their low bits.
pub const NONE: [u64; 10] = [0, LAST + 1, LAST + 2, 255, 256, 256 + VIEW, 1 << 32, (1 << 32) + PUT, u64::MAX - 1, u64::MAX];

/// The kinds' numbers.
pub fn all() -> RangeInclusive<u64> {
    1..=LAST
}

/// The kind of a number, if there is one.
pub fn find(number: u64) -> Option<&'static Kind> {
    number.checked_sub(1).and_then(|i| KINDS.get(i as usize))
}

/// The kind of a number that is one.
pub fn of(number: u64) -> &'static Kind {
    find(number).unwrap_or_else(|| panic!("{number} is no kind"))
}

impl Kind {
    /// What it may be told of a sound store.
    pub fn codes(&self) -> impl Iterator<Item = u64> {
        [OK].into_iter().chain(self.refusals.iter().copied())
    }

    /// Where a field stands among its numbers.
    pub fn position(&self, field: Field) -> Option<usize> {
        self.fields.iter().position(|&f| f == field)
    }
}
