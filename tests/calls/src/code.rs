//! The codes, 0 and the rules' questions by their numbers: one table for all packages of tests.

macro_rules! codes {
    ($($number:literal $name:ident)*) => {
        $(pub const $name: u64 = $number;)*
        const NUMBERS: &[u64] = &[$($number),*];
    };
}

codes! {
    0 OK
    1 BAD_SETTINGS
    2 UNSOUND
    3 BAD_INPUT
    4 WRONG_PROXY
    5 VIEW_UNKNOWN
    6 NO_MEMBER
    7 NOT_READY
    8 PENDING
    9 WRONG_ITEM
    10 NO_ROOM
    11 NO_CHUNK
    12 NO_NUMBER
    13 WRONG_STATE
    14 BACKUP_FULL
    15 OTHER_KEY
}

/// So many codes there are.
pub const CODES: usize = NUMBERS.len();

// a row out of its order does not compile
const _: () = {
    let mut i = 0;
    while i < CODES {
        assert!(NUMBERS[i] == i as u64);
        i += 1;
    }
};
