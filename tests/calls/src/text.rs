//! The calls on text behind safe functions.
pub mod model;
pub mod random;

use model::{Event, Four, Line};

mod calls {
    use super::model::{Event, Four, Line};

    extern "C" {
        pub fn disk_parse(line: *const u8, line_length: usize, size: usize, data: *mut u8, data_length: usize) -> Event;
        pub fn disk_print(
            kind: u64,
            a: u64,
            b: u64,
            c: u64,
            data: *const u8,
            data_length: usize,
            size: usize,
            line: *mut u8,
            line_length: usize,
        ) -> Line;
        pub fn disk_parse_settings(line: *const u8, line_length: usize) -> Four;
    }
}

pub fn parse(line: &[u8], size: usize, data: &mut [u8]) -> Event {
    unsafe { calls::disk_parse(line.as_ptr(), line.len(), size, data.as_mut_ptr(), data.len()) }
}

pub fn print(e: &Event, data: &[u8], size: usize, line: &mut [u8]) -> Line {
    unsafe { calls::disk_print(e.kind, e.a, e.b, e.c, data.as_ptr(), data.len(), size, line.as_mut_ptr(), line.len()) }
}

pub fn parse_settings(line: &[u8]) -> Four {
    unsafe { calls::disk_parse_settings(line.as_ptr(), line.len()) }
}
