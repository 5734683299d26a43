//! Times the proved calls and the peer side by side, on the same bytes.
pub mod batch;
pub mod event;
pub mod fixture;
pub mod lists;
pub mod path;
pub mod reads;
pub mod samples;

use call_tests::store::Answer;
use call_tests::text::model::Event;

pub type Step = fn(&mut [u8], &Event, &[u8], &[u8], &mut [u8]) -> Answer;

/// The proved step, then the peer.
pub const STEPS: [Step; 2] = [call_tests::store::step, crate::peer::step];

pub type Run = fn(&mut [u8], &[u64], &[u8], &mut [u8], &mut [u64]) -> u64;

/// Lists of events, in the same order.
pub const RUNS: [Run; 2] = [call_tests::store::run, crate::peer::run];

pub type Read = fn(&mut [u8], u64, &[u64], &mut [u8]) -> u64;

/// Reads of many blocks, in the same order.
pub const READS: [Read; 2] = [|store, proxy, blocks, answers| call_tests::store::read(store, proxy, blocks, answers), crate::peer::read];

/// The check that each of them begins with.
pub const CHECKS: [fn(&[u8]) -> u64; 2] = [call_tests::store::check, crate::peer::check];
