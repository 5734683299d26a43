//! Send, deliver and drop on a slice of records behind safe functions, and the same on a vector.
use crate::random::Random;

pub const MOST: usize = 64;

/// View, bucket, order number, block, key.
pub type Relay = [u64; 5];

#[repr(C)]
#[derive(Clone, Copy, Debug, PartialEq, Eq)]
pub struct Delivered {
    pub code: u64,
    pub relay: Relay,
}

mod calls {
    use super::{Delivered, Relay};

    #[repr(C)]
    pub struct Record(pub Relay);

    extern "C" {
        pub fn list_send(list: *mut Relay, length: usize, count: usize, relay: Record) -> u64;
        pub fn list_deliver(list: *mut Relay, length: usize, count: usize, index: usize) -> Delivered;
        pub fn list_drop(list: *mut Relay, length: usize, count: usize, index: usize) -> u64;
    }
}

pub fn send(list: &mut [Relay], count: usize, relay: Relay) -> u64 {
    unsafe { calls::list_send(list.as_mut_ptr(), list.len(), count, calls::Record(relay)) }
}

pub fn deliver(list: &mut [Relay], count: usize, index: usize) -> Delivered {
    unsafe { calls::list_deliver(list.as_mut_ptr(), list.len(), count, index) }
}

pub fn drop_at(list: &mut [Relay], count: usize, index: usize) -> u64 {
    unsafe { calls::list_drop(list.as_mut_ptr(), list.len(), count, index) }
}

pub fn random_relay(r: &mut Random) -> Relay {
    [r.next(), r.next(), r.next(), r.next(), r.next()]
}

/// The bag as a vector, and the records behind it, which keep what they hold.
pub mod model {
    use super::{Relay, MOST};

    pub fn send(bag: &mut Vec<Relay>, room: usize, relay: Relay) -> u64 {
        if bag.len() >= room || bag.len() >= MOST {
            return 10;
        }
        bag.push(relay);
        0
    }

    pub fn take(bag: &mut Vec<Relay>, index: usize) -> Option<Relay> {
        (index < bag.len()).then(|| bag.remove(index))
    }

    /// What lies in the slice: the bag, then the records as they were.
    pub fn over(bag: &[Relay], before: &[Relay]) -> Vec<Relay> {
        bag.iter().chain(&before[bag.len()..]).copied().collect()
    }
}
