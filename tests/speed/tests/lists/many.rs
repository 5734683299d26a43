//! Reads of many blocks in one call, by the proved call and by the peer, on a store as it is.
use super::Both;
use call_tests::code::CODES;
use call_tests::counts::Counts;
use call_tests::kind::GET;
use call_tests::random::Random;
use call_tests::store::{block_answers, read, HEAD};
use speed::peer;

/// How often each code was answered: by the calls, and for their blocks, as gets; and how many blocks were shown with a key.
#[derive(Default)]
pub struct Seen {
    pub calls: [u64; CODES],
    pub gets: Counts,
    pub shown: u64,
}

impl Both {
    /// Now and then too many blocks, an area of another length than the answers have, or bytes that are no store.
    pub fn read_many(&self, r: &mut Random, seen: &mut Seen) {
        let size = self.settings.size as usize;
        let proxy = if r.one_in(20) { r.number() } else { r.below(4) };
        let count = if r.one_in(4) { r.among(60, 67) } else { r.below(12) };
        let blocks: Vec<u64> = (0..count).map(|_| block_of(r, proxy)).collect();
        let needed = blocks.len() * (HEAD + size);
        let length = match r.below(8) {
            0 => r.below(needed as u64 + 1) as usize,
            1 => needed.saturating_sub(1),
            2 => needed + r.below(30) as usize,
            _ => needed,
        };
        let store = if r.one_in(20) { &self.proved[8..] } else { &self.proved[..] };
        let (mut one, mut kept) = (r.bytes(length), store.to_vec());
        let mut two = one.clone();
        let code = read(store, proxy, &blocks, &mut one);
        assert_eq!(peer::read(&mut kept, proxy, &blocks, &mut two), code, "{blocks:?} of {proxy}, {length} bytes");
        assert!(one == two && kept == store, "{blocks:?} of {proxy}");
        seen.calls[code as usize] += 1;
        if code == 0 {
            for answer in block_answers(&one, size, blocks.len()) {
                seen.gets.add(GET, answer.code);
                seen.shown += (answer.key != 0) as u64;
            }
        }
    }
}

/// Mostly of the proxy.
fn block_of(r: &mut Random, proxy: u64) -> u64 {
    let block = r.some_block();
    match r.below(20) {
        0 => r.number(),
        1 => block,
        _ => (proxy & 3) << 49 | block & 0x7ff,
    }
}
