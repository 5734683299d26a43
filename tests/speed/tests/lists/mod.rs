//! Random lists of events on two stores, one stepped by the proved calls and one by the peer.
mod again;
pub mod many;

use again::Kept;
use call_tests::counts::Counts;
use call_tests::kind;
use call_tests::random::Random;
use call_tests::store::model::{get, Settings, AT_BAG, BUCKETS};
use call_tests::store::{format, step, Answer};
use call_tests::text::model::Event;
use speed::peer;

pub struct Both {
    settings: Settings,
    pub proved: Vec<u8>,
    pub peer: Vec<u8>,
    /// Whether wild events are mostly of calm kinds.
    pub calm: bool,
    pub counts: Counts,
    kept: Kept,
}

impl Both {
    pub fn new(settings: Settings, bytes: Vec<u8>) -> Self {
        Both { settings, kept: Kept::new(&bytes), proved: bytes.clone(), peer: bytes, calm: false, counts: Counts::default() }
    }

    /// Formatted over random bytes.
    pub fn formatted(r: &mut Random, s: Settings) -> Self {
        let mut bytes = r.bytes(s.bytes());
        assert_eq!(format(&mut bytes, s), 0);
        Both::new(s, bytes)
    }

    fn call(&mut self, e: &Event, data: &[u8], zero: &[u8], area: &[u8]) -> Answer {
        let (mut one, mut two) = (area.to_vec(), area.to_vec());
        let told = step(&mut self.proved, e, data, zero, &mut one);
        assert_eq!(peer::step(&mut self.peer, e, data, zero, &mut two), told, "{e:?} {:?}", self.settings);
        assert!(one == two, "the answers of {e:?}");
        if self.proved != self.peer {
            let word = (0..self.proved.len() / 8).find(|&i| get(&self.proved, i) != get(&self.peer, i));
            panic!("word {word:?} after {e:?} {:?}", self.settings);
        }
        self.counts.add(e.kind, told.code);
        let fits = match e.kind {
            kind::PUT => data.len() == self.settings.size as usize,
            _ => area.len() == self.settings.size as usize && *zero == vec![0; area.len()],
        };
        self.kept.add(e, fits, data, (area, &one), told);
        told
    }

    /// All events so far once more, in batches.
    pub fn again_in_batches(&self, r: &mut Random) {
        self.kept.again_in_batches(r, &self.proved);
    }

    /// With the areas that its kind asks for.
    pub fn event(&mut self, r: &mut Random, kind: u64, a: u64, b: u64, c: u64) -> Answer {
        let size = self.settings.size as usize;
        let (data, zero, area) = (r.bytes(size), vec![0; size], r.bytes(size));
        self.call(&Event { code: 0, kind, a, b, c }, &data, &zero, &area)
    }

    /// The same, with a wild event before it now and then.
    fn next(&mut self, r: &mut Random, kind: u64, a: u64, b: u64) -> Answer {
        if r.one_in(60) {
            self.wild_event(r);
        }
        self.event(r, kind, a, b, 0)
    }

    /// An event of one field, for each value below a limit.
    fn each(&mut self, r: &mut Random, kind: u64, limit: u64) {
        (0..limit).for_each(|field| {
            self.next(r, kind, field, 0);
        });
    }

    pub fn some_events(&mut self, r: &mut Random) {
        match r.below(20) {
            0 => self.recovery(r),
            1 => self.wild_event(r),
            2..=4 => self.read(r),
            _ => self.write(r),
        }
    }

    /// A block of proxy 0 put at place 0 of a fresh store, saved there and at place 1, mapped and sent.
    pub fn sent_block(&mut self, r: &mut Random, block: u64) {
        let put = [(kind::LEARN, 0, 0, 0), (kind::PUT, 0, 0, block), (kind::COPY, 1 << 56, 0, 0)];
        let saved = [(kind::SAVELOG, 0, 0, 0), (kind::SAVELOG, 1, 0, 0)];
        let sent = [(kind::MAP, 0, block, 0), (kind::SEND, block, 0, 0)];
        for (kind, a, b, c) in put.into_iter().chain(saved).chain(sent) {
            assert_eq!(self.event(r, kind, a, b, c).code, 0);
        }
    }

    fn read(&mut self, r: &mut Random) {
        let block = r.some_block();
        self.next(r, kind::GET, block >> 49, block);
    }

    /// The whole path; all of it is tried whatever is answered.
    fn write(&mut self, r: &mut Random) {
        let (block, place) = (r.some_block(), r.below(self.settings.places));
        let proxy = block >> 49;
        let put = self.event(r, kind::PUT, proxy, place, block);
        self.next(r, kind::COPY, put.key, 0);
        self.each(r, kind::SAVELOG, self.settings.places);
        self.next(r, kind::MAP, proxy, block);
        self.next(r, kind::SEND, block, 0);
        let kind = if r.one_in(10) { kind::DROP } else { kind::DELIVER };
        self.next(r, kind, get(&self.peer, AT_BAG).saturating_sub(1), 0);
        self.each(r, kind::SAVEMAP, self.settings.places);
        self.next(r, kind::DONE, proxy, block);
        self.next(r, kind::GET, proxy, block);
        self.next(r, kind::ABANDON, proxy, block);
    }

    /// Bricks go and come back; then a view, all buckets fetched and ready, all places mended and collected.
    fn recovery(&mut self, r: &mut Random) {
        for _ in 0..r.below(3) {
            let place = r.below(self.settings.places);
            let kind = if r.one_in(2) { kind::CRASH } else { kind::LOSE };
            self.next(r, kind, place, 0);
        }
        self.each(r, kind::RISE, self.settings.places);
        self.each(r, kind::JOIN, self.settings.places);
        self.event(r, kind::VIEW, 0, 0, 0);
        self.each(r, kind::LEARN, 4);
        if r.one_in(2) {
            self.write(r);
        }
        for g in 0..BUCKETS as u64 {
            self.next(r, kind::FETCH, g, 0);
            self.next(r, kind::READY, g, 0);
        }
        self.each(r, kind::MEND, self.settings.places);
        if r.one_in(2) {
            self.each(r, kind::RESET, 4);
            self.each(r, kind::LEARN, 4);
        }
        self.each(r, kind::COLLECT, self.settings.places);
    }

    pub fn wild_event(&mut self, r: &mut Random) {
        let kind = r.wild_kind(self.calm);
        let [a, b, c] = r.wild_fields(kind, self.settings.places, get(&self.peer, AT_BAG));
        let size = self.settings.size;
        let length = |r: &mut Random| if r.one_in(20) { r.below(2 * size) as usize } else { size as usize };
        let (data, mut zero, area) = (length(r), vec![0; length(r)], length(r));
        if r.one_in(50) && !zero.is_empty() {
            let i = r.below(zero.len() as u64) as usize;
            zero[i] = 1 << r.below(8);
        }
        let (data, area) = (r.bytes(data), r.bytes(area));
        self.call(&Event { code: 0, kind, a, b, c }, &data, &zero, &area);
    }
}
