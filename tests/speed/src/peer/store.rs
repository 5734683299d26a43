//! A sound store: its words, and where its parts are.
use super::sound::check;
use super::words::{get, set, Word};
use call_tests::store::model::{Settings, AT_BUCKETS, AT_BUFFER, AT_COPIES, AT_PLACES, AT_PROXIES, BUCKET, PROXY};
pub use call_tests::store::model::{AT_GIVEN, AT_STARTED, AT_VIEW};

pub const MOST_PLACES: usize = 8;

// Words of a bucket's record.
pub const PRIMARY: usize = 0;
pub const BACKUP: usize = 1;
pub const LAST_PRIMARY: usize = 2;
pub const LAST_BACKUP: usize = 3;
pub const READY: usize = 4;
pub const FETCHED: usize = 5;
pub const SENT: usize = 6;
pub const TAKEN: usize = 7;

// Words of a place.
pub const UP: usize = 1;
pub const MEMBER: usize = 2;
pub const BEGAN: usize = 3;
pub const NEXT: usize = 4;
pub const CEILING: usize = 5;

/// The settings as sizes, and the sizes that follow from them, in words.
#[derive(Clone, Copy)]
pub struct Shape {
    pub places: usize,
    pub entries: usize,
    pub chunks: usize,
    pub cell: usize,
    pub copy: usize,
    pub log: usize,
    pub place: usize,
}

impl Shape {
    pub fn new(s: &Settings) -> Self {
        Shape {
            places: s.places as usize,
            entries: s.entries as usize,
            chunks: s.chunks as usize,
            cell: s.cell(),
            copy: s.copy(),
            log: s.at_log(),
            place: s.place(),
        }
    }

    /// Where a place begins.
    pub fn at(&self, place: usize) -> usize {
        AT_PLACES + place * self.place
    }
}

pub struct Store<'a> {
    pub words: &'a mut [Word],
    pub shape: Shape,
    /// By place, 0 where it is empty.
    pub ids: [u64; MOST_PLACES],
}

impl<'a> Store<'a> {
    /// None where the bytes are not sound.
    pub fn sound(bytes: &'a mut [u8]) -> Option<Self> {
        let (words, rest) = bytes.as_chunks_mut();
        let (shape, ids) = check(words).filter(|_| rest.is_empty())?;
        Some(Store { words, shape, ids })
    }

    pub fn get(&self, i: usize) -> u64 {
        get(self.words, i)
    }

    pub fn set(&mut self, i: usize, value: u64) {
        set(self.words, i, value);
    }

    pub fn set_id(&mut self, place: usize, id: u64) {
        self.set(self.shape.at(place), id);
        self.ids[place] = id;
    }

    pub fn view(&self) -> u64 {
        self.get(AT_VIEW)
    }

    /// A word of a bucket's record.
    pub fn of_bucket(&self, bucket: usize, which: usize) -> u64 {
        self.get(bucket_at(bucket) + which)
    }

    /// Where the brick with this id begins, if a place has it.
    pub fn brick(&self, id: u64) -> Option<usize> {
        self.ids[..self.shape.places].iter().position(|&i| i == id).map(|p| self.shape.at(p))
    }

    /// The same if it is a member; a member is up.
    pub fn member(&self, id: u64) -> Option<usize> {
        self.brick(id).filter(|at| self.get(at + MEMBER) == 1)
    }

    /// The place's brick, if it is a member.
    pub fn member_at(&self, place: usize) -> Option<usize> {
        let at = self.shape.at(place);
        (self.ids[place] != 0 && self.get(at + MEMBER) == 1).then_some(at)
    }

    /// Where each brick begins, by place.
    pub fn bricks(&self) -> impl Iterator<Item = usize> + use<> {
        let (shape, ids) = (self.shape, self.ids);
        (0..shape.places).filter(move |&p| ids[p] != 0).map(move |p| shape.at(p))
    }

    /// A bucket's copy in memory; the one on disk follows it.
    pub fn memory(&self, brick: usize, bucket: usize) -> usize {
        brick + AT_COPIES + 2 * bucket * self.shape.copy
    }

    pub fn disk(&self, brick: usize, bucket: usize) -> usize {
        self.memory(brick, bucket) + self.shape.copy
    }

    pub fn log(&self, brick: usize) -> &[Word] {
        &self.words[brick + self.shape.log..brick + self.shape.place]
    }

    pub fn log_mut(&mut self, brick: usize) -> &mut [Word] {
        &mut self.words[brick + self.shape.log..brick + self.shape.place]
    }

    /// Where a cell of a brick's log begins.
    pub fn cell(&self, brick: usize, row: usize) -> usize {
        brick + self.shape.log + 1 + 3 * self.shape.chunks + row * self.shape.cell
    }
}

pub fn bucket_at(bucket: usize) -> usize {
    AT_BUCKETS + bucket * BUCKET
}

pub fn proxy_at(proxy: usize) -> usize {
    AT_PROXIES + proxy * PROXY
}

/// A brick's append buffer.
pub fn buffer_at(brick: usize) -> usize {
    brick + AT_BUFFER
}
