//! One of the two runs: the library, the drives' write cache, the plain volume
//! and the tally.

use crate::cache::Cache;
use crate::call::{by_library, By, Call, Lent, FIGURES};
use crate::counts::Counts;
use crate::library;
use crate::model::{Model, Store};
use crate::pair::Answer;
use reference::followed::Left;
use reference::limits::RECORD;
use reference::sample::Random;
use reference::spot::Block;
use reference::state::{State, WORDS};

/// What every byte of a piece is before a read.
const STALE: u8 = 0xA5;

pub struct Run {
    pub state: [u64; WORDS],
    pub medium: Vec<u8>,
    pub cache: Cache,
    pub model: Model,
    /// The piece of the last call.
    pub piece: Vec<u8>,
}

impl Run {
    /// Makes the call; an accepted one's store is in the cache then.
    pub fn make(&mut self, call: &Call, counts: &mut Counts) -> (Answer, Store) {
        let store = self.model.store_of(call);
        let old = self.medium[store.bytes()].to_vec();
        self.piece = vec![STALE; call.piece_bytes()];
        call.fill_piece(&mut self.piece);
        let mut figures = [0; FIGURES];
        let mut spans = call.spans().map(|spans| spans.to_words());
        let lent = Lent {
            state: &mut self.state,
            medium: &mut self.medium,
            piece: &mut self.piece,
            figures: &mut figures[..call.figures()],
            spans: spans.as_mut().map_or(&mut [], |words| words),
        };
        let number = by_library(call, lent);
        counts.call(call, number, &figures);
        if number == 0 {
            self.keep_store(call, &store, &old);
        }
        (Answer { number, figures }, store)
    }

    fn keep_store(&mut self, call: &Call, store: &Store, old: &[u8]) {
        match (call, store) {
            (Call::Flushed | Call::Restart, _) => self.cache.clear(),
            (_, Store::Record) => self.cache.store_record(old),
            (_, Store::Spot(place)) => {
                let new = &self.medium[place.clone()];
                self.cache.store(place.start, old, new);
            }
            _ => {}
        }
    }

    /// An accepted call has ended.
    pub fn ended(&mut self, call: &Call) {
        if !matches!(call, Call::Format { .. }) {
            self.model.made(call, &self.piece);
        }
    }

    /// A cut in this call's store or between calls; gives the bytes that it
    /// leaves of block stores.
    pub fn cut(
        &mut self,
        inside: Option<(&Call, &Store)>,
        left: Left,
        random: &mut Random,
        counts: &mut Counts,
    ) -> Vec<(usize, Vec<u8>)> {
        if let Some((call, store)) = inside {
            self.model.cut_in(call, store);
        }
        let torn = self.cache.cut(random, counts);
        for (at, bytes) in &torn {
            self.medium[*at..at + bytes.len()].copy_from_slice(bytes);
        }
        if let (Some(old), Left::Old) = (self.cache.take_record(), left) {
            self.medium[..RECORD].copy_from_slice(&old);
        }
        self.model.followed.cut(left);
        self.state = State::ZEROS.to_words();
        torn
    }

    /// The number of a client's read, and the bytes read.
    pub fn read(&self, by: &By, block: u64) -> (u64, Vec<u8>) {
        let mut piece = vec![STALE; self.model.z as usize];
        let words = by.spans.to_words();
        let (state, medium) = (&self.state, &self.medium);
        let number = library::client_read(&words, by.client, state, medium, block, &mut piece);
        (number, piece)
    }

    pub fn set(&self, block: u64) -> bool {
        self.model.followed.plain.bytes(Block(block)).is_some()
    }
}
