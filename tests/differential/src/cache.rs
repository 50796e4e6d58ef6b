//! The drives' write cache: the stores since the last flushed or restart, and
//! what a cut leaves of them.

use crate::counts::{Counts, Event};
use reference::sample::Random;

/// The stores to one spot.
struct Stores {
    at: usize,
    /// The bytes before them.
    old: Vec<u8>,
    /// The bytes of each, in their order.
    new: Vec<Vec<u8>>,
}

/// What became of a spot at a cut.
#[derive(Clone, Copy)]
enum Landed {
    Old,
    New,
    Half,
    Any,
    Earlier,
}

#[derive(Default)]
pub struct Cache {
    spots: Vec<Stores>,
    /// The record before the store of it that is pending.
    record: Option<Vec<u8>>,
}

impl Cache {
    pub fn is_empty(&self) -> bool {
        self.spots.is_empty() && self.record.is_none()
    }

    pub fn has_record(&self) -> bool {
        self.record.is_some()
    }

    /// The number of spots with stores pending.
    pub fn spots(&self) -> usize {
        self.spots.len()
    }

    /// All stores are down.
    pub fn clear(&mut self) {
        self.spots.clear();
        self.record = None;
    }

    pub fn store_record(&mut self, old: &[u8]) {
        self.record = Some(old.to_vec());
    }

    pub fn store(&mut self, at: usize, old: &[u8], new: &[u8]) {
        let known = self.spots.iter_mut().find(|spot| spot.at == at);
        match known {
            Some(spot) => spot.new.push(new.to_vec()),
            None => self.spots.push(Stores {
                at,
                old: old.to_vec(),
                new: vec![new.to_vec()],
            }),
        }
    }

    /// The old record, where one is pending, and nothing pending after it.
    pub fn take_record(&mut self) -> Option<Vec<u8>> {
        self.record.take()
    }

    /// The bytes that a cut leaves in each spot, in any mix: most often each
    /// spot has its own lot, at times all have the same.
    pub fn cut(&mut self, random: &mut Random, counts: &mut Counts) -> Vec<(usize, Vec<u8>)> {
        let same = random.pick(&[
            Some(Landed::Old),
            Some(Landed::New),
            Some(Landed::Any),
            None,
            None,
            None,
        ]);
        let spots = std::mem::take(&mut self.spots);
        let land = |spot: Stores| {
            let any = random.pick(&[
                Landed::Old,
                Landed::New,
                Landed::Half,
                Landed::Any,
                Landed::Earlier,
            ]);
            let bytes = spot.landed(same.unwrap_or(any), random, counts);
            (spot.at, bytes)
        };
        spots.into_iter().map(land).collect()
    }
}

impl Stores {
    fn landed(&self, landed: Landed, random: &mut Random, counts: &mut Counts) -> Vec<u8> {
        let (last, earlier) = self.new.split_last().expect("a store");
        let mut bytes = self.old.clone();
        match landed {
            Landed::Old => counts.event(Event::LandedOld),
            Landed::New => {
                bytes.copy_from_slice(last);
                counts.event(Event::LandedNew);
            }
            Landed::Earlier if !earlier.is_empty() => {
                let some = random.below(earlier.len() as u64) as usize;
                bytes.copy_from_slice(&earlier[some]);
                counts.event(Event::LandedEarlier);
            }
            Landed::Half | Landed::Earlier => {
                let place = random.below(bytes.len() as u64) as usize;
                let (from, to) = random.pick(&[(0, place), (place, last.len())]);
                bytes[from..to].copy_from_slice(&last[from..to]);
                counts.event(Event::LandedHalf);
            }
            Landed::Any => {
                random.fill(&mut bytes);
                counts.event(Event::LandedAny);
            }
        }
        bytes
    }
}
