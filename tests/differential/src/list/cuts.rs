//! Cuts, in a call's store and between calls.

use super::List;
use crate::call::Call;
use crate::counts::Event;
use crate::model::{Model, Store};
use crate::pair::Difference;
use crate::report::Cut;
use reference::followed::Left;
use reference::state::State;

impl List<'_> {
    /// Whether a cut may fall here, with `call` just made. In a list that the
    /// guarantee covers it starts at the first flushed after format.
    pub fn may_be_cut(&self, call: &Call) -> bool {
        let format = matches!(call, Call::Format { .. });
        !self.settings.covered || !format && self.model.as_ref().is_some_and(started)
    }

    /// A cut in the store of an accepted call, which is in the cache by now.
    pub fn cut_in(&mut self, call: &Call, store: &Store) -> Result<(), Difference> {
        let left = self.record_left();
        let step = self.log.last_mut().expect("a step");
        step.cuts.push(Cut::In(store.clone(), left));
        self.counts.event(cut_event(call, store, left));
        if *store != Store::Record && self.cache.spots() > 1 {
            self.counts.event(Event::OtherStores);
        }
        match (&mut self.model, call) {
            (_, Call::Format { .. }) | (None, _) => self.made(call),
            (Some(model), _) => model.cut_in(call, store),
        }
        self.leave(left)
    }

    /// A cut between two calls.
    pub fn cut_between(&mut self) -> Result<(), Difference> {
        if self.lost() || !self.may_be_cut(&Call::Soundness) {
            return Ok(());
        }
        let left = self.record_left();
        if let Some(step) = self.log.last_mut() {
            step.cuts.push(Cut::After(left));
        }
        self.note_cut_between(left);
        self.leave(left)
    }

    /// Which record the cut leaves.
    fn record_left(&mut self) -> Left {
        match self.cache.has_record() {
            true => self.random.pick(&[Left::Old, Left::New]),
            false => Left::New,
        }
    }

    /// Leaves in the medium what the cut leaves of the pending stores, steps
    /// plain volume and tally by it, restarts and reads all back.
    fn leave(&mut self, left: Left) -> Result<(), Difference> {
        for (at, bytes) in self.cache.cut(&mut self.random, self.counts) {
            self.pair.put(at, &bytes);
        }
        let record = self.cache.take_record();
        let mut left = left;
        if let (Some(old), Left::Old) = (record, left) {
            self.pair.put(0, &old);
            if !self.model.as_ref().is_some_and(started) {
                // The format was never made. Of the volume before it, the
                // record is the last one stored.
                self.model = self.replaced.take();
                left = Left::New;
            }
        }
        self.pair.set_state(&State::ZEROS.to_words());
        let Some(model) = &mut self.model else {
            return Ok(());
        };
        model.followed.cut(left);
        self.bring_back()?;
        self.read_back()
    }

    /// Counts what a cut between calls finds pending, before it falls; in
    /// detail where the reads after it are held to the plain volume.
    fn note_cut_between(&mut self, left: Left) {
        let Some(model) = &self.model else { return };
        let pending = model.followed.pending();
        self.counts.event(match (pending.record, left) {
            (true, Left::Old) => Event::BetweenOld,
            (true, Left::New) => Event::BetweenNew,
            _ if pending.blocks => Event::BetweenBlocks,
            _ => Event::BetweenNothing,
        });
        if !self.settings.covered {
            return;
        }
        if pending.record {
            if let Some(event) = taken_back(model, left) {
                self.counts.event(event);
            }
        }
        let mut blocks = model.followed.written().to_vec();
        let saves = blocks.len();
        blocks.sort();
        blocks.dedup();
        if saves > blocks.len() {
            self.counts.event(Event::SavedTwice);
        }
        if blocks.len() > 1 {
            self.counts.event(Event::TwoSaves);
        }
        if pending.blocks && self.cache.spots() > blocks.len() {
            self.counts.event(match blocks.is_empty() {
                true => Event::CopiesOnly,
                false => Event::SavesAndCopies,
            });
        }
    }
}

/// Whether format's record is down.
fn started(model: &Model) -> bool {
    model.followed.started()
}

/// What the record that is left makes of the call that stored the new one.
fn taken_back(model: &Model, left: Left) -> Option<Event> {
    let ended = model.followed.end_is_pending();
    let recorded = model.followed.checkpoint_is_pending();
    match left {
        Left::Old if ended => Some(Event::GrowthTakenBack),
        Left::Old if recorded => Some(Event::RecordTakenBack),
        Left::Old => Some(Event::GrowTakenBack),
        Left::New => ended.then_some(Event::GrowthKept),
    }
}

fn cut_event(call: &Call, store: &Store, left: Left) -> Event {
    match (call, store, left) {
        (Call::Write { .. }, _, _) => Event::TornWrite,
        (Call::ClientWrite { .. }, _, _) => Event::TornClientWrite,
        (Call::Copy { .. }, _, _) => Event::TornCopy,
        (_, Store::Spot(_), _) => Event::TornAdvance,
        (Call::Format { .. }, _, Left::Old) => Event::OldInFormat,
        (Call::Format { .. }, _, _) => Event::NewInFormat,
        (Call::Grow { .. }, _, Left::Old) => Event::OldInGrow,
        (Call::Grow { .. }, _, _) => Event::NewInGrow,
        (Call::GrowBeyondDoubling { .. }, _, Left::Old) => Event::OldInOtherGrow,
        (Call::GrowBeyondDoubling { .. }, _, _) => Event::NewInOtherGrow,
        (Call::Checkpoint, _, Left::Old) => Event::OldInCheckpoint,
        (Call::Checkpoint, _, _) => Event::NewInCheckpoint,
        (_, _, Left::Old) => Event::OldInAdvance,
        (_, _, Left::New) => Event::NewInAdvance,
    }
}
