//! Random lists of calls with cuts, on both sides, beside the plain volume
//! and the tally.

mod choice;
mod cuts;
pub mod settings;

use crate::cache::Cache;
use crate::call::Call;
use crate::counts::{Counts, Event};
use crate::doubling;
use crate::model::{Model, Store};
use crate::pair::{same, Answer, Changed, Difference, Pair};
use crate::report::Step;
use reference::limits::{GROWTHS, RECORD};
use reference::refusal::{BLOCKS_PENDING, RECORD_PENDING};
use reference::sample::{damage, Random};
use reference::state::{State, WORDS};
use settings::Settings;

pub struct List<'a> {
    random: Random,
    settings: Settings,
    pair: Pair,
    model: Option<Model>,
    /// The model before the format whose record is pending.
    replaced: Option<Model>,
    cache: Cache,
    log: &'a mut Vec<Step>,
    counts: &'a mut Counts,
}

/// Makes one list; its calls are left in `log`.
pub fn run(mut random: Random, log: &mut Vec<Step>, counts: &mut Counts) -> Result<(), Difference> {
    let settings = settings::choose(&mut random);
    let spare = random.pick(&[0, 0, 1, 511, 700]);
    let bytes = RECORD + (settings.room * settings.s * settings.z) as usize + spare;
    let mut medium = vec![0; bytes];
    if random.percent(90) {
        random.fill(&mut medium);
    }
    counts.lists += 1;
    if !settings.covered {
        counts.event(Event::OutsideLists);
    }
    let mut list = List {
        random,
        settings,
        pair: Pair::new(medium),
        model: None,
        replaced: None,
        cache: Cache::default(),
        log,
        counts,
    };
    list.begin()?;
    for _ in 0..list.random.range(50, 300) {
        list.act()?;
    }
    list.end()
}

impl List<'_> {
    /// A few calls without a volume, then format.
    fn begin(&mut self) -> Result<(), Difference> {
        for _ in 0..self.random.below(3) {
            let call = self.any_call();
            self.step(call, false)?;
        }
        while self.model.is_none() {
            let call = self.format_call();
            let cut = self.random.percent(self.settings.cuts);
            self.step(call, cut)?;
        }
        Ok(())
    }

    /// Finishes what is under way and reads the volume back.
    fn end(&mut self) -> Result<(), Difference> {
        if self.model.is_none() {
            self.begin()?;
        }
        if self.lost() {
            self.bring_back()?;
        }
        self.read_back()?;
        self.run_growth()?;
        self.read_back()
    }

    /// Whether the state is not the volume's.
    fn lost(&self) -> bool {
        *self.pair.state() == State::ZEROS.to_words()
    }

    fn act(&mut self) -> Result<(), Difference> {
        if self.model.is_none() {
            // A cut took the only format back.
            return self.begin();
        }
        if self.lost() && self.random.percent(85) {
            return self.step(Call::Restart, false).map(|_| ());
        }
        match self.random.below(200) {
            0..=2 => self.run_growth(),
            3..=6 => self.probe(),
            7..=10 => self.read_back(),
            11..=12 => self.view_with_every_k(),
            _ => self.likely_step(),
        }
    }

    /// A likely call; refused with 18 or 19, most often once more after a
    /// flushed. At times a cut comes instead.
    fn likely_step(&mut self) -> Result<(), Difference> {
        let cut = self.random.percent(self.settings.cuts);
        if cut && self.random.percent(50) {
            return self.cut_between();
        }
        let call = self.likely_call();
        if call == Call::Restart && self.settings.covered && !self.cache.is_empty() {
            self.step_whole(Call::Flushed)?;
        }
        let answer = self.step(call, cut)?;
        if waits(&answer) && self.random.percent(75) {
            self.step_whole(Call::Flushed)?;
            self.step(call, cut)?;
        }
        Ok(())
    }

    /// Makes a call with the medium most often whole, and at times cuts it.
    fn step(&mut self, call: Call, cut: bool) -> Result<Answer, Difference> {
        let bytes = self.lent_bytes(&call);
        self.step_with(call, bytes, cut)
    }

    fn step_whole(&mut self, call: Call) -> Result<Answer, Difference> {
        self.step_with(call, self.pair.medium().len(), false)
    }

    fn step_with(&mut self, call: Call, bytes: usize, cut: bool) -> Result<Answer, Difference> {
        self.log.push(Step::new(call, bytes));
        let store = match &self.model {
            Some(model) => model.store_of(&call),
            None => Store::Record,
        };
        let changed = store.bytes();
        let old = self.pair.medium()[changed.clone()].to_vec();
        let kept = *self.pair.state();
        let answer = self
            .pair
            .run(&call, bytes, Changed::Only(changed), self.counts)?;
        self.counts.list_calls += 1;
        self.log.last_mut().expect("a step").number = Some(answer.number);
        if !answer.accepted() {
            self.refused(&call, bytes, answer.number, &kept);
        } else {
            self.keep_store(&call, &store, &old);
            if cut && store != Store::Nothing && self.may_be_cut(&call) {
                self.cut_in(&call, &store)?;
            } else {
                self.note_restart(&call, &kept);
                self.made(&call);
                self.check_report(&call, &answer)?;
            }
        }
        self.check_pending().map(|_| answer)
    }

    /// After a refused call. A refused format or restart leaves a state of
    /// zeros; where stores are pending and a restart would be outside the
    /// guarantee, the state is put back.
    fn refused(&mut self, call: &Call, bytes: usize, number: u64, kept: &[u64; WORDS]) {
        if self.settings.covered && !self.cache.is_empty() {
            self.pair.set_state(kept);
        }
        if *call == Call::Restart {
            self.note_short_restart(bytes, number);
        }
    }

    /// Puts an accepted call's store into the write cache; flushed and restart
    /// clear it.
    fn keep_store(&mut self, call: &Call, store: &Store, old: &[u8]) {
        let pending = !self.cache.is_empty();
        match (call, store) {
            (Call::Restart, _) if pending => self.counts.event(Event::PendingRestart),
            (Call::Format { .. }, _) if pending => self.counts.event(Event::PendingFormat),
            _ => {}
        }
        match (call, store) {
            (Call::Flushed | Call::Restart, _) => {
                self.cache.clear();
                self.replaced = None;
            }
            (_, Store::Record) => self.cache.store_record(old),
            (_, Store::Spot(place)) => {
                let new = &self.pair.medium()[place.clone()];
                self.cache.store(place.start, old, new);
            }
            _ => {}
        }
    }

    /// Compares what is pending with the stores that were made.
    fn check_pending(&mut self) -> Result<(), Difference> {
        if self.lost() {
            return Ok(());
        }
        let Some(model) = &self.model else {
            return Ok(());
        };
        let pending = model.followed.pending().to_word();
        self.counts.comparisons += 1;
        same("what is pending", self.pair.state()[15], pending)
    }

    /// Steps plain volume and tally by an accepted call.
    fn made(&mut self, call: &Call) {
        if let &Call::Format { z, s, disks } = call {
            self.replaced = self.model.replace(Model::format(z, s, disks));
            return;
        }
        let Some(model) = &mut self.model else { return };
        let grew = model.growing();
        model.made(call, self.pair.piece(call));
        let growths = model.followed.tally.counts().len() as u64 - 1;
        if grew && !model.growing() && growths == GROWTHS {
            self.counts.event(Event::SevenGrowths);
        }
        doubling::note_made(call, grew, &model.followed.tally, self.counts);
    }

    /// Compares a report with the tally, and reads back a growth just finished.
    fn check_report(&mut self, call: &Call, answer: &Answer) -> Result<(), Difference> {
        let Some(model) = &mut self.model else {
            return Ok(());
        };
        if call.reports() {
            model.reported = answer.figures[0];
        }
        if model.growing() || call.reports() {
            same(
                "the calls left by the tally",
                model.reported,
                model.followed.tally.calls_left(),
            )?;
            self.counts.comparisons += 1;
        }
        if call.reports() && *call != Call::Restart && !model.growing() {
            self.read_back()?;
        }
        Ok(())
    }

    /// Restarts a volume whose state is lost; nothing may refuse that.
    fn bring_back(&mut self) -> Result<(), Difference> {
        let answer = self.step_whole(Call::Restart)?;
        same("the number of a restart", answer.number, 0)
    }

    fn note_restart(&mut self, call: &Call, before: &[u64; WORDS]) {
        if *call == Call::Restart && before[14] & !self.pair.state()[14] != 0 {
            self.counts.event(Event::DroppedCopies);
        }
    }

    fn note_short_restart(&mut self, bytes: usize, number: u64) {
        match number {
            2 if bytes < RECORD => self.counts.event(Event::RestartNoRecord),
            2 => self.counts.event(Event::RestartFewDisks),
            _ => {}
        }
    }

    /// Runs the growth to its end by as many accepted advances as were
    /// reported last, whatever flushed and refused calls come between them.
    fn run_growth(&mut self) -> Result<(), Difference> {
        let Some(model) = &self.model else {
            return Ok(());
        };
        if self.lost() || !model.growing() {
            return Ok(());
        }
        let mut left = model.reported;
        while left > 0 {
            self.step_in_run()?;
            let answer = self.step_whole(Call::Advance)?;
            if waits(&answer) {
                self.counts.event(Event::RefusedInRun);
                let flushed = self.step_whole(Call::Flushed)?;
                same("the number of a flushed", flushed.number, 0)?;
                continue;
            }
            left -= 1;
            let told = (answer.number, answer.figures[1] == 3);
            same("the end of the growth", told, (0, left == 0))?;
        }
        self.counts.event(Event::FullRuns);
        Ok(())
    }

    /// At times a flushed, or a call that a growth under way refuses.
    fn step_in_run(&mut self) -> Result<(), Difference> {
        match self.random.below(12) {
            0 => {
                self.counts.event(Event::FlushedInRun);
                self.step_whole(Call::Flushed).map(|_| ())
            }
            1 => {
                self.counts.event(Event::RefusedInRun);
                let call = self.grow_call();
                self.step_whole(call).map(|_| ())
            }
            _ => Ok(()),
        }
    }

    fn read_back(&mut self) -> Result<(), Difference> {
        let Some(model) = &self.model else {
            return Ok(());
        };
        if !self.lost() {
            let held = self.settings.covered;
            model.read_back(self.pair.state(), self.pair.medium(), held)?;
            self.counts.event(Event::ReadBacks);
            self.counts.read_backs += model.open();
            self.counts.comparisons += 5 * model.open();
        }
        Ok(())
    }

    /// Views of a block with every k from 0 to N[t] + 1.
    fn view_with_every_k(&mut self) -> Result<(), Difference> {
        let Some(model) = &self.model else {
            return Ok(());
        };
        if self.lost() {
            return Ok(());
        }
        let disks = model.disks();
        let block = self.block();
        for k in 0..=disks + 1 {
            let call = self.view_of(block, k);
            self.step_whole(call)?;
        }
        self.counts.event(Event::ViewEveryK);
        Ok(())
    }

    /// Makes a call with a damaged state; the volume stays as it was.
    fn probe(&mut self) -> Result<(), Difference> {
        let call = match self.random.percent(25) {
            true => self.view_call(),
            false => self.likely_call(),
        };
        let bytes = self.lent_bytes(&call);
        let kept = (*self.pair.state(), self.pair.medium().to_vec());
        let sound = State::from_words(&kept.0).expect("a state");
        let state = damage(&mut self.random, &sound);
        let mut step = Step::new(call, bytes);
        step.state = Some(state);
        self.log.push(step);
        self.pair.set_state(&state);
        let changed = Changed::AsReference;
        let answer = self.pair.run(&call, bytes, changed, self.counts)?;
        if answer.accepted() {
            self.pair.put(0, &kept.1);
        }
        self.pair.set_state(&kept.0);
        Ok(())
    }
}

/// Whether 18 or 19 refused the call.
fn waits(answer: &Answer) -> bool {
    matches!(answer.number, BLOCKS_PENDING | RECORD_PENDING)
}
