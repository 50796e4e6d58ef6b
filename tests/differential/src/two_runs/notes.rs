//! What happened in two runs.

use super::Runs;
use crate::call::Call;
use crate::counts::Event;
use crate::model::Store;
use crate::pair::Answer;
use reference::followed::Left;
use reference::refusal::OUTSIDE_SPAN;

impl Runs<'_> {
    pub fn note(&mut self, call: &Call, answer: &Answer, grew: bool) {
        let counts = &mut *self.counts;
        match (call, answer.number) {
            (Call::ClientRead { .. } | Call::ClientWrite { .. }, OUTSIDE_SPAN) => {
                counts.event(Event::RunsClientOutside)
            }
            (Call::ClientWrite { .. }, 0) => counts.event(Event::RunsClientWrote),
            (Call::Copy { .. }, 0) => counts.event(Event::RunsCopied),
            (Call::Checkpoint, 0) => counts.event(Event::RunsRecorded),
            (Call::Advance, 0) => counts.event(Event::RunsAdvanced),
            (Call::Restart, 0) if self.log.len() > 1 => {
                let before = &self.log[self.log.len() - 2];
                if before.cuts.is_empty() {
                    counts.event(Event::RunsRestarted);
                }
            }
            _ => {}
        }
        let tally = &self.runs[1].model.followed.tally;
        if grew && !tally.growing() {
            counts.event(Event::RunsFinished);
            if tally.counts().len() > 2 {
                counts.event(Event::RunsSecond);
            }
        }
    }

    pub fn note_cut(&mut self, inside: &Option<(Call, Store)>, left: Left) {
        self.counts.event(match (inside, left) {
            (None, _) => Event::RunsBetween,
            (Some((Call::ClientWrite { .. }, _)), _) => Event::RunsWriteCut,
            (Some((_, Store::Spot(_))), _) => Event::RunsCopyCut,
            (_, Left::Old) => Event::RunsOldRecord,
            (_, Left::New) => Event::RunsNewRecord,
        });
        if self.growing() {
            self.cut_in_growth = true;
            self.counts.event(Event::RunsGrowthCut);
        }
    }
}
