//! Two runs compared (document 02, W10): what one client is answered and what it
//! reads of its set blocks, whether the other client writes or not.
//!
//! Both runs have one span table, the same medium and the same format. The
//! rack's calls and one client's stand in both, and so do the cuts, each with
//! the record that it leaves; what it leaves of other stores may differ. The
//! other client reads and writes in one run alone, and no cut falls inside its
//! calls. Directly after every write that is not cut there is a flushed in both.

mod choice;
mod notes;
mod run;

use crate::cache::Cache;
use crate::call::{By, Call};
use crate::counts::{Counts, Event};
use crate::list::settings::{self, Settings};
use crate::model::{Model, Store};
use crate::pair::{same, same_bytes, Answer, Difference};
use crate::report::{Cut, Step};
use reference::followed::Left;
use reference::limits::RECORD;
use reference::refusal::{BLOCKS_PENDING, OUTSIDE_SPAN, RECORD_PENDING};
use reference::sample::{good_spans, Random};
use reference::spans::{Span, Spans, REACH};
use reference::state::State;
use run::Run;

/// The two runs in a difference: the client beside the other, and alone.
const SIDES: [&str; 2] = ["beside", "alone"];

struct Runs<'a> {
    random: Random,
    settings: Settings,
    by: By,
    other: By,
    /// The other client reads and writes in the first.
    runs: [Run; 2],
    /// Whether a cut fell while a growth ran.
    cut_in_growth: bool,
    log: &'a mut Vec<Step>,
    counts: &'a mut Counts,
}

/// Makes two runs; their calls are left in `log`.
pub fn run(mut random: Random, log: &mut Vec<Step>, counts: &mut Counts) -> Result<(), Difference> {
    let settings = settings::choose(&mut random);
    let mut medium = vec![0; RECORD + (settings.room * settings.s * settings.z) as usize];
    random.fill(&mut medium);
    let run = |medium: &[u8]| Run {
        state: State::ZEROS.to_words(),
        medium: medium.to_vec(),
        cache: Cache::default(),
        model: Model::format(settings.z, settings.s, settings.first),
        piece: Vec::new(),
    };
    let runs = [run(&medium), run(&medium)];
    let disks = random.pick(&[settings.first, settings.room]);
    let spans = spans_for(&mut random, disks * settings.s);
    let client = random.below(2);
    let mut runs = Runs {
        random,
        settings,
        by: By { spans, client },
        other: By {
            spans,
            client: 1 - client,
        },
        runs,
        cut_in_growth: false,
        log,
        counts,
    };
    let made = runs.make_list();
    runs.counts.event(Event::TwoRuns);
    made.map_err(|difference| Difference {
        sides: SIDES,
        ..difference
    })
}

/// A table for so many blocks; most often all blocks are one client's or the
/// other's.
fn spans_for(random: &mut Random, blocks: u64) -> Spans {
    if random.percent(30) {
        return good_spans(random, blocks);
    }
    let middle = random.range(1, blocks.max(2) - 1);
    let mut spans = [(0, middle), (middle, REACH)].map(|(first, end)| Span {
        first,
        count: end - first,
    });
    if random.percent(50) {
        spans.swap(0, 1);
    }
    Spans(spans)
}

impl Runs<'_> {
    fn make_list(&mut self) -> Result<(), Difference> {
        let Settings { z, s, first, .. } = self.settings;
        self.shared(Call::Format { z, s, disks: first }, false)?;
        self.shared(Call::Flushed, false)?;
        for _ in 0..self.random.range(40, 160) {
            self.act()?;
        }
        while self.growing() {
            self.shared(Call::Flushed, false)?;
            self.shared(Call::Advance, false)?;
        }
        let [first, second] = &self.runs;
        if first.medium != second.medium {
            self.counts.event(Event::RunsMediaDiffer);
        }
        Ok(())
    }

    fn growing(&self) -> bool {
        self.runs[1].model.growing()
    }

    fn open(&self) -> u64 {
        self.runs[1].model.open()
    }

    fn act(&mut self) -> Result<(), Difference> {
        if self.random.percent(40) {
            return self.others_turn();
        }
        let cut = self.random.percent(self.settings.cuts);
        if cut && self.random.percent(40) {
            return self.cut(None);
        }
        let call = self.rack_or_client_call();
        if call == Call::Restart {
            self.shared(Call::Flushed, false)?;
        }
        let answer = self.shared(call, cut)?;
        let waits = matches!(answer.number, BLOCKS_PENDING | RECORD_PENDING);
        if waits && self.random.percent(75) {
            self.shared(Call::Flushed, false)?;
            self.shared(call, cut)?;
        }
        Ok(())
    }

    /// A call of the other client, in the first run; a write with its flushed,
    /// which stands in both.
    fn others_turn(&mut self) -> Result<(), Difference> {
        let block = self.block_for(self.other);
        let call = self.client_call(self.other, block);
        let mut step = Step::new(call, self.runs[0].medium.len());
        step.in_one_run = true;
        self.log.push(step);
        let answer = self.runs[0].make(&call, self.counts).0;
        self.log.last_mut().expect("a step").number = Some(answer.number);
        if answer.accepted() {
            self.runs[0].ended(&call);
        }
        let writes = matches!(call, Call::ClientWrite { .. });
        self.counts.event(match (answer.number, writes) {
            (OUTSIDE_SPAN, _) => Event::RunsOtherOutside,
            (0, true) => Event::RunsOtherWrote,
            (_, true) => Event::RunsOtherRefused,
            (_, false) => Event::RunsOtherRead,
        });
        match writes {
            true => self.shared(Call::Flushed, false).map(|_| ()),
            false => self.compare(),
        }
    }

    /// A call that stands in both runs, with a flushed after a write that is
    /// not cut.
    fn shared(&mut self, call: Call, cut: bool) -> Result<Answer, Difference> {
        self.log.push(Step::new(call, self.runs[0].medium.len()));
        let grew = self.growing();
        let (answer, store) = self.runs[0].make(&call, self.counts);
        let (other, _) = self.runs[1].make(&call, self.counts);
        same("an answer to the rack or the client", answer, other)?;
        self.counts.comparisons += 1;
        self.log.last_mut().expect("a step").number = Some(answer.number);
        if answer.accepted() && cut && store != Store::Nothing {
            self.cut(Some((call, store)))?;
            return Ok(answer);
        }
        if answer.accepted() {
            self.runs.iter_mut().for_each(|run| run.ended(&call));
        }
        self.note(&call, &answer, grew);
        if let (Call::ClientRead { block, .. }, true) = (call, answer.accepted()) {
            self.compare_read(block)?;
        }
        self.compare()?;
        if matches!(call, Call::ClientWrite { .. }) {
            self.shared(Call::Flushed, false)?;
        }
        Ok(answer)
    }

    /// A cut in this call's store or between calls, and the restart after it.
    fn cut(&mut self, inside: Option<(Call, Store)>) -> Result<(), Difference> {
        let left = match self.runs[1].cache.has_record() {
            true => self.random.pick(&[Left::Old, Left::New]),
            false => Left::New,
        };
        self.note_cut(&inside, left);
        let step = self.log.last_mut().expect("a step");
        step.cuts.push(match &inside {
            Some((_, store)) => Cut::In(store.clone(), left),
            None => Cut::After(left),
        });
        let inside = inside.as_ref().map(|(call, store)| (call, store));
        let (random, counts) = (&mut self.random, &mut *self.counts);
        let [first, second] = &mut self.runs;
        let torn = first.cut(inside, left, random, counts);
        if second.cut(inside, left, random, counts) != torn {
            counts.event(Event::RunsTornApart);
        }
        let answer = self.shared(Call::Restart, false)?;
        same("the number of a restart", answer.number, 0)
    }

    /// Compares what the client has just read, if the block is set.
    fn compare_read(&mut self, block: u64) -> Result<(), Difference> {
        let [first, second] = &self.runs;
        let set = first.set(block);
        same("whether the block read is set", set, second.set(block))?;
        if set {
            same_bytes("a set block that was read", &first.piece, &second.piece)?;
            self.counts.event(Event::RunsRead);
        }
        Ok(())
    }

    /// Compares what the client reads of each of its blocks that is set.
    fn compare(&mut self) -> Result<(), Difference> {
        let [first, second] = &self.runs;
        let open = second.model.open();
        same("the number of open blocks", first.model.open(), open)?;
        let span = self.by.spans.0[self.by.client as usize];
        let mut compared = 0;
        for block in span.first..(span.first + span.count).min(open) {
            same(
                "whether a block is set",
                first.set(block),
                second.set(block),
            )?;
            if !first.set(block) {
                continue;
            }
            let (number, bytes) = first.read(&self.by, block);
            let (other, others) = second.read(&self.by, block);
            same("the number of a client's read", [number, other], [0, 0])?;
            same_bytes("a set block of the client", &bytes, &others)?;
            compared += 1;
        }
        self.counts.read_backs += 2 * compared;
        self.counts.comparisons += 3 * compared;
        if self.cut_in_growth && compared > 0 {
            self.counts.event(Event::RunsSetAfterCut);
        }
        Ok(())
    }
}
