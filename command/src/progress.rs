//! Progress on standard error: a bar on a terminal, elsewhere a line every few seconds.

use std::io::{self, IsTerminal};
use std::time::{Duration, Instant};

use indicatif::{BinaryBytes, HumanDuration, ProgressBar, ProgressStyle};

use crate::args::General;
use crate::numbers::commas;

const BETWEEN_DRAWS: Duration = Duration::from_millis(50);
const BETWEEN_LINES: Duration = Duration::from_secs(1);

/// How far some work on blocks is.
pub struct Progress {
    /// What is done with them: copied, saved ..
    done_word: &'static str,
    block_bytes: u64,
    total: u64,
    done: u64,
    start: Instant,
    last_shown: Instant,
    shown: Shown,
}

enum Shown {
    Bar(ProgressBar),
    Lines,
    Nothing,
}

impl Progress {
    /// Work on `total` blocks of so many bytes each.
    pub fn new(general: &General, done_word: &'static str, total: u64, block_bytes: u64) -> Progress {
        let start = Instant::now();
        let shown = match (general.quiet, io::stderr().is_terminal(), general.json) {
            (true, ..) | (false, false, true) => Shown::Nothing,
            (false, true, _) => Shown::Bar(new_bar(done_word, total)),
            (false, false, false) => Shown::Lines,
        };
        Progress { done_word, block_bytes, total, done: 0, start, last_shown: start, shown }
    }

    /// So many more blocks are done.
    pub fn add(&mut self, blocks: u64) {
        self.done += blocks;
        match &self.shown {
            Shown::Bar(bar) if self.is_due(BETWEEN_DRAWS) => {
                bar.set_message(self.rate());
                bar.set_position(self.done);
            }
            Shown::Lines if self.is_due(BETWEEN_LINES) => eprintln!("{}", self.line()),
            _ => return,
        }
        self.last_shown = Instant::now();
    }

    fn is_due(&self, between: Duration) -> bool {
        self.last_shown.elapsed() >= between
    }

    /// Leaves the terminal as it was.
    pub fn end(&self) {
        if let Shown::Bar(bar) = &self.shown {
            bar.finish_and_clear();
        }
    }

    fn rate(&self) -> String {
        let bytes = self.done * self.block_bytes;
        format!("{}/s", BinaryBytes((bytes as f64 / self.seconds()) as u64))
    }

    fn seconds(&self) -> f64 {
        self.start.elapsed().as_secs_f64().max(0.001)
    }

    fn line(&self) -> String {
        let left = (self.total - self.done) as f64 * self.seconds() / self.done.max(1) as f64;
        let left = HumanDuration(Duration::from_secs_f64(left));
        let (done, total) = (commas(self.done), commas(self.total));
        format!("{} {done} of {total} blocks, {}, {left} left", self.done_word, self.rate())
    }
}

fn new_bar(done_word: &'static str, total: u64) -> ProgressBar {
    let bar = ProgressBar::new(total).with_prefix(done_word);
    let parts = "{prefix} [{wide_bar}] {percent:>3} %  {human_pos} of {human_len} blocks  {msg}  {eta} left";
    let style = ProgressStyle::with_template(parts).expect("the parts of the bar are known");
    bar.set_style(style.progress_chars("█▉▊▋▌▍▎▏ "));
    bar
}
