//! The library under test against the reference, call by call.
//!
//! `differential` makes the standard run; `differential SECONDS [SEED]` runs
//! that long from a seed. Exits with 1 at any difference.

mod big;
mod cache;
mod call;
mod clients;
mod counts;
mod damage;
mod doubling;
mod list;
mod lookups;
mod model;
mod pair;
mod report;
mod tables;
mod two_runs;
mod views;

// The library under test, through the bindings.
use streterva::raw as library;

use counts::Counts;
use pair::Difference;
use reference::sample::Random;
use report::Step;
use std::panic::{catch_unwind, AssertUnwindSafe};
use std::process::ExitCode;
use std::sync::atomic::{AtomicBool, AtomicU64, Ordering};
use std::sync::Mutex;
use std::time::{Duration, Instant};

/// The seeds of the standard run, and the tasks made with each.
const SEEDS: [u64; 3] = [1, 2, 3];
const TASKS: u64 = 2_100;
const THREADS: usize = 2;

/// How long to go on with a seed.
#[derive(Clone, Copy)]
enum Until {
    Task(u64),
    Time(Instant),
}

impl Until {
    fn over(self, task: u64) -> bool {
        match self {
            Until::Task(end) => task >= end,
            Until::Time(end) => Instant::now() >= end,
        }
    }
}

fn main() -> ExitCode {
    let arguments: Result<Vec<u64>, _> = std::env::args().skip(1).map(|it| it.parse()).collect();
    let Ok(arguments) = arguments else {
        println!("usage: differential [SECONDS [SEED]]");
        return ExitCode::from(2);
    };
    let start = Instant::now();
    let mut counts = Counts::new();
    let passed = match arguments.first() {
        None => {
            println!("standard run, seeds {SEEDS:?}");
            let mut seeds = SEEDS.iter();
            seeds.all(|&seed| run(seed, Until::Task(TASKS), &mut counts)) && complete(&counts)
        }
        Some(&seconds) => {
            let seed = arguments
                .get(1)
                .copied()
                .unwrap_or_else(seed_from_the_clock);
            println!("{seconds} seconds from seed {seed}");
            let end = start + Duration::from_secs(seconds);
            run(seed, Until::Time(end), &mut counts)
        }
    };
    if !passed {
        return ExitCode::FAILURE;
    }
    summary(&counts, start.elapsed());
    ExitCode::SUCCESS
}

fn seed_from_the_clock() -> u64 {
    let now = std::time::SystemTime::now().duration_since(std::time::UNIX_EPOCH);
    now.map_or(0, |it| it.as_nanos() as u64)
}

/// Makes the tasks of one seed on all threads; tells whether all agreed.
fn run(seed: u64, until: Until, counts: &mut Counts) -> bool {
    let next = AtomicU64::new(0);
    let stop = AtomicBool::new(false);
    let total = Mutex::new(counts);
    std::thread::scope(|scope| {
        for _ in 0..THREADS {
            scope.spawn(|| {
                let mut mine = Counts::new();
                while !stop.load(Ordering::Relaxed) {
                    let number = next.fetch_add(1, Ordering::Relaxed);
                    if until.over(number) {
                        break;
                    }
                    if !agrees(seed, number, &mut mine) {
                        stop.store(true, Ordering::Relaxed);
                    }
                }
                total.lock().expect("no thread fails").add(&mine);
            });
        }
    });
    !stop.load(Ordering::Relaxed)
}

/// Makes one task and prints the difference it finds, if any.
fn agrees(seed: u64, number: u64, counts: &mut Counts) -> bool {
    let mut log = Vec::new();
    let made = catch_unwind(AssertUnwindSafe(|| task(seed, number, &mut log, counts)));
    match made {
        Ok(Ok(())) => return true,
        Ok(Err(difference)) => report::print(seed, number, &log, &difference),
        Err(_) => {
            let difference = Difference::new("the test itself failed", "", "");
            report::print(seed, number, &log, &difference);
        }
    }
    false
}

/// One list of calls, or one task of another kind; its number tells which.
fn task(
    seed: u64,
    number: u64,
    log: &mut Vec<Step>,
    counts: &mut Counts,
) -> Result<(), Difference> {
    let mut random = Random::new(seed);
    let mut random = Random::new(random.word() ^ number.wrapping_mul(0xD6E8_FEB8_6659_FD93));
    match number {
        0 => return big::run(&mut random, log, counts),
        1 => return damage::lengths(&mut random, log, counts),
        2..=4 => return damage::one_byte(&mut random, number - 2, log, counts),
        5 => return tables::sweep(&mut random, log, counts),
        6 => return clients::sweep(&mut random, log, counts),
        _ => {}
    }
    match number % 64 {
        5 | 35 => damage::states(&mut random, log, counts),
        6 => damage::records(&mut random, log, counts),
        7 => lookups::sweep(&mut random, log, counts),
        8 => lookups::big(&mut random, log, counts),
        10 | 26 | 42 | 58 => two_runs::run(random, log, counts),
        _ => list::run(random, log, counts),
    }
}

/// Tells what a standard run should have seen and did not.
fn complete(counts: &Counts) -> bool {
    let missing = counts.missing();
    for event in &missing {
        println!("NEVER HAPPENED: {event}");
    }
    missing.is_empty()
}

/// Prints the events, and all else in the last line.
fn summary(counts: &Counts, time: Duration) {
    counts.print_events();
    println!(
        "no difference: {} lists with {} calls; library calls {}; cuts {}; \
         {} blocks read back; {} comparisons; {:.1} seconds",
        counts.lists,
        counts.list_calls,
        counts.calls_told(),
        counts.cuts_told(),
        counts.read_backs,
        counts.comparisons,
        time.as_secs_f64()
    );
}
