//! Ctrl-C, and the signals that ask a process to end.

use std::process;
use std::sync::atomic::{AtomicBool, AtomicU32, Ordering};
use std::thread;
use std::time::{Duration, Instant};

use crate::failure::Failure;

static REQUESTS: AtomicU32 = AtomicU32::new(0);

/// Whether the process only waits, so that a first request ends it too.
static WAITS: AtomicBool = AtomicBool::new(false);

/// From now on a first request to end is noted; a second one, or one while the process waits, ends it at once.
pub fn note_requests() -> anyhow::Result<()> {
    ctrlc::set_handler(|| {
        if REQUESTS.fetch_add(1, Ordering::SeqCst) > 0 || WAITS.load(Ordering::SeqCst) {
            process::exit(130);
        }
    })?;
    Ok(())
}

/// Whether the process is asked to end.
pub fn requested() -> bool {
    REQUESTS.load(Ordering::SeqCst) > 0
}

/// Fails where the process is asked to end.
pub fn go_on() -> Result<(), Failure> {
    match requested() {
        true => Err(Failure::Interrupted),
        false => Ok(()),
    }
}

/// Waits for something outside, as standard input.
pub fn waiting<T>(wait: impl FnOnce() -> T) -> Result<T, Failure> {
    WAITS.store(true, Ordering::SeqCst);
    go_on()?;
    let told = wait();
    WAITS.store(false, Ordering::SeqCst);
    Ok(told)
}

/// Waits until this moment, or until the process is asked to end.
pub fn wait_until(moment: Instant) {
    while !requested() {
        let left = moment.saturating_duration_since(Instant::now());
        if left.is_zero() {
            return;
        }
        thread::sleep(left.min(Duration::from_millis(20)));
    }
}
