//! The printed table of moves: all small numbers, and random ones.

use crate::call::Call;
use crate::counts::{Counts, Event};
use crate::pair::{Changed, Difference, Pair};
use crate::report::Step;
use reference::limits::DISKS;
use reference::sample::{table_arguments, Random};

/// Calls with random numbers.
const CALLS: usize = 20_000;

pub fn any(random: &mut Random) -> Call {
    let [m, n, mark] = table_arguments(random);
    Call::TableMove { m, n, mark }
}

/// m and n to beyond the most disks, marks to beyond the last; then any numbers.
pub fn sweep(
    random: &mut Random,
    log: &mut Vec<Step>,
    counts: &mut Counts,
) -> Result<(), Difference> {
    let mut pair = Pair::new(Vec::new());
    let most = DISKS + 2;
    for (m, n) in (0..=most).flat_map(|m| (0..=most).map(move |n| (m, n))) {
        for mark in 0..=m * n + 1 {
            look(&mut pair, Call::TableMove { m, n, mark }, log, counts)?;
        }
    }
    counts.event(Event::TableSwept);
    for _ in 0..CALLS {
        look(&mut pair, any(random), log, counts)?;
    }
    Ok(())
}

fn look(
    pair: &mut Pair,
    call: Call,
    log: &mut Vec<Step>,
    counts: &mut Counts,
) -> Result<(), Difference> {
    log.clear();
    log.push(Step::new(call, 0));
    pair.run(&call, 0, Changed::Only(0..0), counts)?;
    if matches!(call, Call::TableMove { m, n, .. } if m.checked_add(n).is_none()) {
        counts.event(Event::TableWrapped);
    }
    Ok(())
}
