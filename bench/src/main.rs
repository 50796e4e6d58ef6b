//! Times the library against the Rust reference and memcpy, in one run, and counts the instructions of its calls. With the
//! argument `instructions` it only counts them. It fails when a call takes more than its limit.

mod aims;
mod cases;
mod compared;
mod counted;
mod date;
mod instructions;
mod list;
mod lookup;
mod machine;
mod media;
mod medium;
mod moves;
mod notes;
mod order;
mod record;
mod row;
mod table;
mod transfer;
mod volume;

use media::Media;
use row::{Line, Row, Side};
use std::env;
use std::process::ExitCode;

/// Timed rounds. In each one every row is timed on every side.
pub const ROUNDS: usize = 15;

fn main() -> ExitCode {
    match env::args().nth(1).as_deref() {
        Some(instructions::MAKE_CALLS) => instructions::make_calls(),
        Some("instructions") => return limits(),
        Some(_) => {
            eprintln!("usage: bench [instructions]");
            return ExitCode::from(2);
        }
        None => {
            times();
            return limits();
        }
    }
    ExitCode::SUCCESS
}

fn times() {
    let media = Media::new();
    let mut rows = list::all(&media);
    let lines = run(&mut rows);
    machine::print();
    notes::print();
    table::print(&lines);
    aims::print(&lines);
}

fn limits() -> ExitCode {
    println!("Instructions for one call:\n");
    if instructions::print() {
        return ExitCode::SUCCESS;
    }
    println!("A call takes more instructions than its limit in bench/src/counted.rs, or none were counted.");
    ExitCode::FAILURE
}

/// Runs all rounds after one that is not counted.
fn run(rows: &mut [Box<dyn Row>]) -> Vec<Line> {
    let mut lines: Vec<Line> = rows.iter().map(|row| Line::new(row.label())).collect();
    for round in 0..=ROUNDS {
        for (row, line) in rows.iter_mut().zip(&mut lines) {
            for turn in 0..Side::ALL.len() {
                let side = Side::ALL[(round + turn) % Side::ALL.len()];
                let time = row.sample(side, side.section(round));
                if round > 0 {
                    line.add(side, time);
                }
            }
        }
    }
    lines
}
