//! Counts the instructions of calls: this program runs itself under valgrind's callgrind, whose counts are the same in every run.

use crate::counted::{self, Counted};
use crate::row::{Label, Side};
use crate::table::{grouped, told};
use std::path::{Path, PathBuf};
use std::process::Command;
use std::{env, fs, io};

/// The argument with which the program makes the counted calls and does nothing else.
pub const MAKE_CALLS: &str = "make-calls";

/// The function inside of which instructions are counted, and after which the count is written. As one pattern for both,
/// callgrind would take only the first.
const COUNTED: &str = "bench::row::make_calls*";
const WRITTEN_AFTER: &str = "*::row::make_calls*";

const SIDES: [Side; 2] = [Side::Library, Side::Reference];

/// Makes the calls of each row, first of the library, then of the reference.
pub fn make_calls() {
    for mut counted in counted::all() {
        for side in SIDES {
            counted.row.sample(side, 0);
        }
    }
}

/// Counts, prints the table, and says whether all limits hold.
pub fn print() -> bool {
    let folder = env::temp_dir().join(format!("streterva-instructions-{}", std::process::id()));
    fs::create_dir_all(&folder).expect("a folder for the counts");
    let counts = counts(&folder);
    fs::remove_dir_all(&folder).expect("the folder of the counts removed");
    match counts {
        Ok(counts) => table(&counts),
        Err(error) => {
            println!("No instructions were counted: {error}");
            false
        }
    }
}

/// The instructions of each sample, in the order in which they are made.
fn counts(folder: &Path) -> io::Result<Vec<u64>> {
    let out = folder.join("counts");
    let status = Command::new("valgrind")
        .args(["--quiet", "--tool=callgrind", "--collect-atstart=no"])
        .arg(format!("--toggle-collect={COUNTED}"))
        .arg(format!("--dump-after={WRITTEN_AFTER}"))
        .arg(format!("--callgrind-out-file={}", out.display()))
        .arg(env::current_exe()?)
        .arg(MAKE_CALLS)
        .status()
        .map_err(|error| io::Error::other(format!("valgrind did not start: {error}")))?;
    if !status.success() {
        return Err(io::Error::other("the calls did not come to their end"));
    }
    let samples = SIDES.len() * counted::all().len();
    if part(&out, samples + 1).exists() {
        return Err(io::Error::other("a row was counted in more than one part"));
    }
    (1..=samples).map(|i| total(&part(&out, i))).collect()
}

/// The file that callgrind writes after sample i.
fn part(out: &Path, i: usize) -> PathBuf {
    PathBuf::from(format!("{}.{i}", out.display()))
}

fn total(file: &Path) -> io::Result<u64> {
    let text = fs::read_to_string(file)?;
    let line = text.lines().find_map(|line| line.strip_prefix("totals: "));
    let count = line.and_then(|count| count.trim().parse().ok());
    count.ok_or_else(|| io::Error::other(format!("no count in {}", file.display())))
}

fn table(counts: &[u64]) -> bool {
    println!("| call | case | Z | library | reference | library / reference | at most | |");
    println!("|---|---|--:|--:|--:|--:|--:|---|");
    let rows = counted::all();
    let mut held = true;
    for (counted, pair) in rows.iter().zip(counts.chunks(SIDES.len())) {
        held &= line(counted, pair[0], pair[1]);
    }
    println!();
    held & others(&rows, counts)
}

/// Whether no row takes more than the call that it names, and what it may take above that; prints each that names one.
fn others(rows: &[Counted], counts: &[u64]) -> bool {
    let library = |i: usize| counts[SIDES.len() * i] as f64 / rows[i].calls as f64;
    let mut all_held = true;
    for (i, counted) in rows.iter().enumerate() {
        let Some((other, more)) = counted.at_most else {
            continue;
        };
        let Label { call, case, z, .. } = counted.row.label();
        let named = |row: &Counted| {
            let label = row.row.label();
            (label.call, label.case, label.z) == (other, case, z)
        };
        let named = rows.iter().position(named).expect("a row of that call");
        let (count, own) = (library(i), library(named));
        let held = count <= own + more as f64;
        let over = if held { "" } else { " **over**" };
        let more = if more == 0 {
            String::new()
        } else {
            format!(" and {more} more")
        };
        println!(
            "- {call}, {case}, Z = {}: {count:.1}, at most the {own:.1} of {other}{more}{over}",
            told(z)
        );
        all_held &= held;
    }
    println!();
    all_held
}

fn line(counted: &Counted, library: u64, reference: u64) -> bool {
    let Label { call, case, z, .. } = counted.row.label();
    let ratio = library as f64 / reference as f64;
    let held = ratio <= counted.most;
    let cells = [
        call.to_string(),
        case.to_string(),
        told(z),
        grouped(library / counted.calls as u64),
        grouped(reference / counted.calls as u64),
        format!("{ratio:.3}"),
        format!("{:.2}", counted.most),
        if held { "" } else { "**over**" }.to_string(),
    ];
    println!("| {} |", cells.join(" | "));
    held
}
