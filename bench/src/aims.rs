//! The aims for times, and whether this run meets them. Those for instructions stand in `counted.rs`.

use crate::cases::{CACHED, LARGE};
use crate::row::Line;
use crate::table::grouped;

/// A time up to this many times that at the smallest s is no growth. A time that rose with s would be 100 and 10,000 times
/// that; what remains is noise and the digits of a record.
const NO_GROWTH: f64 = 1.5;

/// A picture of 4,096 x 2,160 points of 4 bytes.
const PICTURE: u64 = 4096 * 2160 * 4;

pub fn print(lines: &[Line]) {
    transfer(lines, 65_536, 0.95);
    growth(lines);
    pictures(lines);
}

fn verdict(aim: &str, met: bool, figures: &[String]) {
    let answer = if met { "yes" } else { "no" };
    println!("- {aim}: **{answer}** ({})", figures.join("; "));
}

/// The lines of a call in a case, without those that compare values of s.
fn of<'a>(lines: &'a [Line], call: &'a str, case: &'a str) -> impl Iterator<Item = &'a Line> {
    lines.iter().filter(move |line| {
        let label = &line.label;
        label.call == call && label.case == case && !label.compares_s
    })
}

fn transfer(lines: &[Line], z: u64, least: f64) {
    let (mut met, mut figures) = (true, Vec::new());
    for (call, case) in [
        ("read", CACHED),
        ("write", CACHED),
        ("read", LARGE),
        ("write", LARGE),
    ] {
        for line in of(lines, call, case).filter(|line| line.label.z == z) {
            let speed = line.memcpy().expect("a memcpy") / line.library();
            met &= speed >= least;
            figures.push(format!("{call}, {case}: {speed:.2}"));
        }
    }
    let aim = format!(
        "read and write at Z = {} at least {least} of memcpy",
        grouped(z)
    );
    verdict(&aim, met, &figures);
}

/// The rows that compare values of s come in the order of s.
fn growth(lines: &[Line]) {
    let compared: Vec<&Line> = lines.iter().filter(|line| line.label.compares_s).collect();
    let least = compared[0].label.s;
    let (mut met, mut figures) = (true, Vec::new());
    for first in compared.iter().filter(|line| line.label.s == least) {
        let same = |line: &&&Line| {
            line.label.call == first.label.call && line.label.case == first.label.case
        };
        let times: Vec<f64> = compared
            .iter()
            .filter(same)
            .map(|line| line.library())
            .collect();
        let ratios = times[1..].iter().map(|time| time / times[0]);
        met &= ratios.clone().all(|ratio| ratio <= NO_GROWTH);
        let ratios: Vec<String> = ratios.map(|ratio| format!("{ratio:.2}")).collect();
        let (call, case) = (first.label.call, first.label.case);
        figures.push(format!("{call}, {case}: {}", ratios.join(" and ")));
    }
    let aim = format!(
        "no call's time grows with s or the number of windows (at the larger s at most {NO_GROWTH} times that at s = {least})"
    );
    verdict(&aim, met, &figures);
}

fn pictures(lines: &[Line]) {
    let rate = |z: u64| {
        let mut rows = of(lines, "read", LARGE).filter(|line| line.label.z == z);
        let read = rows.next().expect("reads of this size").library();
        let blocks = PICTURE / z;
        let rate = 1e9 / (blocks as f64 * read);
        format!("{rate:.1} as {} blocks of {}", grouped(blocks), grouped(z))
    };
    println!();
    println!(
        "Pictures a second, each 4,096 x 2,160 points of 4 bytes ({} bytes), by reads on the large medium: {}, {}.",
        grouped(PICTURE),
        rate(65_536),
        rate(4096)
    );
}
