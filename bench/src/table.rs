//! The table.

use crate::row::Line;

pub fn print(lines: &[Line]) {
    println!("| call | case | Z | s | library | reference | library / reference | memcpy | memcpy / library |");
    println!("|---|---|--:|--:|--:|--:|--:|--:|--:|");
    for line in lines {
        print_line(line);
    }
    println!();
}

fn print_line(line: &Line) {
    let label = &line.label;
    let library = line.library();
    let (reference, memcpy) = (line.reference(), line.memcpy());
    let cells = [
        label.call.to_string(),
        label.case.to_string(),
        told(label.z),
        told(label.s),
        time(Some(library)),
        time(reference),
        ratio(reference.map(|time| library / time)),
        time(memcpy),
        ratio(memcpy.map(|time| time / library)),
    ];
    println!("| {} |", cells.join(" | "));
}

/// A number of a label, which is 0 where it doesn't matter.
pub fn told(number: u64) -> String {
    match number {
        0 => "-".to_string(),
        _ => grouped(number),
    }
}

fn time(time: Option<f64>) -> String {
    time.map_or("-".to_string(), |time| format!("{time:.1}"))
}

fn ratio(ratio: Option<f64>) -> String {
    ratio.map_or("-".to_string(), |ratio| format!("{ratio:.2}"))
}

/// A number with commas between groups of three digits.
pub fn grouped(number: u64) -> String {
    if number < 1000 {
        return number.to_string();
    }
    format!("{},{:03}", grouped(number / 1000), number % 1000)
}
