//! `chart`, beside the proved program of the same name.

use std::io::Write;
use std::path::PathBuf;
use std::process::{Command, Stdio};

use serde_json::Value;

use crate::common::{in_the_repository, Form, Rack, FORMS};

/// The bytes of the program's page, which no part is longer than.
const PAGE: usize = 65_536;

const PICTURE: &str = "   row         0         1         2         3         4
     0        16         1         2         0        15
     1        17        18         5         3         4
     2         6        19        20         7         8
     3         9        10        21        22        11
     4        12        13        14        23        24
";

/// The program `chart`.
fn program() -> PathBuf {
    let path = std::env::var_os("STRETERVA_CHART").map_or(in_the_repository("target/bin/chart"), PathBuf::from);
    assert!(path.is_file(), "no {}: 'tools/build chart' makes it, or STRETERVA_CHART names it", path.display());
    path
}

/// What the program prints for the volume's record.
fn printed_by_the_program(rack: &Rack) -> Vec<u8> {
    let started = Command::new(program()).stdin(Stdio::piped()).stdout(Stdio::piped()).spawn();
    let mut child = started.expect("the program starts");
    let mut pipe = child.stdin.take().expect("it is a pipe");
    pipe.write_all(&rack.sector()).expect("the program reads the record");
    drop(pipe);
    child.wait_with_output().expect("the program ends").stdout
}

fn as_the_program(rack: &Rack) {
    let told = rack.unchanged(|| rack.done("chart volume"));
    assert_eq!(told.text().as_bytes(), printed_by_the_program(rack));
}

#[test]
fn as_the_program_prints_it_in_every_stage() {
    for form in FORMS {
        let rack = Rack::new(form, 24, 2);
        as_the_program(&rack);
        rack.grow_in_stages(4, 13, as_the_program);
        rack.grow_in_stages(5, 13, as_the_program);
        rack.grow_in_stages(9, 29, as_the_program);
        rack.grow_in_stages(16, 47, as_the_program);
    }
}

#[test]
fn the_picture() {
    let rack = Rack::of_the_picture();
    rack.grow_and_run(5);
    assert_eq!(rack.done("chart volume").text(), PICTURE);
    let lines: Vec<&str> = PICTURE.split_inclusive('\n').collect();
    assert_eq!(rack.done("chart volume --rows 2-3").text(), [lines[0], lines[3], lines[4]].concat());
    assert_eq!(rack.done("chart volume --rows 4").text(), [lines[0], lines[5]].concat());
    assert_eq!(rack.done("chart volume --rows 0-4").text(), PICTURE);
}

/// The cells of a chart, row by row, without its headings.
fn cells(text: &str) -> Vec<Vec<Option<u64>>> {
    let lines = text.lines().filter(|line| !line.is_empty() && !line.starts_with("   row"));
    lines.map(|line| line.split_whitespace().map(|cell| cell.parse().ok()).collect()).collect()
}

/// The same as JSON, with the row in front.
fn cells_of_json(told: &Value) -> Vec<Vec<Option<u64>>> {
    let rows = told["rows"].as_array().expect("a list of rows");
    let cells = |row: &Value| row["blocks"].as_array().expect("a list of blocks").iter().map(Value::as_u64).collect();
    rows.iter().map(|row| [vec![row["row"].as_u64()], cells(row)].concat()).collect()
}

#[test]
fn as_json() {
    for form in FORMS {
        let rack = Rack::new(form, 24, 3);
        rack.grow_in_stages(5, 11, |rack| {
            let told = rack.told("chart volume");
            assert_eq!(told["disks"], 5);
            assert_eq!(cells_of_json(&told), cells(rack.done("chart volume").text()));
            let told = rack.told("chart volume --rows 7-9");
            assert_eq!(cells_of_json(&told), cells(rack.done("chart volume --rows 7-9").text()));
        });
    }
}

/// 391 rows of 16 disks fill the program's page; the row after them begins a second part.
#[test]
fn a_chart_that_fills_the_page_and_one_row_more() {
    let rack = Rack::new(Form::Image, 391, 16);
    as_the_program(&rack);
    assert_eq!(rack.done("chart volume").out.len(), PAGE / 167 * 167);
    let rack = Rack::new(Form::Image, 392, 16);
    assert_eq!(printed_by_the_program(&rack), b"16\n");
    let told = rack.done("chart volume");
    let parts: Vec<&str> = told.text().split("\n\n").collect();
    assert_eq!((parts.len(), parts[0].lines().count(), parts[1].lines().count()), (2, 392, 2));
}

/// A part is a chart of its own: a heading, at most a page, and what the rows alone are told as.
fn is_a_part(rack: &Rack, part: &str, first: u64) -> u64 {
    assert!(part.len() <= PAGE);
    let heading: String = (0..16).map(|disk| format!("{disk:>10}")).collect();
    let mut lines = part.lines();
    assert_eq!(lines.next(), Some(format!("   row{heading}").as_str()));
    let rows: Vec<&str> = lines.collect();
    let last = first + rows.len() as u64 - 1;
    let numbers: Vec<String> = (first..=last).map(|row| format!("{row:>6}")).collect();
    assert!(rows.iter().map(|row| &row[..6]).eq(&numbers), "rows {first} to {last} are told in their order");
    assert_eq!(rack.done(&format!("chart volume --rows {first}-{last}")).text(), part);
    last + 1
}

#[test]
fn a_longer_chart_in_parts() {
    for form in FORMS {
        let rack = Rack::new(form, 1000, 8);
        rack.done("grow volume 16");
        rack.done("advance volume --calls 700");
        let told = rack.done("chart volume");
        let text = told.text().replace("\n\n", "\n\0");
        let end = text.split('\0').fold(0, |first, part| is_a_part(&rack, part, first));
        assert_eq!((end, text.split('\0').count()), (1000, 3));
        assert_eq!(cells_of_json(&rack.told("chart volume")), cells(told.text()));
    }
}
