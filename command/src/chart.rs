//! `chart`: document 02's wall chart, in parts where it is longer than a page of the program `chart`.

use serde::Serialize;
use streterva::{Refusal, Row, State};
use streterva_store::{Error, Look};

use crate::args;
use crate::interrupt;
use crate::tell::print;

/// Bytes of a part; the program `chart` has one page of as many.
const PAGE_BYTES: u64 = 65_536;

#[derive(Serialize)]
struct Line {
    row: u64,
    blocks: Vec<Option<u64>>,
}

pub fn run(arguments: &args::Chart, json: bool) -> anyhow::Result<()> {
    let look = Look::at(&arguments.volume)?;
    let state = &look.state;
    let (first, last) = arguments.rows.unwrap_or((0, state.rows() - 1));
    if last >= state.rows() {
        let detail = format!("there are rows 0 to {}", state.rows() - 1);
        return Err(Error::Refused { refusal: Refusal::NoSuchSpot, detail }.into());
    }
    if json {
        print(format!("{{\"disks\":{},\"rows\":[", state.disks()).as_bytes())?;
    }
    let rows = rows_of_a_part(state);
    for start in (first..=last).step_by(rows as usize) {
        interrupt::go_on()?;
        let end = (start + rows - 1).min(last);
        let text = match json {
            false => part(state, start, end, start > first),
            true => json_part(state, start, end, start > first)?,
        };
        print(text.as_bytes())?;
    }
    if json {
        print(b"]}\n")?;
    }
    Ok(())
}

/// As many rows as a page has room for below the heading.
fn rows_of_a_part(state: &State) -> u64 {
    let line = 6 + 10 * state.disks() + 1;
    PAGE_BYTES / line - 1
}

/// A heading and these rows; an empty line parts it from one before it.
fn part(state: &State, first: u64, last: u64, after_another: bool) -> String {
    let mut text = if after_another { "\n".to_string() } else { String::new() };
    text += "   row";
    (0..state.disks()).for_each(|disk| text += &format!("{disk:>10}"));
    text.push('\n');
    for row in first..=last {
        text += &format!("{row:>6}");
        blocks(state, row).iter().for_each(|block| text += &cell(*block));
        text.push('\n');
    }
    text
}

fn cell(block: Option<u64>) -> String {
    match block {
        Some(block) => format!("{block:>10}"),
        None => format!("{:>10}", "-"),
    }
}

/// The blocks in a row, disk by disk, `None` where no open block lives.
pub fn blocks(state: &State, row: u64) -> Vec<Option<u64>> {
    let holder = |disk| match state.holder(disk, Row(row)) {
        Ok(block) => Some(block.0),
        Err(_) => None,
    };
    (0..state.disks()).map(holder).collect()
}

/// These rows as the elements of a list; a comma parts them from those before.
fn json_part(state: &State, first: u64, last: u64, after_another: bool) -> anyhow::Result<String> {
    let mut text = String::new();
    for row in first..=last {
        if after_another || row > first {
            text.push(',');
        }
        text += &serde_json::to_string(&Line { row, blocks: blocks(state, row) })?;
    }
    Ok(text)
}
