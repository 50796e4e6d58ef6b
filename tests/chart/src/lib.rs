//! What the program `chart` must print, from the reference's restart and
//! holder, and the program itself, run on an input.
//!
//! The program is target/bin/chart, or the file that the variable
//! STRETERVA_CHART names.

use reference::limits::RECORD;
use reference::lookup::holder;
use reference::record;
use reference::refusal::NOBODY_THERE;
use reference::spot::Row;
use reference::state::State;
use std::io::{ErrorKind, Write};
use std::path::PathBuf;
use std::process::{Command, Stdio};

/// Bytes of the program's page.
pub const PAGE: usize = 65_536;

/// What the program must print for an input.
pub fn expected(input: &[u8]) -> String {
    let Some(sector) = input.first_chunk::<RECORD>() else {
        return "2\n".to_string();
    };
    let Some(state) = record::parse(sector) else {
        return "13\n".to_string();
    };
    if length(state.disks(), state.s) > PAGE {
        return "16\n".to_string();
    }
    chart(&state)
}

/// The bytes of a chart.
pub fn length(disks: u64, rows: u64) -> usize {
    let line = 6 + 10 * disks as usize + 1;
    (1 + rows as usize) * line
}

/// The chart of a sound state.
pub fn chart(state: &State) -> String {
    let mut text = "   row".to_string();
    for disk in 0..state.disks() {
        text += &format!("{disk:>10}");
    }
    text += "\n";
    for row in 0..state.s {
        text += &format!("{row:>6}");
        for disk in 0..state.disks() {
            text += &cell(state, disk, row);
        }
        text += "\n";
    }
    text
}

fn cell(state: &State, disk: u64, row: u64) -> String {
    match holder(state, disk, Row(row)) {
        Ok(block) => format!("{:>10}", block.0),
        Err(NOBODY_THERE) => format!("{:>10}", "-"),
        Err(other) => panic!("holder of ({disk}, {row}) refuses with {other}"),
    }
}

/// What the program prints for an input.
pub fn printed(input: &[u8]) -> String {
    let mut program = Command::new(program())
        .stdin(Stdio::piped())
        .stdout(Stdio::piped())
        .spawn()
        .expect("the program starts");
    let mut pipe = program.stdin.take().expect("standard input");
    // What follows the first 512 bytes may be left unread.
    if let Err(error) = pipe.write_all(input) {
        assert_eq!(error.kind(), ErrorKind::BrokenPipe);
    }
    drop(pipe);
    let output = program.wait_with_output().expect("the program ends");
    assert!(output.status.success());
    String::from_utf8(output.stdout).expect("text")
}

fn program() -> PathBuf {
    match std::env::var_os("STRETERVA_CHART") {
        Some(path) => path.into(),
        None => PathBuf::from(env!("CARGO_MANIFEST_DIR")).join("../../target/bin/chart"),
    }
}

/// Runs the program on an input and compares; gives what it printed.
pub fn compared(input: &[u8]) -> String {
    let text = printed(input);
    assert_eq!(
        text,
        expected(input),
        "input {:?}",
        String::from_utf8_lossy(input)
    );
    text
}
