use std::io::{BufRead, BufReader};
use std::process::ChildStdout;

use serde_json::{json, Value};

use crate::common::{Form, Rack, FORMS, RECORD};

const AT_REST: &str = "\
volume: an image file of 41,472 bytes with room for 16 disks
  3 disks of 5 rows in blocks of 512 bytes, history of disk counts: 3
  blocks 0 to 14 are open, 7,680 bytes
  no growth is under way
  disk  0 ████████████████████████████████████████ 5 blocks
  disk  1 ████████████████████████████████████████ 5 blocks
  disk  2 ████████████████████████████████████████ 5 blocks
";

const GROWING: &str = "\
volume: an image file of 41,472 bytes with room for 16 disks
  5 disks of 5 rows in blocks of 512 bytes, history of disk counts: 3, 5
  blocks 0 to 14 are open, 7,680 bytes
  growth 1 from 3 to 5 disks: █████▋               28.5 %, 5 of 7 advance calls left, 0 of 1 windows finished
  disk  0 ████████████████████████                 3 blocks
  disk  1 ████████████████████████████████████████ 5 blocks
  disk  2 ████████████████████████████████████████ 5 blocks
  disk  3 ████████████████                         2 blocks
  disk  4                                          0 blocks
";

#[test]
fn in_words() {
    let rack = Rack::of_the_picture();
    assert_eq!(rack.unchanged(|| rack.done("status volume")).text(), AT_REST);
    rack.done("grow volume 5");
    rack.done("advance volume --calls 2");
    assert_eq!(rack.unchanged(|| rack.done("status volume")).text(), GROWING);
}

#[test]
fn of_a_folder_in_words() {
    let rack = Rack::new(Form::Folder, 8, 1);
    let told = rack.done("status volume");
    assert!(told.text().starts_with("volume: a folder with 1 disk file\n  1 disk of 8 rows in blocks of 512 bytes"));
    rack.grow_and_run(2);
    assert!(rack.done("status volume").text().starts_with("volume: a folder with 2 disk files\n"));
}

/// What the forms have different in the status of a volume of 8 rows.
fn of_the_form(form: Form, disks: u64) -> (&'static str, u64) {
    match form {
        Form::Image => ("image", RECORD as u64 + 16 * 8 * 512),
        Form::Folder => ("folder", disks * 8 * 512),
    }
}

fn expected(form: Form, disks: u64, others: Value) -> Value {
    let (form, bytes) = of_the_form(form, disks);
    let mut expected = json!({
        "volume": "volume", "form": form, "bytes": bytes, "room": 16, "block_bytes": 512, "rows": 8, "disks": disks
    });
    let fields = expected.as_object_mut().expect("an object");
    fields.extend(others.as_object().expect("an object").clone());
    expected
}

#[test]
fn every_field() {
    for form in FORMS {
        let rack = Rack::new(form, 8, 3);
        let rest = json!({
            "counts": [3], "open_blocks": 24, "open_bytes": 12288, "growth": null, "blocks_on_disk": [8, 8, 8]
        });
        assert_eq!(rack.told("status volume"), expected(form, 3, rest));
        rack.done("grow volume 5");
        rack.done("advance volume --calls 8");
        let growing = json!({
            "counts": [3, 5], "open_blocks": 24, "open_bytes": 12288, "blocks_on_disk": [5, 6, 6, 4, 3],
            "growth": {
                "number": 1, "from": 3, "to": 5, "window": 1, "windows": 2, "calls_left": 5, "calls": 13,
                "per_cent": 61.5
            }
        });
        assert_eq!(rack.told("status volume"), expected(form, 5, growing));
        rack.done("run volume");
        let finished = json!({
            "counts": [3, 5], "open_blocks": 40, "open_bytes": 20480, "growth": null, "blocks_on_disk": [8, 8, 8, 8, 8]
        });
        assert_eq!(rack.told("status volume"), expected(form, 5, finished));
    }
}

fn next_line(lines: &mut BufReader<ChildStdout>) -> String {
    let mut line = String::new();
    lines.read_line(&mut line).expect("the pipe can be read");
    line
}

/// Lines that are told at most before a growth that has begun is told.
const MOST_LINES: usize = 200;

/// A growth that another call begins is told soon, and Ctrl-C is a good end.
#[test]
fn watched_until_an_interrupt() {
    for form in FORMS {
        let rack = Rack::new(form, 8, 3);
        let mut watch = rack.start("status volume --watch --interval 0.05 --json", b"");
        let mut lines = BufReader::new(watch.child().stdout.take().expect("it is a pipe"));
        let first: Vec<String> = (0..3).map(|_| next_line(&mut lines)).collect();
        assert_eq!(first, vec![first[0].clone(); 3]);
        rack.done("grow volume 4");
        let told = (0..MOST_LINES).map(|_| next_line(&mut lines)).find(|line| *line != first[0]);
        let told: Value = serde_json::from_str(&told.expect("the growth is told")).expect("each line is an object");
        assert_eq!((&told["disks"], &told["growth"]["calls_left"]), (&json!(4), &json!(8)));
        watch.interrupt();
        watch.ended().done();
    }
}

#[test]
fn watched_in_words() {
    let rack = Rack::of_the_picture();
    let mut watch = rack.start("status volume --watch --interval 0.05", b"");
    let mut lines = BufReader::new(watch.child().stdout.take().expect("it is a pipe"));
    let said: String = (0..3 * AT_REST.lines().count()).map(|_| next_line(&mut lines)).collect();
    assert_eq!(said, AT_REST.repeat(3));
    watch.interrupt();
    watch.ended().done();
}
