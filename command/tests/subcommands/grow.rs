use std::collections::BTreeMap;
use std::time::Instant;

use serde_json::{json, Value};

use crate::common::{number, numbers, without_rate, without_seconds, Form, Rack, FORMS, SIZE};

const FORECAST: &str = "\
volume from 3 to 5 disks would move 6 blocks, 3,072 bytes, in 7 advance calls and 1 window
  disk      stay     leave    arrive     added
     0         3         2         0         2  ████████████        \n\
\x20    1         3         2         0         2  ████████████        \n\
\x20    2         3         2         0         2  ████████████        \n\
\x20    3         0         0         3         2  ████████████        \n\
\x20    4         0         0         3         2  ████████████        \n\
\x20 an estimate: 1 second, at 104,857,600 bytes a second and 1 ms for each of 3 flushes
";

#[test]
fn a_dry_run_in_words() {
    let rack = Rack::of_the_picture();
    let told = rack.unchanged(|| rack.done("grow volume 5 --dry-run"));
    assert_eq!(told.text(), FORECAST);
}

#[test]
fn a_dry_run_tells_that_there_is_no_room() {
    let rack = Rack::empty(Form::Image);
    rack.done("create volume --size 512 --rows 8 --disks 3 --room 4");
    assert_eq!(rack.told("grow volume 5 --dry-run")["room"], 4);
    let sentence = "  the file has room for 4 disks: grow needs --lengthen\n";
    assert!(rack.done("grow volume 5 --dry-run").text().contains(sentence));
    assert!(!rack.done("grow volume 4 --dry-run").text().contains("--lengthen"));
}

#[test]
fn a_dry_run_estimates_by_its_rate() {
    let rack = Rack::new(Form::Image, 1000, 3);
    let told = rack.told("grow volume 5 --dry-run --rate 1K");
    assert_eq!((&told["dry_run"], &told["rate"], &told["bytes"]), (&json!(true), &json!(1024), &json!(1200 * SIZE)));
    assert_eq!((&told["flushes"], &told["estimated_seconds"]), (&json!(401), &json!(600.0 + 0.401)));
    let told = rack.done("grow volume 5 --dry-run --rate 1K");
    assert!(told.text().contains("an estimate: 10 minutes, at 1,024 bytes a second"), "{}", told.text());
}

/// The disk of each open block.
fn disks_of_blocks(rack: &Rack) -> BTreeMap<u64, usize> {
    let chart = rack.told("chart volume");
    let rows = chart["rows"].as_array().expect("a list of rows");
    let cells = rows.iter().flat_map(|row| row["blocks"].as_array().expect("a list of blocks").iter().enumerate());
    cells.filter_map(|(disk, block)| Some((block.as_u64()?, disk))).collect()
}

/// For each disk the blocks that stay, leave, arrive and are added.
fn moves(before: &BTreeMap<u64, usize>, after: &BTreeMap<u64, usize>, disks: usize) -> [Vec<u64>; 4] {
    let mut counts = [0; 4].map(|_: u64| vec![0; disks]);
    for (block, disk) in after {
        match before.get(block) {
            None => counts[3][*disk] += 1,
            Some(old) if old == disk => counts[0][*disk] += 1,
            Some(old) => {
                counts[1][*old] += 1;
                counts[2][*disk] += 1;
            }
        }
    }
    counts
}

/// Makes a dry run, which changes nothing, then the growth, and compares.
fn forecast_and_grow(rack: &Rack, rows: u64, count: u64) {
    let before = disks_of_blocks(rack);
    let from = number(&rack.told("status volume")["disks"]);
    let forecast = rack.unchanged(|| rack.told(&format!("grow volume {count} --dry-run")));
    let begun = rack.told(&format!("grow volume {count}"));
    let (calls, blocks, bytes) = (&forecast["calls"], &forecast["blocks"], &forecast["bytes"]);
    let expected = json!({
        "volume": "volume", "from": from, "to": count, "blocks": blocks, "bytes": bytes, "calls_left": calls
    });
    assert_eq!(begun, expected);
    let ran = without_seconds(rack.told("run volume"));
    let expected = json!({
        "volume": "volume", "calls": calls, "copied_blocks": blocks, "copied_bytes": bytes, "calls_left": 0,
        "finished": true, "interrupted": false
    });
    assert_eq!(ran, expected);
    let [stays, leaves, arrives, added] = moves(&before, &disks_of_blocks(rack), count as usize);
    assert_eq!(numbers(&forecast["moves"]["leaves"]).iter().sum::<u64>(), number(blocks));
    assert_eq!(number(bytes), number(blocks) * SIZE);
    let windows = rows.div_ceil(count);
    assert_eq!(
        forecast["moves"],
        json!({
            "from": from, "to": count, "windows": windows, "stays": stays, "leaves": leaves, "arrives": arrives,
            "added": added
        })
    );
}

/// Through seven growths, after each of which all that was saved before is read.
fn seven_growths(form: Form) {
    let (rows, rack) = (16, Rack::new(form, 16, 1));
    let counts = [1, 2, 3, 5, 6, 11, 12, 16];
    for (disks, count) in counts.into_iter().zip(counts.into_iter().skip(1)) {
        rack.save(0..rows * disks, count);
        forecast_and_grow(&rack, rows, count);
        rack.has(0..rows * disks, count);
    }
}

#[test]
fn a_dry_run_tells_what_the_growth_does() {
    FORMS.into_iter().for_each(seven_growths);
}

#[test]
fn a_growth_in_words() {
    for form in FORMS {
        let rack = Rack::new(form, 8, 3);
        let told = rack.done("grow volume 5");
        let begun = "has begun: 11 blocks to copy, 5,632 bytes, 13 advance calls left";
        assert_eq!(told.text(), format!("volume: a growth from 3 to 5 disks {begun}\n"));
        let told = rack.done("advance volume");
        let expected = "volume: copied 1 block in .. s, .. bytes a second; 12 advance calls left\n";
        assert_eq!(without_rate(told.text()), expected);
        let told = rack.done("run volume");
        let expected = "volume: copied 10 blocks in .. s, .. bytes a second; the growth is finished\n";
        assert_eq!(without_rate(told.text()), expected);
    }
}

#[test]
fn a_growth_makes_the_files_of_a_folder() {
    let rack = Rack::new(Form::Folder, 8, 3);
    rack.done("grow volume 5");
    let lengths: Vec<usize> = (0..5).map(|disk| rack.get(&rack.disk(disk, 8).0).len()).collect();
    assert_eq!(lengths, [4096; 5]);
}

#[test]
fn a_growth_lengthens_an_image() {
    let rack = Rack::empty(Form::Image);
    rack.done("create volume --size 512 --rows 8 --disks 3 --room 3");
    rack.save(0..24, 1);
    rack.done("grow volume 5 --lengthen");
    assert_eq!(rack.get("volume").len(), 512 + 5 * 8 * 512);
    rack.done("run volume");
    rack.has(0..24, 1);
}

#[test]
fn a_growth_beyond_doubling() {
    for form in FORMS {
        let rack = Rack::new(form, 8, 2);
        rack.save(0..16, 1);
        let forecast = rack.told("grow volume 9 --beyond-doubling --dry-run");
        assert_eq!(rack.told("grow volume 9 --beyond-doubling")["calls_left"], forecast["calls"]);
        rack.done("run volume");
        rack.has(0..16, 1);
        assert_eq!(rack.told("status volume")["counts"], json!([2, 9]));
    }
}

/// The calls of a growth in their order, as docs/VOLUME.md has them: true where a block is copied, false where the
/// copies of a window are recorded.
fn calls_of_growth(from: u64, to: u64, rows: u64) -> Vec<bool> {
    let of_window = |window: u64| {
        let moving = (0..from).flat_map(|disk| disk..disk + to - from);
        let copies = moving.filter(move |row| window * to + row < rows).map(|_| true);
        copies.chain([false])
    };
    (0..rows.div_ceil(to)).flat_map(of_window).collect()
}

/// Where so many calls lead. No record has all copies of a window and the window not finished, so the call that
/// finishes it comes with the last copy.
fn position_after(calls: &[bool], position: usize, made: usize) -> usize {
    let next = position + made;
    match calls.get(next) {
        None => calls.len(),
        Some(true) => next,
        Some(false) => next + 1,
    }
}

/// A growth of many processes, each of which makes so many calls.
fn advance_to_the_end(rack: &Rack, calls: &[bool], at_a_time: usize) {
    let mut position = 0;
    while position < calls.len() {
        let next = position_after(calls, position, at_a_time);
        let told = without_seconds(rack.told(&format!("advance volume --calls {at_a_time}")));
        let copied = calls[position..next].iter().filter(|copies| **copies).count() as u64;
        let finished = next == calls.len();
        let expected = json!({
            "volume": "volume", "calls": next - position, "copied_blocks": copied, "copied_bytes": copied * SIZE,
            "calls_left": calls.len() - next, "finished": finished, "interrupted": false
        });
        assert_eq!(told, expected);
        let growth = rack.told("status volume")["growth"].clone();
        let left = if finished { Value::Null } else { json!(calls.len() - next) };
        assert_eq!(growth["calls_left"], left);
        position = next;
    }
}

/// Growths whose processes make 1, 4, 7 and 1000 calls each.
fn growths_of_many_processes(form: Form) {
    let (rows, rack) = (16, Rack::new(form, 16, 2));
    rack.save(0..32, 1);
    for (from, to, at_a_time) in [(2, 3, 1), (3, 5, 4), (5, 7, 7), (7, 9, 1000)] {
        rack.done(&format!("grow volume {to}"));
        advance_to_the_end(&rack, &calls_of_growth(from, to, rows), at_a_time);
        rack.has(0..32, 1);
    }
    assert_eq!(rack.told("status volume")["counts"], json!([2, 3, 5, 7, 9]));
}

#[test]
fn advance_makes_as_many_calls_as_it_is_told() {
    FORMS.into_iter().for_each(growths_of_many_processes);
}

/// A call that takes this long at least, and not much longer: flushes may take some time too.
fn takes(seconds: f64, call: impl FnOnce() -> Value) {
    let start = Instant::now();
    let told = call()["seconds"].as_f64().expect("a number of seconds");
    let took = start.elapsed().as_secs_f64();
    assert!(told >= seconds && told <= took, "{told} s are told, and {took} s were taken");
    assert!(told < seconds * 1.5 + 0.5, "{told} s are told, and {seconds} s are enough");
}

/// A growth of 48 blocks of 512 bytes, the first half of them by advance.
#[test]
fn a_rate_is_kept() {
    for form in FORMS {
        let rack = Rack::new(form, 40, 3);
        assert_eq!(rack.told("grow volume 5")["calls_left"], 48 + 8);
        takes(0.5, || rack.told("advance volume --calls 28 --rate 24K"));
        takes(1.0, || rack.told("run volume --rate 12K"));
        assert_eq!(rack.told("status volume")["growth"], Value::Null);
    }
}
