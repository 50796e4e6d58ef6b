//! `write`, `read`, `where`, `holder` and `load`.

use std::collections::BTreeSet;

use serde_json::{json, Value};

use crate::common::{number, numbers, piece, Form, Rack, Refused, FORMS, SIZE};

#[test]
fn a_block_is_written_and_read() {
    for form in FORMS {
        let rack = Rack::new(form, 8, 3);
        let told = rack.fed("write volume 23", &piece(SIZE, 23, 1)).done();
        assert_eq!(told.text(), "saved block 23, 512 bytes\n");
        let told = rack.fed("write volume 0 --json", &piece(SIZE, 0, 1)).done();
        assert_eq!(told.json(), json!({"volume": "volume", "block": 0, "bytes": 512}));
        assert_eq!(rack.unchanged(|| rack.done("read volume 23")).out, piece(SIZE, 23, 1));
        assert_eq!(rack.done("read volume 0").out, piece(SIZE, 0, 1));
        assert_eq!(rack.done("read volume 1").out, [0; SIZE as usize]);
    }
}

#[test]
fn a_large_block_is_written_and_read() {
    let rack = Rack::empty(Form::Image);
    rack.done("create volume --size 64K --rows 1 --disks 2");
    let saved = piece(65_536, 1, 1);
    assert_eq!(rack.fed("write volume 1", &saved).done().text(), "saved block 1, 65,536 bytes\n");
    assert_eq!(rack.done("read volume 1").out, saved);
}

/// In every stage of a growth every block can be written, and is read.
#[test]
fn blocks_are_written_and_read_during_a_growth() {
    for form in FORMS {
        let rack = Rack::new(form, 8, 3);
        rack.save(0..24, 1);
        let mut version = 1;
        rack.grow_in_stages(5, 1, |rack| {
            let (block, other) = (version * 7 % 24, version * 5 % 24);
            version += 1;
            rack.fed(&format!("write volume {block}"), &piece(SIZE, block, version)).done();
            assert_eq!(rack.done(&format!("read volume {block}")).out, piece(SIZE, block, version));
            rack.done(&format!("read volume {other}"));
            rack.save(0..24, version);
            rack.has(0..24, version);
        });
        rack.save(0..40, 100);
        rack.has(0..40, 100);
    }
}

/// What `where` tells of a block.
fn found(rack: &Rack, block: u64) -> Value {
    rack.told(&format!("where volume {block}"))
}

/// Where a block is told to be, it is: `holder` tells it, and its bytes are there in the file.
fn found_where_it_is(rack: &Rack, block: u64, rows: u64) -> (u64, u64) {
    let told = found(rack, block);
    let (disk, row) = (number(&told["disk"]), number(&told["row"]));
    let held = rack.told(&format!("holder volume {disk} {row}"));
    assert_eq!(held, json!({"disk": disk, "row": row, "block": block}));
    let (file, from) = rack.disk(disk, rows);
    assert_eq!((&told["file"], number(&told["byte"])), (&json!(file), from + row * SIZE));
    let from = (from + row * SIZE) as usize;
    assert_eq!(rack.get(&file)[from..from + SIZE as usize], piece(SIZE, block, 1), "block {block}");
    (disk, row)
}

/// `where` and `holder` are each other's inverse: no two blocks are at one spot, and the other spots have none.
fn inverse(rack: &Rack, rows: u64, saved: u64) {
    let disks = number(&rack.told("status volume")["disks"]);
    let spots: BTreeSet<(u64, u64)> = (0..saved).map(|block| found_where_it_is(rack, block, rows)).collect();
    assert_eq!(spots.len() as u64, saved);
    let all = (0..disks).flat_map(|disk| (0..rows).map(move |row| (disk, row)));
    let growing = !rack.told("status volume")["growth"].is_null();
    for (disk, row) in all.filter(|spot| !spots.contains(spot)) {
        let told = rack.call(&format!("holder volume {disk} {row} --json"));
        match growing {
            true => assert_eq!(told.error_as_json()["refusal"], 15),
            false => assert!(number(&told.done().json()["block"]) >= saved),
        }
    }
}

#[test]
fn where_and_holder_are_inverse_in_every_stage() {
    for form in FORMS {
        let (rows, rack) = (8, Rack::new(form, 8, 1));
        rack.save(0..8, 1);
        inverse(&rack, rows, 8);
        rack.grow_in_stages(2, 3, |rack| inverse(rack, rows, 8));
        rack.save(8..16, 1);
        rack.grow_in_stages(3, 4, |rack| inverse(rack, rows, 16));
    }
}

#[test]
fn where_a_block_is_and_why() {
    let rack = Rack::of_the_picture();
    let told = rack.unchanged(|| rack.done("where volume 4"));
    let expected = "block 4 is on disk 1 in row 1, at byte 3,584 of volume: set out at format, never moved\n";
    assert_eq!(told.text(), expected);
    rack.grow_and_run(5);
    let told = rack.done("where volume 4");
    let expected = "block 4 is on disk 4 in row 1, at byte 11,264 of volume: moved by growth 1 as head, moved once\n";
    assert_eq!(told.text(), expected);
    let expected = json!({
        "block": 24, "disk": 4, "row": 4, "file": "volume", "byte": 12800, "why": "added", "growth": 1, "part": null, "moves": 0
    });
    assert_eq!(found(&rack, 24), expected);
    assert!(rack.done("where volume 24").text().ends_with("of volume: added by growth 1, never moved\n"));
}

/// From 5 disks to 7 rows 0 and 1 of a window are its head, 2 and 3 its body, 4 to 6 its tail.
#[test]
fn the_part_of_a_moved_block() {
    let rack = Rack::new(Form::Image, 7, 5);
    rack.grow_and_run(7);
    let parts = [0, 6, 11, 18, 23, 29].map(|block| found(&rack, block)["part"].clone());
    assert_eq!(parts, ["head", "head", "body", "body", "tail", "tail"]);
    assert!(rack.done("where volume 11").text().ends_with("moved by growth 1 as body, moved once\n"));
    let stays = found(&rack, 1);
    assert_eq!((&stays["why"], &stays["part"]), (&json!("set out at format"), &Value::Null));
}

/// The example of docs/VOLUME.md.
#[test]
fn how_often_a_block_was_moved() {
    let rack = Rack::new(Form::Image, 16, 3);
    rack.grow_and_run(5);
    assert_eq!((&found(&rack, 45)["disk"], &found(&rack, 45)["moves"]), (&json!(3), &json!(1)));
    rack.grow_and_run(6);
    let told = found(&rack, 45);
    assert_eq!((&told["disk"], &told["row"], &told["moves"]), (&json!(5), &json!(15), &json!(2)));
    assert!(rack.done("where volume 45").text().ends_with(", moved 2 times\n"));
}

#[test]
fn the_holder_in_words() {
    let rack = Rack::new(Form::Folder, 1000, 3);
    let told = rack.unchanged(|| rack.done("holder volume 2 999"));
    assert_eq!(told.text(), "disk 2, row 999 has block 2,999\n");
}

const SCENES: &str = "# the show\n0 5 opening\n\n5 10 the long one # with a remark\n14 1\n";

const LOAD: &str = "\
3 scenes name 16 blocks
  disk  0 ████████████████████                     3 blocks
  disk  1 ██████████████████████████▋              4 blocks
  disk  2 ████████████████████████████████████████ 6 blocks
  disk  3 █████████████▎                           2 blocks
  disk  4 ██████▋                                  1 block
";

/// In the picture's growth after three copies: blocks 0 and 3 are on disk 3 then, and 4 on disk 4.
#[test]
fn the_load_of_a_scene_list() {
    let rack = Rack::of_the_picture();
    rack.done("grow volume 5");
    rack.done("advance volume --calls 3");
    rack.put("scenes", SCENES);
    assert_eq!(rack.unchanged(|| rack.done("load volume scenes")).text(), LOAD);
    assert_eq!(rack.fed("load volume -", SCENES.as_bytes()).done().text(), LOAD);
    let expected = json!({"scenes": 3, "blocks": 16, "served": [3, 4, 6, 2, 1]});
    assert_eq!(rack.told("load volume scenes"), expected);
    assert_eq!(rack.fed("load volume - --json", SCENES.as_bytes()).done().json(), expected);
}

/// The blocks below `end` on each disk, as the wall chart shows them.
fn on_disks(rack: &Rack, disks: usize, end: u64) -> Vec<u64> {
    let chart = rack.told("chart volume");
    let rows = chart["rows"].as_array().expect("a list of rows");
    let is_counted = |cell: &Value| cell.as_u64().is_some_and(|block| block < end);
    let count = |disk: usize| rows.iter().filter(|row| is_counted(&row["blocks"][disk])).count() as u64;
    (0..disks).map(count).collect()
}

#[test]
fn the_load_is_what_the_wall_chart_shows() {
    for form in FORMS {
        let rack = Rack::new(form, 8, 3);
        rack.grow_in_stages(5, 5, |rack| {
            let told = rack.fed("load volume - --json", b"0 15\n15 5\n").done().json();
            assert_eq!(numbers(&told["served"]), on_disks(rack, 5, 20));
        });
    }
}

/// A line that is no scene is told with its number.
#[test]
fn a_wrong_scene_list() {
    let rack = Rack::of_the_picture();
    rack.put("scenes", "0 5\n\n7 y\n");
    let sentence = "scenes, line 3: a first block and a count are expected, and there is '7 y'";
    rack.refused("load volume scenes", Refused(3, None, sentence));
    let sentence = "-, line 1: a first block and a count are expected, and there is '7'";
    rack.refused_when_fed("load volume -", b"7\n", Refused(3, None, sentence));
}
