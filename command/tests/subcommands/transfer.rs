//! `import` and `export`.

use std::fs;

use serde_json::json;

use crate::common::{pieces, without_rate, without_seconds, Rack, FORMS, SIZE};

#[test]
fn a_whole_file_in_and_out() {
    for form in FORMS {
        let rack = Rack::new(form, 8, 3);
        rack.put("show", pieces(&(0..24), 1));
        let told = without_seconds(rack.told("import volume show"));
        let expected = json!({
            "done": "saved", "volume": "volume", "file": "show", "first": 0, "blocks": 24, "bytes": 12288,
            "complete": true
        });
        assert_eq!(told, expected);
        let told = without_seconds(rack.told("export volume copy"));
        let expected = json!({
            "done": "wrote", "volume": "volume", "file": "copy", "first": 0, "blocks": 24, "bytes": 12288,
            "complete": true
        });
        assert_eq!(told, expected);
        assert!(rack.get("copy") == rack.get("show"));
    }
}

#[test]
fn in_words() {
    let rack = Rack::of_the_picture();
    rack.put("show", vec![7; 1025]);
    let told = rack.done("import volume show --first 12");
    let expected = "saved 3 blocks from block 12 on, 1,025 bytes in .. s, .. bytes a second\n";
    assert_eq!(without_rate(told.text()), expected);
    let told = rack.done("export volume copy --first 14 --blocks 1");
    let expected = "wrote 1 block from block 14 on, 512 bytes in .. s, .. bytes a second\n";
    assert_eq!(without_rate(told.text()), expected);
}

/// A file that is no multiple of the block size: zeros behind it, and the next block stays.
#[test]
fn a_last_block_is_filled_up() {
    for form in FORMS {
        let rack = Rack::new(form, 8, 3);
        rack.save(0..24, 1);
        rack.put("show", vec![7; 700]);
        let told = without_seconds(rack.told("import volume show --first 3"));
        assert_eq!((&told["blocks"], &told["bytes"], &told["first"]), (&json!(2), &json!(700), &json!(3)));
        let expected = [pieces(&(0..3), 1), vec![7; 700], vec![0; 324], pieces(&(5..24), 1)].concat();
        assert!(rack.exported() == expected);
    }
}

#[test]
fn a_part_of_the_blocks() {
    for form in FORMS {
        let rack = Rack::new(form, 8, 3);
        rack.save(0..24, 1);
        let export = |words: &str| rack.unchanged(|| rack.done(&format!("export volume - {words}"))).out;
        assert!(export("--first 5 --blocks 7") == pieces(&(5..12), 1));
        assert!(export("--first 20") == pieces(&(20..24), 1));
        assert!(export("--blocks 2") == pieces(&(0..2), 1));
        assert_eq!(export("--blocks 0"), b"");
        rack.put("show", pieces(&(22..24), 2));
        rack.done("import volume show --first 22");
        assert!(rack.exported() == [pieces(&(0..22), 1), pieces(&(22..24), 2)].concat());
    }
}

/// An empty file is no block.
#[test]
fn an_empty_file() {
    for form in FORMS {
        let rack = Rack::new(form, 8, 3);
        rack.save(0..24, 1);
        rack.put("show", "");
        let told = rack.unchanged(|| without_seconds(rack.told("import volume show")));
        assert_eq!((&told["blocks"], &told["bytes"], &told["complete"]), (&json!(0), &json!(0), &json!(true)));
        rack.done("export volume copy --blocks 0");
        assert_eq!(rack.get("copy"), b"");
    }
}

/// An export takes the place of a file only by force, and leaves no other file behind.
#[test]
fn a_file_is_overwritten_by_force() {
    let rack = Rack::of_the_picture();
    rack.put("copy", "notes");
    rack.unchanged(|| rack.call("export volume copy").with_status(1));
    rack.done("export volume copy --force");
    assert_eq!(rack.get("copy"), [0; 15 * SIZE as usize]);
    let names = fs::read_dir(rack.path("")).expect("the folder can be read").count();
    assert_eq!(names, 2);
}

/// During a growth the blocks that it found are saved and read.
#[test]
fn during_a_growth() {
    for form in FORMS {
        let rack = Rack::new(form, 8, 3);
        let mut version = 0;
        rack.grow_in_stages(6, 5, |rack| {
            version += 1;
            rack.save(0..24, version);
            rack.has(0..24, version);
        });
        rack.has(0..24, version);
        rack.save(24..48, 1);
        rack.has(24..48, 1);
    }
}

/// More than is read at a time: 10 MiB in blocks of 64K.
#[test]
fn a_large_file() {
    let rack = Rack::empty(crate::common::Form::Folder);
    rack.done("create volume --folder --size 64K --rows 64 --disks 3");
    let show: Vec<u8> = (0..10 * 1024 * 1024u32 / 4).flat_map(u32::to_le_bytes).collect();
    rack.put("show", &show);
    assert_eq!(rack.told("import volume show --first 32")["blocks"], 160);
    rack.done("export volume copy --first 32");
    assert!(rack.get("copy") == show);
}
