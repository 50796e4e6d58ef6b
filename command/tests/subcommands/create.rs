use std::fs;

use serde_json::json;

use crate::common::{Form, Rack, FORMS, RECORD, SIZE};

#[test]
fn an_image_has_a_record_and_room() {
    let rack = Rack::empty(Form::Image);
    let told = rack.done("create volume --size 1K --rows 5 --disks 3");
    assert_eq!(told.text(), "made volume: 3 disks of 5 rows, 15 blocks of 1,024 bytes; room for 6 disks\n");
    assert_eq!(rack.get("volume").len(), RECORD + 6 * 5 * 1024);
    let told = rack.done("create one --size 512 --rows 1 --disks 1 --room 1");
    assert_eq!(told.text(), "made one: 1 disk of 1 row, 1 block of 512 bytes; room for 1 disk\n");
    assert_eq!(rack.get("one").len(), RECORD + 512);
}

#[test]
fn an_image_has_room_for_16_disks_at_most() {
    let rack = Rack::empty(Form::Image);
    let told = rack.told("create volume --size 512 --rows 2 --disks 9");
    let expected = json!({
        "volume": "volume", "form": "image", "block_bytes": 512, "rows": 2, "disks": 9, "room": 16,
        "open_blocks": 18, "open_bytes": 9216
    });
    assert_eq!(told, expected);
    assert_eq!(rack.get("volume").len(), RECORD + 16 * 2 * 512);
}

#[test]
fn a_folder_has_a_file_for_each_disk() {
    let rack = Rack::empty(Form::Folder);
    let told = rack.told("create volume --folder --size 64K --rows 2 --disks 3");
    let expected = json!({
        "volume": "volume", "form": "folder", "block_bytes": 65536, "rows": 2, "disks": 3, "room": 16,
        "open_blocks": 6, "open_bytes": 393216
    });
    assert_eq!(told, expected);
    let names = fs::read_dir(rack.path("volume")).expect("it is a folder").count();
    assert_eq!((names, rack.get("volume/record").len()), (4, 4096));
    let lengths: Vec<usize> = (0..3).map(|disk| rack.get(&rack.disk(disk, 2).0).len()).collect();
    assert_eq!(lengths, [2 * 65536; 3]);
}

/// A folder that is there is taken, and what else is in it stays.
#[test]
fn a_folder_that_is_there_is_taken() {
    let rack = Rack::empty(Form::Folder);
    fs::create_dir(rack.path("volume")).expect("a folder can be made");
    rack.put("volume/notes", "spare drives: 2");
    rack.done("create volume --folder --size 512 --rows 8 --disks 2");
    assert_eq!(rack.get("volume/notes"), b"spare drives: 2");
    assert_eq!(rack.told("status volume")["disks"], 2);
}

#[test]
fn a_new_volume_is_zeros() {
    for form in FORMS {
        let rack = Rack::new(form, 8, 2);
        assert_eq!(rack.exported(), vec![0; 2 * 8 * SIZE as usize]);
    }
}

#[test]
fn force_overwrites_a_volume() {
    for form in FORMS {
        let rack = Rack::new(form, 8, 3);
        rack.save(0..24, 1);
        rack.done("grow volume 5");
        let folder = if form == Form::Folder { "--folder" } else { "" };
        let told = rack.told(&format!("create volume --force --size 1024 --rows 4 --disks 2 {folder}"));
        assert_eq!((&told["disks"], &told["rows"], &told["open_blocks"]), (&json!(2), &json!(4), &json!(8)));
        assert_eq!(rack.told("status volume")["counts"], json!([2]));
        assert_eq!(rack.exported(), vec![0; 8 * 1024]);
    }
}
