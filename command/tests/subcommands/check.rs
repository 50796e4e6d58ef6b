use std::os::unix::fs::symlink;

use serde_json::json;

use crate::common::{Form, Rack, FORMS};

#[test]
fn a_sound_volume() {
    for form in FORMS {
        let rack = Rack::new(form, 8, 3);
        let told = rack.unchanged(|| rack.done("check volume"));
        assert_eq!(told.text(), "volume: no fault found; 24 blocks and 24 spots agree\n");
        rack.grow_in_stages(5, 4, |rack| {
            let told = rack.unchanged(|| rack.told("check volume"));
            let open = rack.told("status volume")["open_blocks"].clone();
            assert_eq!(told, json!({"volume": "volume", "blocks": open, "spots": 40, "faults": 0, "told": []}));
        });
        assert_eq!(rack.done("check volume").text(), "volume: no fault found; 40 blocks and 40 spots agree\n");
    }
}

/// The volume has this one fault, and what is looked at besides agrees.
fn one_fault(rack: &Rack, fault: &str, looked_at: (u64, u64)) {
    let (blocks, spots) = looked_at;
    let told = rack.unchanged(|| rack.call("check volume").with_status(4));
    let looked = format!("looked at {blocks} blocks and {spots} spots");
    assert_eq!(told.text(), format!("volume: {fault}\nvolume: 1 fault; {looked}\n"));
    assert_eq!(told.error, "");
    let told = rack.call("check volume --json").with_status(4);
    let expected = json!({"volume": "volume", "blocks": blocks, "spots": spots, "faults": 1, "told": [fault]});
    assert_eq!((told.json(), told.error.as_str()), (expected, ""));
}

fn record_name(form: Form) -> &'static str {
    match form {
        Form::Image => "volume",
        Form::Folder => "volume/record",
    }
}

#[test]
fn a_damaged_record() {
    for form in FORMS {
        let rack = Rack::new(form, 8, 3);
        rack.damage(19, b'?');
        let record = record_name(form);
        let fault =
            format!("{record} has no volume: its record is refused with 13: column s, byte 19: '?' is no digit");
        one_fault(&rack, &fault, (0, 0));
        let sentence = rack.call("status volume").with_status(6).error;
        assert_eq!(sentence, format!("streterva: {fault}\n"));
    }
}

#[test]
fn a_file_without_a_whole_record() {
    for (form, bytes, needed) in [(Form::Image, 511, 512), (Form::Folder, 4095, 4096)] {
        let rack = Rack::new(form, 8, 3);
        let record = record_name(form);
        rack.cut(record, bytes);
        one_fault(&rack, &format!("{record} is too short: it has {bytes} bytes and needs {needed}"), (0, 0));
        rack.call("status volume").with_status(5);
        rack.call("read volume 0").with_status(5);
    }
}

#[test]
fn an_image_that_is_cut_short() {
    let rack = Rack::new(Form::Image, 8, 3);
    let needed = 512 + 3 * 8 * 512;
    rack.cut("volume", needed);
    rack.done("check volume");
    rack.cut("volume", needed - 1);
    one_fault(&rack, "volume is too short: it has 12799 bytes and needs 12800", (24, 24));
    rack.call("status volume").with_status(5);
    rack.call("export volume -").with_status(5);
}

#[test]
fn a_disk_that_is_cut_short_and_one_that_is_missing() {
    let rack = Rack::new(Form::Folder, 8, 3);
    rack.cut("volume/disk-01", 4000);
    one_fault(&rack, "volume/disk-01 is too short: it has 4000 bytes and needs 4096", (24, 24));
    rack.call("read volume 0").with_status(5);
    rack.remove("volume/disk-00");
    let told = rack.call("check volume --json").with_status(4).json();
    assert_eq!(told["faults"], 2);
    assert_eq!(told["told"][0], "cannot open volume/disk-00: No such file or directory (os error 2)");
    assert_eq!(told["told"][1], "volume/disk-01 is too short: it has 4000 bytes and needs 4096");
    rack.call("read volume 0").with_status(3);
}

/// Two disks in one file would overwrite each other.
#[test]
fn two_names_of_one_file() {
    let rack = Rack::new(Form::Folder, 8, 3);
    rack.remove("volume/disk-02");
    symlink("disk-01", rack.path("volume/disk-02")).expect("a link can be made");
    one_fault(&rack, "volume/disk-02 is a second name of another file of the volume", (24, 24));
    rack.call("read volume 0").with_status(1);
}

#[test]
fn a_folder_without_a_record() {
    let rack = Rack::new(Form::Folder, 8, 3);
    rack.remove("volume/record");
    one_fault(&rack, "volume has no volume: it is a folder without a file record", (0, 0));
}
