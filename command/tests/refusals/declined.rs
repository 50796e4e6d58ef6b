//! What the command declines with a sentence alone, so that nothing is lost.

use std::os::unix::fs::symlink;

use crate::common::{make_pipe, pairs, Form, Rack, Refused, FORMS};

/// Calls that make a file of a volume.
const MAKERS: [&str; 3] = ["export volume", "backup-record volume", "report volume"];

#[test]
fn a_volume_is_not_overwritten() {
    for (form, folder) in [(Form::Image, ""), (Form::Folder, "--folder")] {
        let rack = Rack::new(form, 8, 3);
        let create = format!("create volume --size 512 --rows 8 --disks 2 {folder}");
        rack.refused(&create, Refused(1, None, "volume has a volume already; --force overwrites it"));
        rack.damage(0, b'x');
        rack.refused(&create, Refused(1, None, "volume exists already and is no volume; --force overwrites it"));
    }
}

#[test]
fn a_new_volume_without_room() {
    let rack = Rack::empty(Form::Image);
    for (disks, room) in [(3, 2), (3, 17), (1, 0)] {
        let sentence = format!("room for {room} disks is asked for; it may be {disks} to 16");
        let call = format!("create volume --size 512 --rows 8 --disks {disks} --room {room}");
        rack.refused(&call, Refused(1, None, &sentence));
    }
}

#[test]
fn a_new_folder_with_disks_of_no_whole_pages() {
    let sentence = "in a folder rows times block size has to be a multiple of 4096, and 5 times 512 is not";
    let call = "create volume --folder --size 512 --rows 5 --disks 3";
    Rack::empty(Form::Folder).refused(call, Refused(1, None, sentence));
}

#[test]
fn files_are_not_overwritten() {
    let rack = Rack::new(Form::Folder, 8, 3);
    rack.put("notes", "spare drives: 2");
    symlink("nowhere", rack.path("link")).expect("a link can be made");
    for (call, name) in pairs(&MAKERS, &["notes", "link", "volume"]) {
        let sentence = format!("{name} exists already; --force overwrites it");
        rack.refused(&format!("{call} {name}"), Refused(1, None, &sentence));
    }
}

/// By force files are overwritten; what is something else, as a pipe or /dev/null, is left.
#[test]
fn only_files_are_overwritten() {
    let rack = Rack::new(Form::Folder, 8, 3);
    make_pipe(&rack, "pipe");
    symlink("nowhere", rack.path("link")).expect("a link can be made");
    for (call, name) in pairs(&MAKERS, &["pipe", "link", "volume"]) {
        let sentence = format!("{name} is no file, and only a file is overwritten");
        rack.refused(&format!("{call} {name} --force"), Refused(1, None, &sentence));
    }
}

/// A file of the volume itself, by its name and by a link.
fn is_apart(form: Form, own: &str) {
    let rack = Rack::new(form, 8, 3);
    symlink(own, rack.path("link")).expect("a link can be made");
    let calls = ["export volume --force", "backup-record volume --force", "report volume --force", "import volume"];
    for (call, name) in pairs(&calls, &[own, "link"]) {
        let sentence = format!("{name} is a file of the volume itself");
        rack.refused(&format!("{call} {name}"), Refused(1, None, &sentence));
    }
}

/// Not even by force is a volume overwritten by what is made of it, or saved in itself.
#[test]
fn a_volume_is_apart_from_the_files_beside_it() {
    is_apart(Form::Image, "volume");
    is_apart(Form::Folder, "volume/record");
    is_apart(Form::Folder, "volume/disk-01");
}

#[test]
fn a_file_that_is_no_record_is_not_restored() {
    for form in FORMS {
        let rack = Rack::new(form, 8, 3);
        rack.put("long", [rack.sector(), vec![0]].concat());
        let refused = Refused(1, None, "long has 513 bytes, and a record has 512");
        rack.refused("restore-record volume long --force", refused);
        rack.put("short", [b' '; 100]);
        let refused = Refused(5, Some(2), "short is too short: it has 100 bytes and needs 512");
        rack.refused("restore-record volume short --force", refused);
        rack.put("wrong", [b' '; 512]);
        let reason = "column Z, byte 9: the column is blank: a space where the last digit is due";
        let sentence = format!("wrong has no volume: its record is refused with 13: {reason}");
        rack.refused("restore-record volume wrong --force", Refused(6, Some(13), &sentence));
    }
}

/// A sound record of other times or of another volume is not stored without --force.
#[test]
fn another_sound_record_is_not_restored() {
    for form in FORMS {
        let rack = Rack::new(form, 8, 3);
        rack.put("other", Rack::new(form, 8, 2).sector());
        let sentence = "volume has another record that is sound, and the older of the two tells wrong spots; \
                        --force stores it all the same";
        rack.refused("restore-record volume other", Refused(1, None, sentence));
    }
}

/// Not even by force where the files are not long enough for its disks.
#[test]
fn the_record_of_a_larger_volume_is_not_restored() {
    let rack = Rack::new(Form::Image, 8, 3);
    rack.cut("volume", 12_800);
    rack.put("other", Rack::new(Form::Image, 8, 4).sector());
    let sentence = "volume is too short: it has 12800 bytes and needs 16896";
    rack.refused("restore-record volume other --force", Refused(5, Some(2), sentence));
    let rack = Rack::new(Form::Folder, 8, 3);
    rack.put("other", Rack::new(Form::Folder, 8, 4).sector());
    let sentence = "cannot open volume/disk-03: No such file or directory (os error 2)";
    rack.refused("restore-record volume other --force", Refused(3, None, sentence));
}
