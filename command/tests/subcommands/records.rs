use serde_json::json;

use crate::common::{Form, Rack, FORMS, RECORD};

const SOUND: &str = "\
volume, bytes 0 to 511: the record of a sound state
  Z                512   bytes in a block
  s                  5   rows on each disk
  t                  0   growths
  N                  3   disks at format and after each growth
  growing            0   blocks 0 to 14 are open
";

const GROWING: &str = "\
volume, bytes 0 to 511: the record of a sound state
  Z                512   bytes in a block
  s                  5   rows on each disk
  t                  1   growths
  N               3, 5   disks at format and after each growth
  growing            1   blocks 0 to 14 are open
  w                  0   windows finished, of 1
  marks              2   moving blocks recorded in window 0
                         these: 0 3
  left               5   advance calls
";

#[test]
fn a_sound_record_in_words() {
    let rack = Rack::of_the_picture();
    assert_eq!(rack.unchanged(|| rack.done("examine volume")).text(), SOUND);
    rack.done("grow volume 5");
    rack.done("advance volume --calls 2");
    assert_eq!(rack.unchanged(|| rack.done("examine volume")).text(), GROWING);
}

/// The same record in the volume, in its file, and in a copy of 512 bytes.
fn in_every_kind_of_file(form: Form) {
    let rack = Rack::new(form, 8, 3);
    rack.done("grow volume 5");
    rack.done("advance volume --calls 8");
    rack.done("backup-record volume kept");
    let record = json!({
        "block_bytes": 512, "rows": 8, "growths": 1, "counts": [3, 5], "growing": true, "window": 1,
        "windows": 2, "marks": [0], "recorded_blocks": [15], "open_blocks": 24, "calls_left": 5
    });
    let (file, byte) = match form {
        Form::Image => ("volume", 0),
        Form::Folder => ("volume/record", 3584),
    };
    for (asked, file, byte) in [("volume", file, byte), (file, file, byte), ("kept", "kept", 0)] {
        let expected = json!({"file": file, "byte": byte, "sound": true, "refused": null, "record": record});
        assert_eq!(rack.told(&format!("examine {asked}")), expected, "{asked}");
    }
}

#[test]
fn a_sound_record_in_every_kind_of_file() {
    FORMS.into_iter().for_each(in_every_kind_of_file);
}

/// A byte of the record of 3 disks that grow to 5, what is put there, and the column, byte and reason that are told.
const DAMAGES: [(usize, u8, &str, u64, &str); 10] = [
    (0, b'x', "Z", 0, "'x' is no digit"),
    (9, b'3', "Z", 0, "513 is no multiple of 512"),
    (18, b'0', "s", 18, "a leading zero"),
    (29, b'9', "t", 20, "9 is above 7, the most growths"),
    (49, b'2', "N[1]", 40, "N[1] is 2 and not above N[0], 3"),
    (55, b'7', "N[2]", 55, "the count after N[t] is not blank: t is 1, and here is '7'"),
    (119, b'2', "growing", 110, "2 is neither 0 nor 1"),
    (129, b'9', "w", 120, "9 is not below the number of windows, 2"),
    (300, 0, "spaces", 300, "0x00 where a space is due"),
    (511, b' ', "end", 511, "a space where the line feed, 0x0A, is due"),
];

fn damages_are_told(form: Form) {
    let rack = Rack::new(form, 8, 3);
    rack.done("grow volume 5");
    rack.done("advance volume --calls 1");
    let sound = rack.sector();
    for (byte, with, column, told_byte, reason) in DAMAGES {
        rack.damage(byte, with);
        damage_is_told(&rack, column, told_byte, reason);
        rack.damage(byte, sound[byte]);
    }
    rack.done("examine volume");
}

#[test]
fn a_damaged_record() {
    FORMS.into_iter().for_each(damages_are_told);
}

fn damage_is_told(rack: &Rack, column: &str, byte: u64, reason: &str) {
    let (file, from) = match rack.form {
        Form::Image => ("volume", 0),
        Form::Folder => ("volume/record", 3584),
    };
    let told = rack.call("examine volume").with_status(6);
    let place = format!("{file}, bytes {from} to {}: refused with 13\n", from + 511);
    assert_eq!(told.text(), format!("{place}  column {column}, byte {byte} of the record: {reason}\n"));
    let told = rack.call("examine volume --json").with_status(6);
    let refused = json!({"refusal": 13, "column": column, "byte": byte, "reason": reason});
    let expected = json!({"file": file, "byte": from, "sound": false, "refused": refused, "record": null});
    assert_eq!((told.json(), told.error.as_str()), (expected, ""));
}

/// Each mark of a block that does not move in the window under way is told.
#[test]
fn a_wrong_mark() {
    let rack = Rack::of_the_picture();
    rack.done("grow volume 5");
    rack.damage(130 + 6, b'1');
    let told = rack.call("examine volume --json").with_status(6).json();
    assert_eq!((&told["refused"]["column"], &told["refused"]["byte"]), (&json!("marks"), &json!(136)));
    rack.damage(130 + 6, b'y');
    let told = rack.call("examine volume --json").with_status(6).json();
    assert_eq!(told["refused"]["reason"], "'y' is no mark: mark 6 is '0' or '1'");
}

#[test]
fn a_backup_is_the_record() {
    for form in FORMS {
        let rack = Rack::new(form, 8, 3);
        let told = rack.done("backup-record volume kept");
        assert_eq!(told.text(), "volume: the record is kept in kept: disk counts 3, 0 advance calls left\n");
        assert_eq!(rack.get("kept"), rack.sector());
        rack.done("grow volume 5");
        let told = rack.told("backup-record volume kept --force");
        let expected =
            json!({"volume": "volume", "file": "kept", "done": "backed up", "counts": [3, 5], "calls_left": 13});
        assert_eq!(told, expected);
        assert_eq!(rack.get("kept"), rack.sector());
    }
}

/// In the middle of a growth: after it all saves are read, and the growth goes on.
#[test]
fn a_damaged_record_is_restored() {
    for form in FORMS {
        let rack = Rack::new(form, 8, 3);
        rack.save(0..24, 1);
        rack.done("grow volume 5");
        rack.done("advance volume --calls 3");
        rack.done("backup-record volume kept");
        rack.damage(7, b'9');
        rack.call("read volume 0").with_status(6);
        let told = rack.done("restore-record volume kept");
        assert_eq!(told.text(), "volume: the record of kept is stored: disk counts 3, 5, 10 advance calls left\n");
        assert_eq!(rack.sector(), rack.get("kept"));
        rack.has(0..24, 1);
        assert_eq!(rack.told("run volume")["calls"], 10);
        rack.has(0..24, 1);
    }
}

#[test]
fn the_same_record_changes_nothing() {
    for form in FORMS {
        let rack = Rack::new(form, 8, 3);
        rack.done("backup-record volume kept");
        let told = rack.unchanged(|| rack.told("restore-record volume kept"));
        let expected = json!({"volume": "volume", "file": "kept", "done": "restored", "counts": [3], "calls_left": 0});
        assert_eq!(told, expected);
    }
}

/// Another sound record is stored only by force; here it is the newer one, which was backed up last.
#[test]
fn another_record_by_force() {
    for form in FORMS {
        let rack = Rack::new(form, 8, 3);
        rack.save(0..24, 1);
        rack.done("backup-record volume older");
        rack.grow_and_run(5);
        rack.save(0..40, 2);
        rack.done("backup-record volume newer");
        rack.done("restore-record volume older --force");
        assert_eq!(rack.told("status volume")["disks"], 3);
        rack.unchanged(|| rack.call("restore-record volume newer").with_status(1));
        rack.done("restore-record volume newer --force");
        rack.has(0..40, 2);
    }
}

/// A folder may have lost its record's file, or part of it.
#[test]
fn the_lost_file_of_a_record_is_restored() {
    let rack = Rack::new(Form::Folder, 8, 3);
    rack.save(0..24, 1);
    rack.done("backup-record volume kept");
    rack.remove("volume/record");
    rack.done("restore-record volume kept");
    rack.has(0..24, 1);
    rack.cut("volume/record", RECORD as u64);
    rack.done("restore-record volume kept");
    rack.has(0..24, 1);
}
