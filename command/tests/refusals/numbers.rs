//! The refusals that have a number in documents 01 and 02.

use crate::common::{pairs, Form, Rack, Refused, FORMS, SIZE};

const OUTSIDE_LIMITS: Refused<'static> = Refused(
    1,
    Some(8),
    "refused with 8: a size, a number of rows, a disk count or the disks on the first shelf are outside their limits",
);

/// A volume of 3 disks that grow to 5, with 8 rows, after three advance calls.
fn growing(form: Form) -> Rack {
    let rack = Rack::new(form, 8, 3);
    rack.done("grow volume 5");
    rack.done("advance volume --calls 3");
    rack
}

/// In both forms: the same volume at rest, and growing. Blocks 0 to 23 are open in each.
fn racks() -> Vec<Rack> {
    FORMS.into_iter().flat_map(|form| [Rack::new(form, 8, 3), growing(form)]).collect()
}

#[test]
fn number_2_an_image_without_room() {
    let rack = Rack::empty(Form::Image);
    rack.done("create volume --size 512 --rows 8 --disks 3 --room 4");
    let sentence = "refused with 2: the medium or a shelf is too short: volume has room for 4 disks";
    rack.refused("grow volume 5", Refused(1, Some(2), sentence));
    rack.done("grow volume 4");
}

/// A file that is too short for its volume is told by its name; the number is the same.
#[test]
fn number_2_a_file_that_is_too_short() {
    for (form, name, needed) in [(Form::Image, "volume", 12_800), (Form::Folder, "volume/disk-02", 4096)] {
        let rack = Rack::new(form, 8, 3);
        rack.put("show", "a show");
        rack.cut(name, needed - 1);
        let sentence = format!("{name} is too short: it has {} bytes and needs {needed}", needed - 1);
        let calls = ["status volume", "grow volume 5", "where volume 0", "chart volume", "import volume show"];
        rack.all_refused(&calls, Refused(5, Some(2), &sentence));
        rack.cut(name, needed);
        rack.done("status volume");
    }
}

#[test]
fn number_2_a_file_without_a_whole_record() {
    let rack = Rack::empty(Form::Image);
    rack.put("volume", [b' '; 511]);
    let calls = ["status volume", "examine volume", "run volume", "backup-record volume kept"];
    rack.all_refused(&calls, Refused(5, Some(2), "volume is too short: it has 511 bytes and needs 512"));
}

/// Added blocks are closed during a growth.
#[test]
fn number_3_a_block_that_is_not_open() {
    let sentence = "refused with 3: the block is not open: blocks 0 to 23 are open";
    for (rack, block) in pairs(&racks(), &["24", "39", "18446744073709551615"]) {
        rack.refused(&format!("where volume {block}"), Refused(1, Some(3), sentence));
        let write = format!("write volume {block}");
        rack.refused_when_fed(&write, &[0; SIZE as usize], Refused(1, Some(3), sentence));
        let told = rack.unchanged(|| rack.call(&format!("read volume {block}")).with_status(1));
        assert_eq!((told.text(), told.error.as_str()), ("", format!("streterva: {sentence}\n").as_str()));
    }
}

/// Calls for blocks beyond the last of 24, and the blocks that they need.
const TOO_MANY: [(&str, &str); 7] = [
    ("import volume show", "25 blocks from 0 on"),
    ("import volume show --first 7", "25 blocks from 7 on"),
    ("import volume show --first 1000000000000000", "25 blocks from 1000000000000000 on"),
    ("import volume show --first 18446744073709551615", "25 blocks from 18446744073709551615 on"),
    ("export volume copy --blocks 25", "25 blocks from 0 on"),
    ("export volume copy --first 23 --blocks 2", "2 blocks from 23 on"),
    ("export volume copy --first 24", "1 block from 24 on"),
];

#[test]
fn number_3_more_blocks_than_are_open() {
    for (rack, (call, needed)) in pairs(&racks(), &TOO_MANY) {
        rack.put("show", vec![1; 24 * SIZE as usize + 1]);
        let blocks = format!("{needed} are needed and blocks 0 to 23 are open");
        let sentence = format!("refused with 3: the block is not open: {blocks}");
        rack.refused(call, Refused(1, Some(3), &sentence));
    }
}

#[test]
fn number_4_a_piece_of_another_size() {
    let sentence = "refused with 4: the piece is not one block long: a block has 512 bytes";
    for (rack, bytes) in pairs(&racks(), &[0, 1, 511, 513, 1024]) {
        rack.refused_when_fed("write volume 0", &vec![7; *bytes], Refused(1, Some(4), sentence));
    }
}

#[test]
fn number_5_no_growth() {
    for form in FORMS {
        let calls = ["advance volume", "advance volume --calls 100", "run volume", "run volume --rate 1K"];
        let refused = Refused(1, Some(5), "refused with 5: no growth is under way");
        Rack::new(form, 8, 3).all_refused(&calls, refused);
    }
}

#[test]
fn number_6_a_growth_is_under_way() {
    for form in FORMS {
        let calls = ["grow volume 6", "grow volume 6 --dry-run", "grow volume 6 --lengthen --beyond-doubling"];
        growing(form).all_refused(&calls, Refused(1, Some(6), "refused with 6: a growth is under way"));
    }
}

/// Numbers for --size, --rows and --disks, of which one is outside its limits.
const WRONG_NUMBERS: [(u64, u64, u64); 10] = [
    (0, 8, 3),
    (500, 8, 3),
    (66_048, 8, 3),
    (u64::MAX, 8, 3),
    (512, 0, 3),
    (512, 1_000_001, 3),
    (512, u64::MAX, 3),
    (512, 8, 0),
    (512, 8, 17),
    (512, 8, u64::MAX),
];

#[test]
fn number_8_a_new_volume_outside_the_limits() {
    let rack = Rack::empty(Form::Image);
    for ((size, rows, disks), folder) in pairs(&WRONG_NUMBERS, &["", "--folder"]) {
        let call = format!("create volume --size {size} --rows {rows} --disks {disks} {folder}");
        rack.refused(&call, OUTSIDE_LIMITS);
    }
}

#[test]
fn number_8_a_growth_outside_the_limits() {
    let racks = FORMS.map(|form| Rack::new(form, 8, 3));
    for (rack, count) in pairs(&racks, &["0", "1", "3", "17", "18446744073709551615"]) {
        rack.refused(&format!("grow volume {count}"), OUTSIDE_LIMITS);
        rack.refused(&format!("grow volume {count} --dry-run"), OUTSIDE_LIMITS);
        rack.refused(&format!("grow volume {count} --lengthen"), OUTSIDE_LIMITS);
    }
}

/// A volume that has had its seven growths.
fn fully_grown(form: Form) -> Rack {
    let rack = Rack::new(form, 8, 1);
    (2..9).for_each(|count| rack.grow_and_run(count));
    rack
}

#[test]
fn number_9_an_eighth_growth() {
    for form in FORMS {
        let calls = ["grow volume 9", "grow volume 9 --dry-run", "grow volume 9 --beyond-doubling"];
        let refused = Refused(1, Some(9), "refused with 9: the volume has had its last growth");
        fully_grown(form).all_refused(&calls, refused);
    }
}

/// Calls that need a record.
const WITH_A_RECORD: [&str; 14] = [
    "status volume",
    "status volume --watch",
    "grow volume 5",
    "grow volume 5 --dry-run",
    "advance volume",
    "run volume",
    "import volume show",
    "export volume copy",
    "where volume 0",
    "holder volume 0 0",
    "load volume show",
    "chart volume",
    "backup-record volume kept",
    "report volume page.html",
];

#[test]
fn number_13_no_record() {
    for (form, name) in [(Form::Image, "volume"), (Form::Folder, "volume/record")] {
        let rack = Rack::new(form, 8, 3);
        rack.damage(511, b'x');
        rack.put("show", "0 1\n");
        let reason = "the end, byte 511: 'x' where the line feed, 0x0A, is due";
        let sentence = format!("{name} has no volume: its record is refused with 13: {reason}");
        let refused = Refused(6, Some(13), &sentence);
        rack.all_refused(&WITH_A_RECORD, refused);
        rack.refused_when_fed("write volume 0", &[0; SIZE as usize], refused);
        assert_eq!(rack.call("read volume 0").with_status(6).error, format!("streterva: {sentence}\n"));
    }
}

#[test]
fn number_13_a_folder_without_a_record() {
    let rack = Rack::new(Form::Folder, 8, 3);
    rack.remove("volume/record");
    rack.put("show", "0 1\n");
    let sentence = "volume has no volume: it is a folder without a file record";
    rack.all_refused(&WITH_A_RECORD, Refused(6, Some(13), sentence));
    rack.refused("examine volume", Refused(6, Some(13), sentence));
}

#[test]
fn number_14_a_spot_that_does_not_exist() {
    for form in FORMS {
        let rack = Rack::new(form, 8, 3);
        let spots = [
            "holder volume 3 0",
            "holder volume 0 8",
            "holder volume 18446744073709551615 0",
            "holder volume 0 18446744073709551615",
        ];
        let sentence = "refused with 14: the disk or the row does not exist: there are disks 0 to 2 and rows 0 to 7";
        rack.all_refused(&spots, Refused(1, Some(14), sentence));
        growing(form).refused("holder volume 5 0", Refused(1, Some(14), &sentence.replace("0 to 2", "0 to 4")));
        let sentence = "refused with 14: the disk or the row does not exist: there are rows 0 to 7";
        rack.all_refused(&["chart volume --rows 8", "chart volume --rows 0-8"], Refused(1, Some(14), sentence));
    }
}

/// Blocks 0, 3 and 4 have left their spots; on the added disks nothing else lives yet.
#[test]
fn number_15_no_block_at_the_spot() {
    let racks = FORMS.map(growing);
    for (rack, spot) in pairs(&racks, &["0 0", "0 1", "1 1", "3 2", "4 0", "4 7"]) {
        let sentence = "refused with 15: no open block lives at the spot";
        rack.refused(&format!("holder volume {spot}"), Refused(1, Some(15), sentence));
    }
}

fn wrong_scene(place: u64) -> String {
    format!("refused with 17: the scene at place {place} reaches past the open blocks or stands after the first 65,536")
}

#[test]
fn number_17_a_scene_past_the_open_blocks() {
    for rack in racks() {
        rack.put("scenes", "# one that is right\n0 24\n\n20 5 too far\n24 1\n");
        let calls = ["load volume scenes", "report volume page.html --scenes scenes"];
        rack.all_refused(&calls, Refused(1, Some(17), &wrong_scene(1)));
        let refused = Refused(1, Some(17), &wrong_scene(0));
        rack.refused_when_fed("load volume -", b"18446744073709551615 2\n", refused);
    }
}

#[test]
fn number_17_more_scenes_than_are_taken() {
    let rack = Rack::new(Form::Image, 8, 3);
    rack.put("scenes", "0 1\n".repeat(65_537));
    rack.refused("load volume scenes", Refused(1, Some(17), &wrong_scene(65_536)));
    rack.put("scenes", "0 1\n".repeat(65_536));
    assert_eq!(rack.told("load volume scenes")["served"][0], 65_536);
}

#[test]
fn number_20_beyond_doubling() {
    for form in FORMS {
        let rack = Rack::new(form, 8, 3);
        let calls = ["grow volume 7", "grow volume 16", "grow volume 7 --dry-run", "grow volume 7 --lengthen"];
        let sentence = "refused with 20: the growth would more than double the disks";
        rack.all_refused(&calls, Refused(1, Some(20), sentence));
        rack.done("grow volume 6");
    }
}
