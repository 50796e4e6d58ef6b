//! A drive that is full.

use std::fs;
use std::process::Command;

use crate::common::{piece, Form, Rack, Refused};

/// A folder with a drive of 1 MiB in it. Only root can make one.
struct SmallDrive {
    rack: Rack,
}

impl SmallDrive {
    fn new() -> Option<SmallDrive> {
        let rack = Rack::empty(Form::Image);
        fs::create_dir(rack.path("drive")).expect("a folder can be made");
        let words = ["-t", "tmpfs", "-o", "size=1m", "tmpfs"];
        let mounted = Command::new("mount").args(words).arg(rack.path("drive")).output();
        if mounted.is_ok_and(|mounted| mounted.status.success()) {
            return Some(SmallDrive { rack });
        }
        println!("skipped: no small drive can be mounted here");
        None
    }

    /// A call fails, since the drive is full, and leaves every file as it was.
    fn fails(&self, call: &str, tried: &str) {
        let sentence = format!("cannot {tried}: No space left on device (os error 28)");
        self.rack.refused(call, Refused(3, None, &sentence));
    }
}

impl Drop for SmallDrive {
    fn drop(&mut self) {
        // Lazily: a child that another test starts may have a file of the drive for a moment.
        let ended = Command::new("umount").arg("-l").arg(self.rack.path("drive")).status();
        if !ended.is_ok_and(|ended| ended.success()) {
            eprintln!("{} is still mounted", self.rack.path("drive").display());
        }
    }
}

#[test]
fn a_full_drive_takes_no_new_volume() {
    let Some(small) = SmallDrive::new() else { return };
    let create = "create drive/volume --size 64K --rows 8 --disks 3";
    small.fails(create, "set space aside in drive/volume");
    small.fails(&format!("{create} --folder"), "set space aside in drive/volume/disk-01");
    assert!(!small.rack.path("drive/volume").exists());
    small.rack.done("create drive/volume --size 64K --rows 4 --disks 3");
}

#[test]
fn a_full_drive_takes_no_growth() {
    let Some(small) = SmallDrive::new() else { return };
    let rack = &small.rack;
    rack.put("saved", piece(65_536, 3, 1));
    rack.done("create drive/image --size 64K --rows 2 --disks 2 --room 2");
    rack.done("create drive/folder --folder --size 64K --rows 2 --disks 2");
    rack.done("import drive/image saved --first 3");
    rack.done("import drive/folder saved --first 3");
    rack.put("drive/other", vec![1; 256 << 10]);
    small.fails("grow drive/image 4 --lengthen", "set space aside in drive/image");
    small.fails("grow drive/folder 4", "set space aside in drive/folder/disk-03");
    for volume in ["drive/image", "drive/folder"] {
        assert_eq!(rack.done(&format!("read {volume} 3")).out, piece(65_536, 3, 1));
        rack.done(&format!("check {volume}"));
    }
    rack.remove("drive/other");
    rack.done("grow drive/folder 4");
    rack.done("run drive/folder --quiet");
}

/// What is set aside for a volume is there for its blocks on a full drive too; other files are not made.
#[test]
fn a_full_drive_takes_blocks_and_no_other_files() {
    let Some(small) = SmallDrive::new() else { return };
    let rack = &small.rack;
    rack.done("create drive/volume --folder --size 64K --rows 4 --disks 3");
    rack.put("drive/other", vec![1; (256 << 10) - 4096]);
    rack.put("show", piece(12 * 65_536, 1, 1));
    rack.done("import drive/volume show");
    assert!(rack.done("export drive/volume -").out == piece(12 * 65_536, 1, 1));
    small.fails("export drive/volume drive/copy", "write drive/copy");
    small.fails("report drive/volume drive/page.html", "write drive/page.html");
}
