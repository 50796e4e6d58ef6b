//! Files that are missing, of another kind, or not the caller's.

use std::fs::{self, Permissions};
use std::os::unix::fs::{MetadataExt, PermissionsExt};
use std::os::unix::process::CommandExt;
use std::path::PathBuf;
use std::process::Command;

use crate::common::{make_pipe, Form, Rack, Refused, PROGRAM};

/// Calls that need a volume.
const WITH_A_VOLUME: [&str; 16] = [
    "status volume",
    "examine volume",
    "grow volume 5",
    "grow volume 5 --dry-run",
    "advance volume",
    "run volume",
    "write volume 0",
    "import volume show",
    "export volume copy",
    "where volume 0",
    "holder volume 0 0",
    "load volume show",
    "chart volume",
    "check volume",
    "backup-record volume kept",
    "report volume page.html",
];

#[test]
fn nothing_there() {
    let rack = Rack::empty(Form::Image);
    rack.put("show", "0 1\n");
    let sentence = "cannot open volume: No such file or directory (os error 2)";
    rack.all_refused(&WITH_A_VOLUME, Refused(3, None, sentence));
    assert_eq!(rack.call("read volume 0").with_status(3).error, format!("streterva: {sentence}\n"));
}

#[test]
fn files_beside_the_volume_that_are_not_there() {
    let rack = Rack::new(Form::Image, 8, 3);
    let refused = Refused(3, None, "cannot open nothing: No such file or directory (os error 2)");
    rack.all_refused(&["import volume nothing", "restore-record volume nothing"], refused);
    let refused = Refused(3, None, "cannot read nothing: No such file or directory (os error 2)");
    rack.all_refused(&["load volume nothing", "report volume page.html --scenes nothing"], refused);
}

#[test]
fn files_in_a_folder_that_is_not_there() {
    let rack = Rack::new(Form::Image, 8, 3);
    for call in ["export volume", "backup-record volume", "report volume"] {
        let told = rack.unchanged(|| rack.call(&format!("{call} nowhere/file")).with_status(3));
        let start = "streterva: cannot make nowhere/file: No such file or directory";
        assert!(told.error.starts_with(start), "{}", told.error);
    }
    let refused = Refused(3, None, "cannot make nowhere/volume: No such file or directory (os error 2)");
    let create = "create nowhere/volume --size 512 --rows 8 --disks 3";
    rack.all_refused(&[create, &format!("{create} --folder")], refused);
}

/// What even opening would wait for is not opened.
#[test]
fn a_pipe() {
    let rack = Rack::empty(Form::Image);
    make_pipe(&rack, "volume");
    let sentence = "cannot open volume: it is neither a file nor a block device";
    rack.put("show", "0 1\n");
    rack.all_refused(&WITH_A_VOLUME, Refused(3, None, sentence));
    rack.refused("create volume --size 512 --rows 8 --disks 3 --force", Refused(3, None, sentence));
    let rack = Rack::new(Form::Image, 8, 3);
    make_pipe(&rack, "pipe");
    let calls = ["import volume pipe", "restore-record volume pipe"];
    rack.all_refused(&calls, Refused(3, None, &sentence.replace("volume", "pipe")));
}

#[test]
fn a_folder_without_a_disk() {
    let rack = Rack::new(Form::Folder, 8, 3);
    rack.remove("volume/disk-01");
    let sentence = "cannot open volume/disk-01: No such file or directory (os error 2)";
    rack.all_refused(&["status volume", "run volume", "chart volume", "where volume 0"], Refused(3, None, sentence));
    rack.done("examine volume");
    rack.done("backup-record volume kept");
}

/// A file where a folder is wanted, and the other way round.
#[test]
fn the_other_form() {
    let rack = Rack::new(Form::Image, 8, 3);
    let sentence = "cannot make volume: File exists (os error 17)";
    rack.refused("create volume --folder --size 512 --rows 8 --disks 3 --force", Refused(3, None, sentence));
    let rack = Rack::new(Form::Folder, 8, 3);
    let sentence = "cannot open volume: it is neither a file nor a block device";
    rack.refused("create volume --size 512 --rows 8 --disks 3 --force", Refused(3, None, sentence));
}

/// A user who is not root. Root calls as nobody, by a copy of the program that nobody can reach.
struct OtherUser {
    rack: Rack,
    program: PathBuf,
    is_root: bool,
}

impl OtherUser {
    const NOBODY: u32 = 65_534;

    fn of(rack: Rack) -> OtherUser {
        let program = rack.path("program");
        fs::copy(PROGRAM, &program).expect("the program can be copied");
        let is_root = fs::metadata(&program).expect("the copy is there").uid() == 0;
        let user = OtherUser { rack, program, is_root };
        user.rights("", 0o755);
        user
    }

    fn rights(&self, name: &str, mode: u32) {
        fs::set_permissions(self.rack.path(name), Permissions::from_mode(mode)).expect("the rights can be changed");
    }

    /// The call's status and what it says of errors.
    fn call(&self, call: &str) -> (Option<i32>, String) {
        let mut command = Command::new(&self.program);
        command.args(call.split_whitespace()).current_dir(self.rack.path(""));
        if self.is_root {
            command.uid(OtherUser::NOBODY);
        }
        let output = command.output().expect("the program starts");
        (output.status.code(), String::from_utf8_lossy(&output.stderr).into_owned())
    }

    /// These calls fail, since the file is not the user's.
    fn all_denied(&self, calls: &[&str], name: &str) {
        let denied = (Some(3), format!("streterva: cannot open {name}: Permission denied (os error 13)\n"));
        calls.iter().for_each(|call| assert_eq!(self.call(call), denied, "{call}"));
    }
}

/// A file that may only be read is looked at; one that may not even be read is not.
#[test]
fn a_file_that_may_not_be_read_or_written() {
    for (form, name) in [(Form::Image, "volume"), (Form::Folder, "volume/record")] {
        let user = OtherUser::of(Rack::new(form, 8, 3));
        user.rack.unchanged(|| {
            user.rights(name, 0o444);
            assert_eq!(user.call("status volume").0, Some(0));
            user.all_denied(&["grow volume 5", "run volume"], name);
            user.rights(name, if user.is_root { 0o600 } else { 0 });
            user.all_denied(&["status volume", "examine volume", "check volume", "run volume"], name);
            user.rights(name, 0o644);
        });
    }
}
