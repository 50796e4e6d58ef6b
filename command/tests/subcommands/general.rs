//! What is not of one subcommand: help, version, completions, and waiting for another process.

use std::ffi::OsStr;
use std::fs::File;
use std::os::unix::ffi::OsStrExt;
use std::process::Command;
use std::thread;
use std::time::{Duration, Instant};

use serde_json::Value;

use crate::common::{locked, piece, unlock, Form, Rack, Refused, FORMS, SIZE};

/// The subcommands that the help names.
fn subcommands(rack: &Rack) -> Vec<String> {
    let help = rack.done("--help");
    let lines = help.text().lines().skip_while(|line| *line != "Commands:").skip(1).take_while(|line| !line.is_empty());
    // Words that go on in the next line stand further right.
    let named = lines.filter(|line| line.starts_with("  ") && !line.starts_with("   "));
    named.map(|line| line.split_whitespace().next().expect("a name").to_string()).collect()
}

const SUBCOMMANDS: &str =
    "create status examine grow advance run write read import export where holder load chart check \
                           backup-record restore-record report completions help";

#[test]
fn every_subcommand_has_help() {
    let rack = Rack::empty(Form::Image);
    let all = subcommands(&rack);
    assert_eq!(all.join(" "), SUBCOMMANDS);
    for name in all.iter().filter(|name| *name != "help") {
        let told = rack.done(&format!("{name} --help"));
        let (about, rest) = told.text().split_once("\n\nUsage: streterva ").expect("a sentence, then the usage");
        assert!(about.len() > 10 && about.lines().count() == 1, "{about}");
        assert!(rest.starts_with(name.as_str()), "{rest}");
        let words = ["Arguments:", "Options:", "--json", "--quiet", "--wait <SECONDS>", "--help"];
        assert!(words.iter().all(|word| rest.contains(word)), "{rest}");
        assert_eq!(rack.done(&format!("help {name}")).text(), told.text());
    }
}

#[test]
fn the_help_tells_every_exit_status() {
    let rack = Rack::empty(Form::Image);
    let help = rack.done("--help");
    let (_, statuses) = help.text().split_once("Exit status:\n").expect("a part about exit statuses");
    let told: Vec<&str> = statuses.lines().map_while(|line| line.split_whitespace().next()).collect();
    assert_eq!(told, ["0", "1", "2", "3", "4", "5", "6", "7", "130"]);
}

#[test]
fn the_version() {
    let rack = Rack::empty(Form::Image);
    let expected = concat!("streterva ", env!("CARGO_PKG_VERSION"), "\n");
    assert_eq!((rack.done("--version").text(), rack.done("-V").text()), (expected, expected));
}

#[test]
fn completions_for_every_shell() {
    let rack = Rack::empty(Form::Image);
    for shell in ["bash", "zsh", "fish"] {
        let told = rack.done(&format!("completions {shell}"));
        let missing: Vec<String> = subcommands(&rack).into_iter().filter(|name| !told.text().contains(name)).collect();
        assert_eq!(missing, Vec::<String>::new(), "{shell}");
        assert!(told.text().contains("beyond-doubling") && told.text().contains("lengthen"), "{shell}");
        rack.put(shell, told.text());
    }
    let read = Command::new("bash").arg("-n").arg(rack.path("bash")).status().expect("bash starts");
    assert!(read.success());
}

/// Names with spaces and letters of other alphabets, with a dash first, and with a byte that is no text.
const NAMES: [(&[u8], &str); 3] = [("Rück 7".as_bytes(), "Rück 7"), (b"-rack", "-rack"), (b"rack\xFF", "rack\u{fffd}")];

#[test]
fn names_of_every_kind() {
    let rack = Rack::empty(Form::Image);
    for (name, told) in NAMES {
        let call = |words: &str| rack.command(words).arg("--").arg(OsStr::from_bytes(name)).output();
        let created = call("create --size 512 --rows 8 --disks 3").expect("the command starts");
        assert_eq!(created.status.code(), Some(0), "{}", String::from_utf8_lossy(&created.stderr));
        let status = call("status --json").expect("the command starts");
        let status: Value = serde_json::from_slice(&status.stdout).expect("an object");
        assert_eq!(status["volume"], told);
    }
}

/// What is printed has to arrive: a full drive behind standard output is told, and not taken for the volume's.
#[test]
fn an_answer_that_cannot_be_written() {
    let rack = Rack::new(Form::Image, 8, 3);
    let sentence = "cannot write to standard output: No space left on device (os error 28)";
    for call in ["status volume", "status volume --json", "read volume 0", "export volume -", "chart volume"] {
        let full = File::options().write(true).open("/dev/full").expect("there is a full device");
        let told = rack.command(call).stdout(full).output().expect("the command starts");
        let error = String::from_utf8_lossy(&told.stderr);
        assert!(told.status.code() == Some(3) && error.contains(sentence), "{call}: {error}");
    }
}

/// Who reads or writes blocks is told; who only looks at the record is not.
fn another_process_has(rack: &Rack, name: &str) {
    rack.put("show", "a show");
    let lock = locked(&rack.path(name));
    let sentence = format!("{name} is in use by another process");
    let calls = ["write volume 0", "grow volume 4", "advance volume", "run volume", "import volume show"];
    rack.all_refused(&calls, Refused(7, None, &sentence));
    assert_eq!(rack.call("read volume 0").with_status(7).error, format!("streterva: {sentence}\n"));
    ["status", "check", "chart", "examine"].iter().for_each(|name| drop(rack.done(&format!("{name} volume"))));
    unlock(lock);
}

#[test]
fn a_volume_that_another_process_has() {
    let files = [(Form::Image, "volume"), (Form::Folder, "volume/record"), (Form::Folder, "volume/disk-01")];
    for (form, name) in files {
        let rack = Rack::new(form, 8, 3);
        another_process_has(&rack, name);
        rack.done("read volume 0");
    }
}

#[test]
fn waiting_as_long_as_is_allowed() {
    for form in FORMS {
        let rack = Rack::new(form, 8, 3);
        let lock = locked(&rack.record());
        let start = Instant::now();
        rack.call("grow volume 5 --wait 0.3").with_status(7);
        assert!(start.elapsed() >= Duration::from_millis(300));
        let waiting = rack.start("write volume 3 --wait 20", &piece(SIZE, 3, 1));
        thread::sleep(Duration::from_millis(300));
        unlock(lock);
        waiting.ended().done();
        assert_eq!(rack.done("read volume 3").out, piece(SIZE, 3, 1));
    }
}

/// Two calls of the command itself: one runs a growth slowly, the other waits for it.
#[test]
fn waiting_for_a_run() {
    for form in FORMS {
        let rack = Rack::new(form, 8, 3);
        rack.save(0..24, 1);
        rack.done("grow volume 5");
        let running = rack.start("run volume --rate 4K --quiet", b"");
        thread::sleep(Duration::from_millis(400));
        rack.call("read volume 0").with_status(7);
        assert_eq!(rack.done("read volume 7 --wait 20").out, piece(SIZE, 7, 1));
        assert_eq!(rack.told("status volume")["open_blocks"], 40);
        running.ended().done();
    }
}
