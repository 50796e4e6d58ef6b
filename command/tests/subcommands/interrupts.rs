//! Ctrl-C, progress that is told, and a file that is cut while it is read.

use std::io::Read;
use std::process::Stdio;
use std::thread;
use std::time::Duration;

use serde_json::json;

use crate::common::{locked, number, signal, unlock, Form, Rack, Running, FORMS, SIZE};

/// Long enough for a call to get to its work.
const UNDER_WAY: Duration = Duration::from_millis(400);

/// A volume that grows by 48 blocks, and a run that takes many seconds for them.
fn slow_run(form: Form, words: &str) -> (Rack, Running) {
    let rack = Rack::new(form, 40, 3);
    rack.save(0..120, 1);
    rack.done("grow volume 5");
    let running = rack.start(&format!("run volume --rate 4K {words}"), b"");
    (rack, running)
}

/// What an interrupted run told to be left is exact: the next run takes as many calls, and nothing is lost.
fn goes_on(rack: &Rack, left: u64) {
    assert!(left > 0 && left < 56, "{left} calls are left");
    assert_eq!(rack.told("status volume")["growth"]["calls_left"], left);
    rack.has(0..120, 1);
    let told = rack.told("run volume");
    assert_eq!((number(&told["calls"]), &told["finished"]), (left, &json!(true)));
    rack.has(0..120, 1);
}

#[test]
fn a_run_is_interrupted_and_goes_on() {
    for form in FORMS {
        let (rack, running) = slow_run(form, "");
        thread::sleep(UNDER_WAY);
        running.interrupt();
        let told = running.ended().with_status(130);
        assert_eq!(told.error, "streterva: ended early\n");
        let (_, end) = told.text().split_once("; ended early, ").expect("it says that it ended early");
        let left = end.strip_suffix(" advance calls left; run goes on there\n").expect("it tells the calls left");
        goes_on(&rack, left.parse().expect("a number"));
    }
}

#[test]
fn an_interrupted_run_as_json() {
    for form in FORMS {
        let (rack, running) = slow_run(form, "--json");
        thread::sleep(UNDER_WAY);
        running.interrupt();
        let ended = running.ended().with_status(130);
        let sentence = "ended early";
        assert_eq!(ended.error_as_json(), json!({"status": 130, "refusal": null, "sentence": sentence}));
        let told = ended.json();
        assert_eq!((&told["finished"], &told["interrupted"]), (&json!(false), &json!(true)));
        assert_eq!(number(&told["calls"]) + number(&told["calls_left"]), 56);
        goes_on(&rack, number(&told["calls_left"]));
    }
}

/// The request of a machine that shuts down is heard as Ctrl-C is.
#[test]
fn a_run_is_asked_to_end() {
    let (rack, mut running) = slow_run(Form::Folder, "--json");
    thread::sleep(UNDER_WAY);
    signal(running.child().id(), libc::SIGTERM);
    let told = running.ended().with_status(130).json();
    goes_on(&rack, number(&told["calls_left"]));
}

/// Off a terminal, a line every second; none with --quiet.
#[test]
fn progress_is_told() {
    let (_rack, running) = slow_run(Form::Image, "");
    let (_quiet_rack, quiet) = slow_run(Form::Folder, "--quiet");
    thread::sleep(Duration::from_millis(1700));
    running.interrupt();
    quiet.interrupt();
    let told = running.ended().with_status(130).error;
    let line = told.lines().next().expect("a line of progress");
    assert!(line.starts_with("copied ") && line.contains(" of 48 blocks, ") && line.ends_with(" left"), "{line}");
    assert_eq!(quiet.ended().with_status(130).error, "streterva: ended early\n");
}

/// An export that waits, since nobody reads the end of what it writes.
fn waiting_export(rack: &Rack) -> Running {
    let mut running = rack.start("export volume -", b"");
    let mut start = [0; SIZE as usize];
    let out = running.child().stdout.as_mut().expect("it is a pipe");
    out.read_exact(&mut start).expect("the first block is written");
    thread::sleep(UNDER_WAY);
    running
}

#[test]
fn an_export_is_interrupted() {
    for form in FORMS {
        let rack = Rack::new(form, 1000, 3);
        let running = waiting_export(&rack);
        running.interrupt();
        thread::sleep(Duration::from_millis(50));
        let ended = rack.unchanged(|| running.ended().with_status(130));
        assert!(ended.out.len() < 2999 * SIZE as usize);
        assert_eq!(ended.error, "streterva: ended early\n");
    }
}

/// Who reads an export may go away; that is no news to anybody.
#[test]
fn nobody_reads_an_export() {
    let rack = Rack::new(Form::Image, 1000, 3);
    let mut running = waiting_export(&rack);
    drop(running.child().stdout.take());
    assert_eq!(running.ended().with_status(3).error, "");
}

#[test]
fn an_image_is_cut_while_it_is_read() {
    let rack = Rack::new(Form::Image, 1000, 3);
    let running = waiting_export(&rack);
    rack.cut("volume", 4096);
    let sentence = "a mapped file could not be read or written: a drive failed or is full, or a file was cut short";
    assert_eq!(running.ended().with_status(3).error, format!("streterva: {sentence}\n"));
}

/// A call that waits for another process is ended by the first Ctrl-C.
#[test]
fn waiting_for_a_lock_is_interrupted() {
    for form in FORMS {
        let rack = Rack::new(form, 8, 3);
        let lock = locked(&rack.record());
        let running = rack.start("write volume 0 --wait 5", &[1; SIZE as usize]);
        thread::sleep(UNDER_WAY);
        running.interrupt();
        let ended = rack.unchanged(|| running.ended());
        assert_eq!((ended.status(), ended.text()), (130, ""));
        unlock(lock);
    }
}

/// So is one that waits for its input.
#[test]
fn waiting_for_input_is_interrupted() {
    let rack = Rack::new(Form::Image, 8, 3);
    let mut command = rack.command("write volume 0");
    let mut child = command.stdin(Stdio::piped()).spawn().expect("the command starts");
    thread::sleep(UNDER_WAY);
    signal(child.id(), libc::SIGINT);
    thread::sleep(UNDER_WAY);
    let ended = rack.unchanged(|| child.try_wait().expect("the command can be waited for"));
    child.kill().expect("the command is or was there");
    child.wait().expect("the command has ended");
    assert_eq!(ended.and_then(|how| how.code()), Some(130));
}
