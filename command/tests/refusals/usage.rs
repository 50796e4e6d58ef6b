//! Calls that are wrong as such.

use serde_json::json;

use crate::common::{Form, Rack};

/// Calls, and words that the sentence has.
const WRONG_CALLS: [(&str, &[&str]); 22] = [
    ("", &["Usage: streterva", "Commands:"]),
    ("shrink volume", &["shrink", "wasn't recognized"]),
    ("create other", &["--size <BYTES>", "--rows <ROWS>", "--disks <DISKS>"]),
    ("create --size 512 --rows 8 --disks 3", &["<VOL>"]),
    ("create other --size 64KB --rows 8 --disks 3", &["'64KB'", "a number is expected, with K, M or G behind it"]),
    ("create other --size 99999999999999999G --rows 8 --disks 3", &["the number is too large"]),
    ("create other --size 512 --rows eight --disks 3", &["'eight'", "--rows <ROWS>"]),
    ("create other --size 512 --rows 8 --disks -3", &["-3"]),
    ("create other --size 512 --rows 8 --disks 3 --room 6 --folder", &["--room", "cannot be used with", "--folder"]),
    ("status", &["<VOL>"]),
    ("status volume --interval soon", &["'soon'", "a number of seconds is expected"]),
    ("status volume --wait -1", &["-1"]),
    ("grow volume", &["<COUNT>"]),
    ("grow volume five", &["'five'", "<COUNT>"]),
    ("advance volume --calls 0", &["'0'", "--calls <N>"]),
    ("run volume --rate 0", &["'0'", "a rate is at least 1"]),
    ("write volume", &["<BLOCK>"]),
    ("where volume 1.5", &["'1.5'", "<BLOCK>"]),
    ("holder volume 1", &["<ROW>"]),
    ("chart volume --rows 9-3", &["'9-3'", "the second row is below the first"]),
    ("chart volume --rows all", &["'all'", "two rows are expected, as in 0-99"]),
    ("completions tcsh", &["'tcsh'", "bash"]),
];

#[test]
fn missing_words_and_wrong_numbers() {
    let rack = Rack::new(Form::Image, 8, 3);
    for (call, words) in WRONG_CALLS {
        let told = rack.unchanged(|| rack.call(call).with_status(2));
        assert_eq!(told.text(), "", "{call}");
        assert!(words.iter().all(|word| told.error.contains(word)), "{call}: {}", told.error);
    }
}

/// Calls as JSON, and their sentences. Bytes and JSON cannot both be standard output.
const WRONG_AS_JSON: [(&str, &str); 5] = [
    ("read volume 0", "read prints the block's bytes and has no --json"),
    ("export volume -", "to standard output export prints the blocks' bytes and has no --json"),
    ("shrink volume", "The subcommand 'shrink' wasn't recognized"),
    ("grow volume", "The following required arguments were not provided: <COUNT>"),
    ("chart volume --rows 9-3", "Invalid value '9-3' for '--rows <A-B>': the second row is below the first"),
];

#[test]
fn as_json() {
    let rack = Rack::new(Form::Image, 8, 3);
    for (call, sentence) in WRONG_AS_JSON {
        let told = rack.unchanged(|| rack.call(&format!("{call} --json")).with_status(2));
        assert_eq!(told.text(), "");
        assert_eq!(told.error_as_json(), json!({"status": 2, "refusal": null, "sentence": sentence}), "{call}");
    }
}

/// Help is no error, whatever the form of answers.
#[test]
fn help_is_no_error() {
    let rack = Rack::empty(Form::Image);
    assert_eq!(rack.done("grow --help --json").text(), rack.done("grow --help").text());
    assert_eq!(rack.done("--version --json").text(), rack.done("--version").text());
}
