//! What ends the command, its exit status and its sentence.

use std::fmt;
use std::io;
use std::{env, process};

use clap::error::ErrorKind;
use serde_json::json;
use streterva::{LoadRefusal, Refusal};
use streterva_store::{Error, MAPPED_FILE_FAILED};

/// What the command itself finds wrong.
#[derive(Debug)]
pub enum Failure {
    /// An argument does not fit, which only the command sees.
    Usage(String),
    /// A file that is read has something else in it than it should.
    Input(String),
    /// The answer on standard output says it all; this is its exit status.
    Told(u8),
    /// Ctrl-C, or a request to end.
    Interrupted,
}

impl fmt::Display for Failure {
    fn fmt(&self, f: &mut fmt::Formatter<'_>) -> fmt::Result {
        match self {
            Failure::Usage(sentence) | Failure::Input(sentence) => f.write_str(sentence),
            Failure::Told(status) => write!(f, "exit status {status}"),
            Failure::Interrupted => f.write_str("ended early"),
        }
    }
}

impl std::error::Error for Failure {}

/// The exit status.
pub fn status(error: &anyhow::Error) -> u8 {
    if let Some(failure) = error.downcast_ref::<Failure>() {
        return match failure {
            Failure::Usage(_) => 2,
            Failure::Input(_) => 3,
            Failure::Told(status) => *status,
            Failure::Interrupted => 130,
        };
    }
    match error.downcast_ref::<Error>() {
        Some(Error::Refused { .. } | Error::Declined(_)) => 1,
        Some(Error::TooShort { .. }) => 5,
        Some(Error::NoVolume { .. }) => 6,
        Some(Error::Locked { .. }) => 7,
        Some(Error::File { .. }) => 3,
        None if refusal(error).is_some() => 1,
        None => 3,
    }
}

/// The number of documents 01 and 02, where there is one.
fn refusal(error: &anyhow::Error) -> Option<u64> {
    if let Some(refusal) = error.downcast_ref::<Refusal>() {
        return Some(refusal.number());
    }
    if let Some(refusal) = error.downcast_ref::<LoadRefusal>() {
        return Some(refusal.number());
    }
    match error.downcast_ref::<Error>() {
        Some(Error::Refused { refusal, .. }) => Some(refusal.number()),
        Some(Error::NoVolume { .. }) => Some(Refusal::NoRecord.number()),
        Some(Error::TooShort { .. }) => Some(Refusal::MediumTooShort.number()),
        _ => None,
    }
}

/// Whether another process has the volume.
pub fn is_locked(error: &anyhow::Error) -> bool {
    matches!(error.downcast_ref(), Some(Error::Locked { .. }))
}

/// Whether there is nothing to say: the answer has said it, or the reader of what is printed has gone away.
pub fn is_silent(error: &anyhow::Error) -> bool {
    let kind = error.downcast_ref::<io::Error>().map(io::Error::kind);
    let told = matches!(error.downcast_ref(), Some(Failure::Told(_)));
    told || kind == Some(io::ErrorKind::BrokenPipe)
}

/// Whether a mapped file could not be read by a call that writes its bytes elsewhere: that file is at fault, and not
/// the one that is written.
fn is_mapped_file(error: &anyhow::Error) -> bool {
    let told = match error.downcast_ref() {
        Some(Error::File { error, .. }) => Some(error),
        _ => error.downcast_ref::<io::Error>(),
    };
    told.and_then(io::Error::raw_os_error) == Some(libc::EFAULT)
}

/// The error for standard error.
pub fn told(error: &anyhow::Error, as_json: bool) -> String {
    let sentence = match error.downcast_ref::<LoadRefusal>() {
        Some(refusal) => format!("refused with {}: {refusal}", refusal.number()),
        None if is_mapped_file(error) => MAPPED_FILE_FAILED.to_string(),
        None => format!("{error:#}"),
    };
    if !as_json {
        return format!("streterva: {sentence}");
    }
    object(status(error), refusal(error), &sentence)
}

fn object(status: u8, refusal: Option<u64>, sentence: &str) -> String {
    json!({"error": {"status": status, "refusal": refusal, "sentence": sentence}}).to_string()
}

/// Ends the process with what is wrong in its arguments, or with the help that they ask for.
pub fn end_with_usage(error: &clap::Error) -> ! {
    let is_json = env::args_os().any(|argument| argument == "--json");
    let is_help = !error.use_stderr() || error.kind() == ErrorKind::DisplayHelpOnMissingArgumentOrSubcommand;
    if is_help || !is_json {
        error.exit();
    }
    let text = error.to_string();
    let lines: Vec<&str> = text.lines().map(str::trim).take_while(|line| !line.is_empty()).collect();
    eprintln!("{}", object(2, None, lines.join(" ").trim_start_matches("error: ")));
    process::exit(2);
}
