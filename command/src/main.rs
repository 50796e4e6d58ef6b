//! The command `streterva`: a volume on real files, for the people at the rack.

mod args;
mod blocks;
mod chart;
mod check;
mod create;
#[cfg(test)]
mod documented;
mod failure;
mod files;
mod grow;
mod growth;
mod interrupt;
mod numbers;
mod progress;
mod records;
mod report;
mod scenes;
mod status;
mod tell;
mod transfer;

use std::process::ExitCode;
use std::time::{Duration, Instant};

use clap::{CommandFactory, Parser};
use streterva_store::{end_on_bus_errors, Options};

use crate::args::{Arguments, Command};

/// Between two looks whether another process still has the volume.
const BETWEEN_LOOKS: Duration = Duration::from_millis(20);

fn main() -> ExitCode {
    let arguments = Arguments::try_parse().unwrap_or_else(|error| failure::end_with_usage(&error));
    end_on_bus_errors();
    let done = interrupt::note_requests().and_then(|()| run_in_time(&arguments));
    match done {
        Ok(()) => ExitCode::SUCCESS,
        Err(error) => {
            if !failure::is_silent(&error) {
                eprintln!("{}", failure::told(&error, arguments.general.json));
            }
            ExitCode::from(failure::status(&error))
        }
    }
}

/// Runs the command, and again as long as another process has the volume and there is time to wait.
fn run_in_time(arguments: &Arguments) -> anyhow::Result<()> {
    let end = Instant::now() + Duration::from_secs_f64(arguments.general.wait);
    loop {
        match run(arguments) {
            Err(error) if failure::is_locked(&error) && Instant::now() < end => {
                interrupt::wait_until(end.min(Instant::now() + BETWEEN_LOOKS));
                interrupt::go_on()?;
            }
            told => return told,
        }
    }
}

fn run(arguments: &Arguments) -> anyhow::Result<()> {
    let general = &arguments.general;
    let json = general.json;
    let options = Options::default();
    match &arguments.command {
        Command::Create(of) => create::run(of, &options, json),
        Command::Status(of) => status::run(of, general),
        Command::Examine(of) => records::examine(of, json),
        Command::Grow(of) => grow::grow(of, &options, json),
        Command::Advance(of) => grow::advance(of, &options, general),
        Command::Run(of) => grow::run(of, &options, general),
        Command::Write(of) => blocks::write(of, &options, json),
        Command::Read(of) => blocks::read(of, &options, general),
        Command::Import(of) => transfer::import(of, &options, general),
        Command::Export(of) => transfer::export(of, &options, general),
        Command::Where(of) => blocks::find(of, json),
        Command::Holder(of) => blocks::holder(of, json),
        Command::Load(of) => scenes::load(of, json),
        Command::Chart(of) => chart::run(of, json),
        Command::Check(of) => check::run(of, general),
        Command::BackupRecord(of) => records::backup(of, json),
        Command::RestoreRecord(of) => records::restore_record(of, &options, json),
        Command::Report(of) => report::run(of, json),
        Command::Completions(of) => {
            let mut text = vec![];
            clap_complete::generate(of.shell, &mut Arguments::command(), "streterva", &mut text);
            tell::print(&text)
        }
    }
}
