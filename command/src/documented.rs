//! The man page names every command and every option, and no others.

use clap::{Command, CommandFactory};

use crate::args::Arguments;

/// The man page without its markup.
fn man_page() -> String {
    let path = concat!(env!("CARGO_MANIFEST_DIR"), "/man/streterva.1");
    let page = std::fs::read_to_string(path).expect("the man page");
    page.replace("\\-", "-").replace("\\fB", "").replace("\\fI", "").replace("\\fR", "")
}

/// The lines of the page about this command: from its heading to the next one.
fn lines_of(name: &str, page: &str) -> String {
    let heading = format!(".BI {name} ");
    let mut lines = page.lines().skip_while(|line| !line.starts_with(&heading));
    let first = lines.next().unwrap_or_else(|| panic!("no heading of {name}"));
    let rest: Vec<&str> = lines.take_while(|line| !line.starts_with(".BI ") && !line.starts_with(".SH")).collect();
    format!("{first}\n{}", rest.join("\n"))
}

fn long_options(command: &Command) -> Vec<String> {
    let options = command.get_arguments().filter(|argument| !argument.is_global_set());
    options.filter_map(|argument| argument.get_long().map(|long| format!("--{long}"))).collect()
}

#[test]
fn every_option_is_in_the_man_page() {
    let page = man_page();
    let all = Arguments::command();
    for command in all.get_subcommands() {
        let lines = lines_of(command.get_name(), &page);
        for option in long_options(command) {
            assert!(lines.contains(&option), "{} {option}", command.get_name());
        }
        assert!(command.get_about().is_some(), "{} has no help", command.get_name());
    }
    for option in ["--json", "--quiet", "--wait", "--help", "--version"] {
        assert!(page.contains(option), "{option}");
    }
}

#[test]
fn every_option_of_the_man_page_exists() {
    let page = man_page();
    let all = Arguments::command();
    let mut known: Vec<String> = all.get_subcommands().flat_map(long_options).collect();
    known.extend(["--json", "--quiet", "--wait", "--help", "--version"].map(String::from));
    let ends = |c: char| !(c.is_ascii_lowercase() || c == '-');
    let named = page.split(ends).filter(|word| word.starts_with("--") && word.len() > 2);
    for option in named {
        assert!(known.iter().any(|one| one == option), "{option} is no option");
    }
}

#[test]
fn arguments_are_consistent() {
    Arguments::command().debug_assert();
}
