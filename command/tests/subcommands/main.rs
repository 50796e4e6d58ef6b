//! Every subcommand on real files, in both forms: what it tells in words and as JSON, and what it does to the files.

#[path = "../common/mod.rs"]
mod common;

mod blocks;
mod chart;
mod check;
mod create;
mod general;
mod grow;
mod interrupts;
mod records;
mod report;
mod status;
mod transfer;
