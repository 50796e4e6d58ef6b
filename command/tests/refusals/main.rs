//! Every refusal that the command can meet: exit status, number and sentence, in words and as JSON; and that no file is
//! changed by it.

#[path = "../common/mod.rs"]
mod common;

mod declined;
mod drives;
mod files;
mod numbers;
mod usage;
