//! The head of the page: the name of the volume and what it is.

use super::text::{bytes, commas, count, escape, whole_percent};
use super::{disks, Facts, Growth};

pub fn head(facts: &Facts) -> String {
    format!(
        "<header>\n<p class=\"kind\">Streterva volume report</p>\n<h1>{}</h1>\n\
         <p class=\"about\"><span>Kept in {}</span> <span>Report of {}</span></p>\n\
         {}<dl>\n{}</dl>\n</header>\n",
        escape(&facts.name),
        escape(&facts.form),
        escape(&facts.made),
        state(facts.growth.as_ref()),
        numbers(facts)
    )
}

/// Whether a growth runs, and how much of it is done.
fn state(growth: Option<&Growth>) -> String {
    let Some(growth) = growth.filter(|growth| growth.running) else {
        return "<p class=\"state\">No growth runs</p>\n".into();
    };
    let done = growth.calls_total.saturating_sub(growth.calls_left);
    let percent = whole_percent(done, growth.calls_total);
    let (number, from, to) = (growth.number, growth.from, growth.to);
    format!("<p class=\"state runs\">Growth {number} runs, from {from} to {to} disks: {percent}\u{a0}% done</p>\n")
}

fn numbers(facts: &Facts) -> String {
    let all_bytes = facts.open_blocks.saturating_mul(facts.block_bytes);
    let (short, exact) = (bytes(all_bytes), count(all_bytes, "byte", "bytes"));
    let rest = if short == exact { String::new() } else { exact };
    [
        number("Disks", &commas(disks(facts)), &history(&facts.counts)),
        number("Rows on each disk", &commas(facts.rows), ""),
        number("Block size", &commas(facts.block_bytes), "bytes"),
        number("Open blocks", &commas(facts.open_blocks), ""),
        number("Open data", &short, &rest),
    ]
    .concat()
}

fn number(what: &str, value: &str, more: &str) -> String {
    format!("<div><dt>{what}</dt><dd>{value} <small>{more}</small></dd></div>\n")
}

/// The disk counts of the history: '3 → 5 → 6 disks'.
fn history(counts: &[u64]) -> String {
    if counts.len() < 2 {
        return "no growth".into();
    }
    let counts: Vec<String> = counts.iter().map(|n| commas(*n)).collect();
    format!("{} disks", counts.join(" → "))
}
