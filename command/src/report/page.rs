//! The report on a volume as one HTML page, to look at and to print. It needs no other file, no script and no network.
//! The page is well-formed XML too, but for its first line.

mod chart;
mod growth;
mod head;
mod moves;
mod scenes;
#[cfg(test)]
mod tests;
pub mod text;
#[cfg(test)]
mod well_formed;

use text::escape;

/// All that the page tells.
#[derive(Clone, Debug, Default)]
pub struct Facts {
    pub name: String,
    /// When the report was made, such as 2026-11-17 18:30 UTC.
    pub made: String,
    /// 'one image file' or 'a folder with a file for each disk'.
    pub form: String,
    pub block_bytes: u64,
    pub rows: u64,
    /// N\[0\] to N\[t\]: the disks at format and after each growth.
    pub counts: Vec<u64>,
    pub open_blocks: u64,
    /// The open blocks that live on each disk now.
    pub now: Vec<u64>,
    /// The newest growth.
    pub growth: Option<Growth>,
    /// `moved[k]`: the open blocks that k growths have moved, k from 0 to t.
    pub moved: Vec<u64>,
    pub scenes: Option<Scenes>,
    pub chart: Chart,
}

/// A growth. Each list has one entry for each of the `to` disks.
#[derive(Clone, Debug, Default)]
pub struct Growth {
    pub number: u64,
    pub from: u64,
    pub to: u64,
    pub running: bool,
    pub calls_left: u64,
    pub calls_total: u64,
    /// Windows finished.
    pub window: u64,
    pub windows: u64,
    /// Old blocks that stay on the disk.
    pub stays: Vec<u64>,
    /// Old blocks that the growth brings to the disk.
    pub arrives: Vec<u64>,
    /// Old blocks that leave the disk; 0 for an added disk.
    pub leaves: Vec<u64>,
    /// Blocks that the growth adds on the disk.
    pub added: Vec<u64>,
}

/// A scene list and what it asks of the disks.
#[derive(Clone, Debug, Default)]
pub struct Scenes {
    /// Where the list is from.
    pub source: String,
    pub scenes: Vec<NamedScene>,
    /// The blocks that each disk serves.
    pub served: Vec<u64>,
}

/// A scene: `count` blocks from `first` on.
#[derive(Clone, Debug, Default)]
pub struct NamedScene {
    pub first: u64,
    pub count: u64,
    pub name: String,
    /// The blocks that each disk serves.
    pub served: Vec<u64>,
}

/// Which block is at which spot.
#[derive(Clone, Debug, Default)]
pub struct Chart {
    /// A row and its block on each disk.
    pub rows: Vec<(u64, Vec<Option<u64>>)>,
    /// How often the block at the same place in `rows` was moved; 0 where there is none.
    pub moved: Vec<Vec<u64>>,
    /// The rows of the volume that are not shown.
    pub left_out: u64,
}

/// What every report has near its start.
pub const GENERATOR: &str = "<meta name=\"generator\" content=\"streterva\" />";

/// The page.
pub fn page(facts: &Facts) -> String {
    let sections = [
        growth::before_and_after(facts),
        growth::how_far(facts),
        moves::how_often(facts),
        scenes::load(facts),
        chart::wall_chart(facts),
    ];
    format!(
        "<!DOCTYPE html>\n\
         <html xmlns=\"http://www.w3.org/1999/xhtml\" lang=\"en\">\n<head>\n\
         <meta charset=\"utf-8\" />\n{GENERATOR}\n\
         <meta name=\"viewport\" content=\"width=device-width, initial-scale=1\" />\n\
         <title>{}: Streterva volume report</title>\n\
         <style>\n{}</style>\n</head>\n<body>\n<main>\n{}{}</main>\n</body>\n</html>\n",
        escape(&facts.name),
        include_str!("page/style.css"),
        head::head(facts),
        sections.concat()
    )
}

/// The disks of the volume, those of a growth under way included.
fn disks(facts: &Facts) -> u64 {
    facts.counts.last().copied().unwrap_or(0)
}

/// The entry for disk `disk`; 0 if the list is shorter.
fn entry(list: &[u64], disk: u64) -> u64 {
    usize::try_from(disk).ok().and_then(|i| list.get(i).copied()).unwrap_or(0)
}

/// A section with its heading. The body is HTML; so is the heading. The class is for the style sheet.
fn section(class: &str, heading: &str, body: &str) -> String {
    format!("<section class=\"{class}\">\n<h2>{heading}</h2>\n{body}</section>\n")
}

/// A paragraph. The text is HTML.
fn paragraph(text: &str) -> String {
    format!("<p>{text}</p>\n")
}

/// A picture that is not cut by the end of a printed page.
fn figure(svg: &str) -> String {
    format!("<figure>\n{svg}</figure>\n")
}

/// The sum of a list, at most the largest number.
fn sum(list: &[u64]) -> u64 {
    list.iter().fold(0, |sum, n| sum.saturating_add(*n))
}

/// The heading of a table's column for each disk.
fn disk_headings(disks: u64) -> String {
    (0..disks).map(|disk| format!("<th>{disk}</th>")).collect()
}

/// The width that a table of numbers needs, in font sizes, with these characters in its widest line and these columns.
/// The style sheet works out the font size from it, so that the table fits the page.
fn table_room(characters: usize, columns: usize) -> f64 {
    0.62 * characters as f64 + 0.9 * columns as f64 + 1.0
}
