//! Pictures as SVG text: lines that have a label, horizontal bars and numbers; and a progress bar.

mod shapes;
#[cfg(test)]
mod tests;

use super::page::text::{commas, fraction};
pub use shapes::Fill;
use shapes::{dashed, rectangle, rule, svg, text, FAINT_INK, FONT, INK};

/// The width of a picture in its own units. The page scales it to the room there is.
const WIDTH: f64 = 860.0;
/// The least width of a bar of full length. A picture whose numbers leave less room is made wider.
const LEAST_BAR: f64 = 120.0;
/// The height of a line, and of the bar in it.
const LINE: f64 = 34.0;
const BAR: f64 = 23.0;
/// Room between the panels of a picture, and to the left of each column of numbers.
const GAP: f64 = 26.0;
const COLUMN_GAP: f64 = 19.0;
/// The height at which headings stand.
const HEADING: f64 = 19.0;
/// The size of the sample of a colour below a heading.
const SAMPLE: (f64, f64) = (44.0, 7.0);

/// One part of a bar.
#[derive(Clone, Debug)]
pub struct Part {
    pub value: u64,
    pub fill: Fill,
    /// What the value counts, for the text that a browser shows over the part.
    pub what: &'static str,
}

/// One line of a picture: a bar for each panel, or none; and a number for each column.
#[derive(Clone, Debug)]
pub struct Line {
    pub label: String,
    pub bars: Vec<Option<Vec<Part>>>,
    pub numbers: Vec<String>,
}

impl Line {
    /// A line of sums: it has no bars.
    pub fn sums(label: &str, numbers: Vec<String>) -> Line {
        Line { label: label.into(), bars: Vec::new(), numbers }
    }
}

/// The heading of a column of numbers, with the colour of the parts that they count.
#[derive(Clone, Debug)]
pub struct Column {
    pub heading: &'static str,
    pub fill: Option<Fill>,
}

impl Column {
    /// A column without a colour.
    pub fn plain(heading: &'static str) -> Column {
        Column { heading, fill: None }
    }
}

/// A picture: panels of bars with their headings, columns of numbers beside them.
#[derive(Clone, Debug)]
pub struct Picture {
    pub title: String,
    pub panels: Vec<String>,
    pub columns: Vec<Column>,
    pub lines: Vec<Line>,
    /// The last line, below a rule.
    pub sums: Line,
    /// The value of a bar of full length; a greater one in the lines takes its place.
    pub full: u64,
    /// A value that is marked by a line across the bars of the first panel, with its text.
    pub mark: Option<(f64, String)>,
    /// What stands where a panel has no bar.
    pub no_bar: &'static str,
}

/// Where the panels and columns of a picture are.
struct Layout {
    width: f64,
    height: f64,
    /// The left edge of each panel.
    panels: Vec<f64>,
    /// The length of a full bar.
    bar: f64,
    /// The right edge of each column.
    columns: Vec<f64>,
    full: u64,
}

/// The picture as an SVG element.
pub fn picture(of: &Picture) -> String {
    let at = layout(of);
    let mut body = headings(of, &at);
    for (i, line) in of.lines.iter().enumerate() {
        body += &drawn_line(of, &at, line, LINE * (i + 1) as f64);
    }
    let end = LINE * (of.lines.len() + 1) as f64;
    body += &rule(end + 1.0, at.width);
    body += &drawn_line(of, &at, &of.sums, end + 3.0);
    if let Some((value, text)) = &of.mark {
        body += &marked(&at, *value, text, end);
    }
    svg(&of.title, at.width, at.height, &body)
}

/// A bar of which the part that is done is filled.
pub fn progress(title: &str, done: u64, total: u64) -> String {
    let height = 40.0;
    let width = WIDTH * fraction(done.min(total), total);
    let track = rectangle(0.0, 0.0, WIDTH, height, Fill::Track, "");
    let filled = rectangle(0.0, 0.0, width, height, Fill::Plain, "");
    svg(title, WIDTH, height, &(track + &filled))
}

fn layout(of: &Picture) -> Layout {
    let label = room(of.lines.iter().chain([&of.sums]).map(|line| line.label.as_str()));
    let columns: Vec<f64> = (0..of.columns.len()).map(|i| column_room(of, i)).collect();
    let panels = of.panels.len().max(1) as f64;
    let rest = WIDTH - label - columns.iter().sum::<f64>();
    let bar = (rest / panels - GAP).max(LEAST_BAR);
    let numbers = label + panels * (bar + GAP);
    Layout {
        width: numbers + columns.iter().sum::<f64>(),
        height: LINE * (of.lines.len() + 2) as f64 + 4.0,
        panels: (0..of.panels.len()).map(|i| label + i as f64 * (bar + GAP) + GAP / 2.0).collect(),
        bar,
        columns: right_edges(numbers, &columns),
        full: of.lines.iter().map(longest).max().unwrap_or(0).max(of.full),
    }
}

/// The right edges of columns that stand side by side from `start` on.
fn right_edges(start: f64, widths: &[f64]) -> Vec<f64> {
    let edge = |end: &mut f64, width: &f64| {
        *end += width;
        Some(*end)
    };
    widths.iter().scan(start, edge).collect()
}

/// The room that the widest of the texts takes.
fn room<'a>(texts: impl Iterator<Item = &'a str>) -> f64 {
    texts.map(width_of).fold(0.0, f64::max)
}

/// About the width of a text, in a font as wide as the widest common ones.
fn width_of(text: &str) -> f64 {
    let width = |c| match c {
        ',' | '.' | ' ' | '\u{a0}' | 'i' | 'l' | 't' => 0.35,
        '%' | 'm' | 'w' => 0.95,
        _ => 0.64,
    };
    FONT * text.chars().map(width).sum::<f64>()
}

/// The room for column `i`: its heading and its numbers.
fn column_room(of: &Picture, i: usize) -> f64 {
    let lines = of.lines.iter().chain([&of.sums]);
    let numbers = room(lines.filter_map(|line| line.numbers.get(i).map(String::as_str)));
    numbers.max(width_of(of.columns[i].heading)) + COLUMN_GAP
}

/// The value of the line's longest bar.
fn longest(line: &Line) -> u64 {
    let sum = |bar: &Vec<Part>| bar.iter().fold(0, |sum: u64, part| sum.saturating_add(part.value));
    line.bars.iter().flatten().map(sum).max().unwrap_or(0)
}

fn headings(of: &Picture, at: &Layout) -> String {
    let panels = of.panels.iter().zip(&at.panels);
    let columns = of.columns.iter().zip(&at.columns);
    let over_bars = panels.map(|(heading, x)| text(*x, HEADING, "start", FAINT_INK, heading));
    over_bars.chain(columns.map(|(column, end)| column_heading(column, *end))).collect()
}

/// A heading that ends at `end`, with a sample of the column's colour below it.
fn column_heading(column: &Column, end: f64) -> String {
    let sample = column.fill.map(|fill| {
        let (width, height) = SAMPLE;
        rectangle(end - width, 25.0, width, height, fill, "")
    });
    text(end, HEADING, "end", FAINT_INK, column.heading) + &sample.unwrap_or_default()
}

/// A line whose upper edge is at `y`: label, bars and numbers.
fn drawn_line(of: &Picture, at: &Layout, line: &Line, y: f64) -> String {
    let base = baseline(y);
    let label = text(0.0, base, "start", INK, &line.label);
    let bars = line.bars.iter().zip(&at.panels);
    let drawn = bars.map(|(bar, x)| match bar {
        Some(parts) => drawn_bar(at, &line.label, parts, *x, y + (LINE - BAR) / 2.0),
        None => text(*x, base, "start", FAINT_INK, of.no_bar),
    });
    let numbers = line.numbers.iter().zip(&at.columns);
    let shown = numbers.map(|(number, end)| text(*end, base, "end", INK, number));
    label + &drawn.chain(shown).collect::<String>()
}

/// The height of the text in a line whose upper edge is at `y`.
fn baseline(y: f64) -> f64 {
    y + LINE / 2.0 + FONT * 0.35
}

/// The parts of a bar, end to end, on a track of full length.
fn drawn_bar(at: &Layout, label: &str, parts: &[Part], x: f64, y: f64) -> String {
    let mut out = rectangle(x, y, at.bar, BAR, Fill::Track, "");
    let mut start = x;
    for part in parts.iter().filter(|part| part.value > 0) {
        let width = at.bar * fraction(part.value, at.full);
        let about = format!("{label}: {} {}", commas(part.value), part.what);
        out += &rectangle(start, y, width, BAR, part.fill, &about);
        start += width;
    }
    out
}

/// A dashed line across the bars of the first panel, its text below.
fn marked(at: &Layout, value: f64, about: &str, bottom: f64) -> String {
    let left = at.panels.first().copied().unwrap_or(0.0);
    let x = left + at.bar * (value / at.full.max(1) as f64).clamp(0.0, 1.0);
    let half = width_of(about) / 2.0;
    let middle = x.max(left + half).min(left + at.bar - half);
    dashed(x, LINE, bottom) + &text(middle, baseline(bottom + 3.0), "middle", INK, about)
}
