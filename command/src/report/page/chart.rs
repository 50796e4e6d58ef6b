//! The wall chart: which block is at which spot.

use super::text::commas;
use super::{disk_headings, disks, entry, paragraph, section, table_room, Chart, Facts};

/// The most moves that have a shade of their own.
const MOST_SHADES: u64 = 7;
/// The characters that a cell has room for at least.
const LEAST_CELL: usize = 5;
/// A chart with more rows begins a printed page; one with fewer is not cut.
const MOST_ROWS_IN_PLACE: usize = 16;
/// A chart with more rows takes more than one printed page.
const MOST_ROWS_ON_A_PAGE: usize = 64;

pub fn wall_chart(facts: &Facts) -> String {
    let chart = &facts.chart;
    let disks = disks(facts);
    if chart.rows.is_empty() || disks == 0 {
        return section("whole", "Wall chart", &paragraph("No row is shown."));
    }
    let body = format!(
        "{}{}<table class=\"numbers chart\" style=\"--room: {:.1}; --lines: {:.1}\">\n<thead>\n\
         <tr><th rowspan=\"2\">Row</th><th colspan=\"{disks}\" class=\"over\">Disk</th></tr>\n\
         <tr>{}</tr>\n</thead>\n<tbody>\n{}</tbody>\n</table>\n",
        paragraph(&about(chart, facts.rows)),
        shades(facts.moved.len().saturating_sub(1) as u64),
        room(chart, disks),
        lines(chart.rows.len()),
        disk_headings(disks),
        (0..chart.rows.len()).map(|i| row(chart, i, disks)).collect::<String>()
    );
    let class = if chart.rows.len() > MOST_ROWS_IN_PLACE { "sheet" } else { "whole" };
    section(class, "Wall chart", &body)
}

/// What a cell shows, and which rows are left out.
fn about(chart: &Chart, rows: u64) -> String {
    let about = "The number in a cell is the block at that row of that disk; - is none.";
    let (Some((first, _)), Some((last, _))) = (chart.rows.first(), chart.rows.last()) else {
        return about.into();
    };
    if chart.left_out == 0 {
        return about.into();
    }
    let (first, last, rows) = (commas(*first), commas(*last), commas(rows));
    format!("{about} Rows {first} to {last} of {rows}; the rest: <code>streterva chart --rows</code>")
}

/// What the shades of the cells mean.
fn shades(most: u64) -> String {
    let shades = (0..=most.min(MOST_SHADES)).map(|times| format!(" <span class=\"m{times}\">{times}</span>"));
    format!("<p class=\"shades\">Times that the block was moved:{}</p>\n", shades.collect::<String>())
}

fn row(chart: &Chart, i: usize, disks: u64) -> String {
    let (row, blocks) = &chart.rows[i];
    let moved: &[u64] = chart.moved.get(i).map_or(&[], Vec::as_slice);
    let cells = blocks.iter().zip(0..disks).map(|(block, disk)| cell(*block, entry(moved, disk)));
    format!("<tr><th>{}</th>{}</tr>\n", commas(*row), cells.collect::<String>())
}

fn cell(block: Option<u64>, moved: u64) -> String {
    match block {
        Some(block) => format!("<td class=\"m{}\">{}</td>", moved.min(MOST_SHADES), commas(block)),
        None => "<td class=\"none\">-</td>".into(),
    }
}

/// The height that the table needs on paper, in font sizes. The style sheet works out the font size from it, so that a
/// chart that is not too long fits one page.
fn lines(rows: usize) -> f64 {
    let most = if rows > MOST_ROWS_ON_A_PAGE { MOST_ROWS_IN_PLACE } else { rows };
    1.6 * (most + 3) as f64
}

/// The width that the table needs: each number as wide as the widest.
fn room(chart: &Chart, disks: u64) -> f64 {
    let blocks = chart.rows.iter().flat_map(|(_, blocks)| blocks.iter().flatten());
    let block = commas(blocks.copied().max().unwrap_or(0)).len();
    let row = chart.rows.last().map_or(0, |(row, _)| commas(*row).len());
    let disks = disks as usize;
    table_room(row.max("Row".len()) + block.max(LEAST_CELL) * disks, disks + 1)
}
