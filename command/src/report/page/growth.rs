//! The newest growth: the blocks on each disk before and after it, and how far it is.

use super::super::bars::{picture, progress, Column, Fill, Line, Part, Picture};
use super::text::{commas, count, percent, whole_percent};
use super::{disks, entry, figure, paragraph, section, sum, Facts, Growth};

/// The blocks on each disk before and after the newest growth; the blocks now if there was none.
pub fn before_and_after(facts: &Facts) -> String {
    let Some(growth) = &facts.growth else {
        let picture = figure(&picture(&now(facts)));
        return section("blocks", "Blocks on each disk", &picture);
    };
    let number = growth.number;
    let heading = format!("Blocks on each disk before and after growth {number}");
    let body = paragraph(&what_moves(growth)) + &figure(&picture(&both(growth)));
    section("blocks", &heading, &body)
}

/// How far the newest growth is, and the blocks on each disk now.
pub fn how_far(facts: &Facts) -> String {
    let heading = "How far the growth is";
    let Some(growth) = &facts.growth else {
        return section("far", heading, &paragraph("The history has no growth."));
    };
    let (done, total) = done(growth);
    let percent = format!("{}\u{a0}%", whole_percent(done, total));
    let title = format!("Growth {}: {percent} done", growth.number);
    let body = format!(
        "<p class=\"percent\"><strong>{percent}</strong> {}</p>\n{}<h3>Blocks on each disk now</h3>\n{}",
        how_far_text(growth),
        figure(&progress(&title, done, total)),
        figure(&picture(&now(facts)))
    );
    section("far", heading, &body)
}

/// The calls made and all calls. A growth that does not run is done.
fn done(growth: &Growth) -> (u64, u64) {
    let left = if growth.running { growth.calls_left } else { 0 };
    let total = growth.calls_total.max(1);
    (total.saturating_sub(left), total)
}

fn how_far_text(growth: &Growth) -> String {
    let (from, to) = (growth.from, growth.to);
    let windows = count(growth.windows, "window", "windows");
    let total = count(growth.calls_total, "advance call", "advance calls");
    let name = format!("Growth {}, from {from} to {to} disks", growth.number);
    if !growth.running {
        return format!("{name}, is finished: {windows}, {total}.");
    }
    let (left, window) = (commas(growth.calls_left), commas(growth.window));
    format!(
        "{name}: {left} of {total} left, {window} of {windows} finished. \
         The blocks that the growth adds open when it is finished."
    )
}

fn what_moves(growth: &Growth) -> String {
    let (stay, leave) = (sum(&growth.stays), sum(&growth.leaves));
    let old = stay.saturating_add(leave);
    let about_after = match growth.running {
        true => " The growth runs; 'after' is when it is finished.",
        false => "",
    };
    format!(
        "From {} to {} disks. {}: {} in place, {} ({}) to added disks, each within its row. \
         The growth adds {}.{about_after}",
        growth.from,
        growth.to,
        count(old, "old block", "old blocks"),
        count(stay, "stays", "stay"),
        count(leave, "moves", "move"),
        percent(leave, old),
        count(sum(&growth.added), "block", "blocks")
    )
}

/// The open blocks on each disk now.
fn now(facts: &Facts) -> Picture {
    let all_spots = facts.rows.saturating_mul(disks(facts));
    let spots = count(facts.rows, "spot", "spots");
    Picture {
        title: "Open blocks on each disk now".into(),
        panels: vec![format!("open blocks, of {spots} on each disk")],
        columns: ["blocks", "of the spots"].map(Column::plain).into(),
        lines: (0..disks(facts)).map(|disk| now_line(facts, disk)).collect(),
        sums: Line::sums("all disks", vec![commas(sum(&facts.now)), percent(sum(&facts.now), all_spots)]),
        full: facts.rows,
        mark: None,
        no_bar: "",
    }
}

fn now_line(facts: &Facts, disk: u64) -> Line {
    let value = entry(&facts.now, disk);
    let part = Part { value, fill: Fill::Plain, what: "open blocks" };
    Line {
        label: format!("disk {disk}"),
        bars: vec![Some(vec![part])],
        numbers: vec![commas(value), percent(value, facts.rows)],
    }
}

/// What the growth does with the blocks of a disk: the colour, the word in the heading, and the entries of all disks.
fn kinds(growth: &Growth) -> [(Fill, &'static str, &[u64]); 4] {
    [
        (Fill::Stays, "stay", &growth.stays),
        (Fill::Leaves, "leave", &growth.leaves),
        (Fill::Arrives, "arrive", &growth.arrives),
        (Fill::Added, "added", &growth.added),
    ]
}

/// The blocks on each disk before the growth and after it, side by side.
fn both(growth: &Growth) -> Picture {
    let (from, to) = (growth.from, growth.to);
    let column = |(fill, heading, _): (Fill, _, _)| Column { heading, fill: Some(fill) };
    let all = |(_, _, list): (_, _, &[u64])| commas(sum(list));
    Picture {
        title: format!("Blocks on each disk before and after growth {}", growth.number),
        panels: vec![
            format!("before: {}", count(from, "disk", "disks")),
            format!("after: {}", count(to, "disk", "disks")),
        ],
        columns: kinds(growth).map(column).into(),
        lines: (0..to).map(|disk| both_line(growth, disk)).collect(),
        sums: Line::sums("all disks", kinds(growth).map(all).into()),
        full: 1,
        mark: None,
        no_bar: "not in the volume",
    }
}

fn both_line(growth: &Growth, disk: u64) -> Line {
    let part = |(fill, what, list): (Fill, &'static str, &[u64])| Part { value: entry(list, disk), fill, what };
    let [stays, leaves, arrives, added] = kinds(growth).map(part);
    let numbers = [&stays, &leaves, &arrives, &added].map(|part| commas(part.value));
    let before = (disk < growth.from).then(|| vec![stays.clone(), leaves]);
    Line {
        label: format!("disk {disk}"),
        bars: vec![before, Some(vec![stays, arrives, added])],
        numbers: numbers.into(),
    }
}
