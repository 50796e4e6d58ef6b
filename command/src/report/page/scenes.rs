//! What the scene list asks of the disks.

use super::super::bars::{picture, Column, Fill, Line, Part, Picture};
use super::text::{commas, count, escape, tenths};
use super::{disk_headings, disks, entry, figure, paragraph, section, sum, table_room};
use super::{Facts, NamedScene, Scenes};

/// The most scenes in the table.
pub const MOST_SCENES: usize = 40;
/// The characters of a scene's name that stand in one line at least, and at most.
const NAME: (usize, usize) = (6, 24);

/// The section, or nothing if there is no scene list.
pub fn load(facts: &Facts) -> String {
    let Some(scenes) = &facts.scenes else {
        return String::new();
    };
    let disks = disks(facts);
    let about = format!(
        "The list <bdi>{}</bdi> has {}. {}",
        escape(&scenes.source),
        count(scenes.scenes.len() as u64, "scene", "scenes"),
        evenness(&scenes.served, disks)
    );
    let body = paragraph(&about) + &figure(&picture(&bars(&scenes.served, disks))) + &table(scenes, disks);
    section("load", "Load of the scene list", &body)
}

/// How even the load is: the busiest disk against the mean.
fn evenness(served: &[u64], disks: u64) -> String {
    let busiest = (0..disks).rev().max_by_key(|disk| entry(served, *disk)).unwrap_or(0);
    let most = entry(served, busiest);
    let blocks = count(most, "block", "blocks");
    let mean = mean(served, disks);
    if most == 0 {
        return "It asks for no block.".into();
    }
    if mean == most as f64 {
        return format!("The load is even: each disk serves {blocks}.");
    }
    let times = most as f64 / mean;
    format!("The busiest disk, disk {busiest}, serves {blocks}: {times:.2} times the mean of {}.", tenths(mean))
}

/// The blocks that a disk serves in the mean.
fn mean(served: &[u64], disks: u64) -> f64 {
    sum(served) as f64 / disks.max(1) as f64
}

fn bars(served: &[u64], disks: u64) -> Picture {
    let mean = mean(served, disks);
    Picture {
        title: "Blocks that each disk serves".into(),
        panels: vec!["blocks served".into()],
        columns: ["blocks", "times the mean"].map(Column::plain).into(),
        lines: (0..disks).map(|disk| line(entry(served, disk), disk, mean)).collect(),
        sums: Line::sums("all disks", vec![commas(sum(served))]),
        full: 1,
        mark: (mean > 0.0).then(|| (mean, format!("mean {}", tenths(mean)))),
        no_bar: "",
    }
}

fn line(value: u64, disk: u64, mean: f64) -> Line {
    let times = if mean > 0.0 { value as f64 / mean } else { 0.0 };
    Line {
        label: format!("disk {disk}"),
        bars: vec![Some(vec![Part { value, fill: Fill::Plain, what: "blocks" }])],
        numbers: vec![commas(value), format!("{times:.2}")],
    }
}

/// The scenes, at most [`MOST_SCENES`], with the blocks that each takes from each disk.
fn table(scenes: &Scenes, disks: u64) -> String {
    let shown = &scenes.scenes[..scenes.scenes.len().min(MOST_SCENES)];
    if shown.is_empty() {
        return String::new();
    }
    format!(
        "<h3>Blocks that each scene takes from each disk</h3>\n\
         <table class=\"numbers\" style=\"--room: {:.1}\">\n<thead>\n\
         <tr><th rowspan=\"2\" class=\"name\">Scene</th><th rowspan=\"2\">First block</th>\
         <th rowspan=\"2\">Blocks</th><th colspan=\"{}\" class=\"over\">From disk</th></tr>\n\
         <tr>{}</tr>\n</thead>\n<tbody>\n{}</tbody>\n</table>\n{}",
        room(shown, disks),
        disks.max(1),
        disk_headings(disks),
        shown.iter().map(|scene| row(scene, disks)).collect::<String>(),
        left_out(scenes.scenes.len() - shown.len())
    )
}

fn row(scene: &NamedScene, disks: u64) -> String {
    let cells = (0..disks).map(|disk| format!("<td>{}</td>", commas(entry(&scene.served, disk))));
    format!(
        "<tr><th class=\"name\">{}</th><td>{}</td><td>{}</td>{}</tr>\n",
        escape(&scene.name),
        commas(scene.first),
        commas(scene.count),
        cells.collect::<String>()
    )
}

fn left_out(scenes: usize) -> String {
    match scenes {
        0 => String::new(),
        more => paragraph(&format!("and {} more", commas(more as u64))),
    }
}

/// The width that the table needs: the names, and each number as wide as the widest of its kind.
fn room(shown: &[NamedScene], disks: u64) -> f64 {
    let widest = |number: fn(&NamedScene) -> u64| commas(shown.iter().map(number).max().unwrap_or(0)).len();
    let name = shown.iter().map(|scene| scene.name.chars().count()).max().unwrap_or(0);
    let first = widest(|scene| scene.first).max("First".len());
    let blocks = widest(|scene| scene.count).max("Blocks".len());
    let disk = widest(|scene| scene.served.iter().copied().max().unwrap_or(0)).max(2);
    let disks = disks as usize;
    table_room(name.clamp(NAME.0, NAME.1) + first + blocks + disk * disks, disks + 3)
}
