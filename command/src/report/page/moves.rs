//! How often blocks were moved.

use super::super::bars::{picture, Column, Fill, Line, Part, Picture};
use super::text::{commas, count, percent};
use super::{figure, paragraph, section, sum, Facts};

pub fn how_often(facts: &Facts) -> String {
    let about = format!(
        "The growths of the history made {}. This counts the moves that the history has and is no meter of a drive: \
         a copy that was made again after a power cut counts once.",
        count(moves(&facts.moved), "move", "moves")
    );
    let body = paragraph(&about) + &figure(&picture(&histogram(&facts.moved)));
    section("moves", "How often blocks were moved", &body)
}

/// The moves of all blocks together.
fn moves(moved: &[u64]) -> u64 {
    let lines = moved.iter().zip(0u64..);
    let moves = lines.map(|(blocks, times)| blocks.saturating_mul(times));
    moves.fold(0, u64::saturating_add)
}

fn histogram(moved: &[u64]) -> Picture {
    let all = sum(moved);
    let lines = moved.iter().enumerate();
    Picture {
        title: "How many blocks were moved how often".into(),
        panels: vec!["blocks moved so often".into()],
        columns: ["blocks", "share"].map(Column::plain).into(),
        lines: lines.map(|(times, blocks)| line(times, *blocks, all)).collect(),
        sums: Line::sums("all", vec![commas(all), percent(all, all)]),
        full: all,
        mark: None,
        no_bar: "",
    }
}

fn line(times: usize, blocks: u64, all: u64) -> Line {
    let part = Part { value: blocks, fill: Fill::Moved(times), what: "blocks" };
    Line {
        label: count(times as u64, "time", "times"),
        bars: vec![Some(vec![part])],
        numbers: vec![commas(blocks), percent(blocks, all)],
    }
}
