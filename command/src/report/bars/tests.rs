use super::shapes::colour;
use super::*;

/// A picture with one panel, a line for each bar and the parts of each bar in the colours of a growth.
fn bars(bars: &[&[u64]], full: u64) -> Picture {
    let fills = [Fill::Stays, Fill::Arrives, Fill::Added];
    let part = |(value, fill): (&u64, Fill)| Part { value: *value, fill, what: "blocks" };
    let line = |values: &&[u64]| Line {
        label: "disk 0".into(),
        bars: vec![Some(values.iter().zip(fills).map(part).collect())],
        numbers: values.iter().map(|value| commas(*value)).collect(),
    };
    Picture {
        title: "Blocks".into(),
        panels: vec!["now".into()],
        columns: fills.map(|fill| Column { heading: "blocks", fill: Some(fill) }).into(),
        lines: bars.iter().map(line).collect(),
        sums: Line::sums("all", Vec::new()),
        full,
        mark: None,
        no_bar: "",
    }
}

/// The values of an attribute of all rectangles that are as high as a bar and have one of the colours.
fn of_bars(svg: &str, attribute: &str, fills: &[Fill]) -> Vec<f64> {
    let value = |shape: &str, name: &str| shape.split_once(&format!(" {name}=\"")).map(|(_, rest)| before_quote(rest));
    let is_bar = |shape: &&str| value(shape, "height") == Some(format!("{BAR:.2}"));
    let has_colour = |shape: &&str| fills.iter().any(|fill| value(shape, "fill").as_deref() == Some(colour(*fill)));
    let shapes = svg.split("<rect").skip(1).filter(is_bar).filter(has_colour);
    shapes.filter_map(|shape| value(shape, attribute)?.parse().ok()).collect()
}

fn before_quote(text: &str) -> String {
    text.split('"').next().unwrap_or_default().to_string()
}

fn about_equal(a: f64, b: f64) -> bool {
    (a - b).abs() < 0.02
}

#[test]
fn the_length_of_a_bar_is_in_proportion_to_its_value() {
    let svg = picture(&bars(&[&[10], &[30], &[0], &[60]], 120));
    let track = of_bars(&svg, "width", &[Fill::Track]);
    let lengths = of_bars(&svg, "width", &[Fill::Stays]);
    assert_eq!(track.len(), 4);
    assert_eq!(lengths.len(), 3, "a bar of nothing is not drawn");
    assert!(about_equal(lengths[0], track[0] * 10.0 / 120.0));
    assert!(about_equal(lengths[1], track[0] * 30.0 / 120.0));
    assert!(about_equal(lengths[2], track[0] * 60.0 / 120.0));
}

#[test]
fn the_parts_of_a_bar_lie_end_to_end_and_the_longest_bar_fills_its_track() {
    let svg = picture(&bars(&[&[500_000, 250_000, 250_000]], 1));
    let parts = [Fill::Stays, Fill::Arrives, Fill::Added];
    let (lengths, starts) = (of_bars(&svg, "width", &parts), of_bars(&svg, "x", &parts));
    let track = of_bars(&svg, "width", &[Fill::Track])[0];
    assert!(about_equal(lengths[0], track / 2.0) && about_equal(lengths[1], track / 4.0));
    assert!(about_equal(starts[1], starts[0] + lengths[0]));
    assert!(about_equal(starts[2], starts[1] + lengths[1]));
    assert!(about_equal(starts[2] + lengths[2], starts[0] + track));
}

#[test]
fn a_picture_of_nothing_has_finite_numbers() {
    let nothing = picture(&bars(&[], 0));
    let mark = Some((0.0, "mean 0.0".into()));
    let zeros = picture(&Picture { mark, ..bars(&[&[0, 0, 0], &[0]], 0) });
    let huge = picture(&bars(&[&[u64::MAX, u64::MAX], &[1]], 0));
    let text = nothing + &zeros + &huge + &progress("Growth", 0, 0);
    assert!(!text.contains("NaN") && !text.contains("inf"));
    assert!(!text.contains("=\"-"), "no negative coordinate or size");
}

#[test]
fn the_part_that_is_done_fills_its_share_of_the_progress_bar() {
    let svg = progress("Growth 1", 2, 5);
    assert!(svg.contains(&format!("width=\"{:.2}\"", WIDTH * 0.4)));
    let beyond = progress("Growth 1", 7, 5);
    assert_eq!(beyond.matches(&format!("width=\"{WIDTH:.2}\"")).count(), 2);
}

#[test]
fn the_mark_is_at_its_value() {
    let mut of = bars(&[&[40], &[80]], 1);
    of.mark = Some((60.0, "mean 60.0".into()));
    let svg = picture(&of);
    let (start, track) = (of_bars(&svg, "x", &[Fill::Track])[0], of_bars(&svg, "width", &[Fill::Track])[0]);
    assert!(svg.contains(&format!("<line x1=\"{:.2}\"", start + track * 0.75)));
    assert!(svg.contains(">mean 60.0</text>"));
}

#[test]
fn columns_do_not_overlap() {
    let of = bars(&[&[16_000_000, 16_000_000, 16_000_000]], 1);
    let at = layout(&of);
    let room = width_of("16,000,000");
    assert!(at.columns[0] - room >= at.panels[0] + at.bar);
    assert!(at.columns[1] - room >= at.columns[0]);
    assert!(at.columns[2] <= at.width + 0.01);
}

#[test]
fn the_wall_chart_has_the_colours_of_the_picture_of_moves() {
    let style = include_str!("../page/style.css");
    let rule = |times: usize| format!(".m{times} {{ background: {};", colour(Fill::Moved(times)));
    assert!((1..8).all(|times| style.contains(&rule(times))));
}
