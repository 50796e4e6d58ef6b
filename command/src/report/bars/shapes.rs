//! The shapes that pictures are made of, and their colours.

use super::super::page::text::escape;

/// The size of the text in a picture.
pub const FONT: f64 = 17.0;
/// The colours of text.
pub const INK: &str = "#1f2933";
pub const FAINT_INK: &str = "#566472";
const RULE: &str = "#c8d0d9";
const PAPER: &str = "#fff";
/// A rectangle that is narrower has no edge, which would cover it.
const LEAST_WITH_EDGE: f64 = 4.0;

/// What a bar shows; it decides the colour. The colours differ in lightness as well as in hue, so they can be told
/// apart by people who see fewer hues, and on paper without colour.
#[derive(Clone, Copy, Debug, PartialEq, Eq)]
pub enum Fill {
    /// What a full bar would cover.
    Track,
    Plain,
    Stays,
    Leaves,
    Arrives,
    Added,
    /// Blocks that were moved so many times.
    Moved(usize),
}

/// The colour of a fill.
pub fn colour(fill: Fill) -> &'static str {
    const MOVED: [&str; 8] = ["#3d6a9e", "#f7bd5a", "#e8931a", "#a85e00", "#874700", "#683300", "#4b2300", "#301500"];
    match fill {
        Fill::Track => "#edf0f4",
        Fill::Plain => "#657d99",
        Fill::Stays => "#3d6a9e",
        Fill::Leaves => "#fbe0b0",
        Fill::Arrives => "#ea9a1c",
        Fill::Added => "#93d3c3",
        Fill::Moved(times) => MOVED[times.min(MOVED.len() - 1)],
    }
}

/// The SVG element with this title, size and content.
pub fn svg(title: &str, width: f64, height: f64, body: &str) -> String {
    let title = escape(title);
    format!(
        "<svg xmlns=\"http://www.w3.org/2000/svg\" viewBox=\"0 0 {width:.0} {height:.0}\" role=\"group\" \
         aria-label=\"{title}\" font-size=\"{FONT}\"><title>{title}</title>\n{body}</svg>\n"
    )
}

/// A rectangle, with a text that a browser shows over it unless the text is empty. Blocks that leave are a pale area
/// with an edge in the colour of those that arrive.
pub fn rectangle(x: f64, y: f64, width: f64, height: f64, fill: Fill, about: &str) -> String {
    let edge = match fill {
        _ if width < LEAST_WITH_EDGE => "none",
        Fill::Leaves => colour(Fill::Arrives),
        _ => PAPER,
    };
    let title = match about {
        "" => String::new(),
        about => format!("<title>{}</title>", escape(about)),
    };
    format!(
        "<rect x=\"{x:.2}\" y=\"{y:.2}\" width=\"{width:.2}\" height=\"{height:.2}\" rx=\"2\" fill=\"{}\" \
         stroke=\"{edge}\">{title}</rect>\n",
        colour(fill)
    )
}

/// Words whose start, middle or end, as `anchor` says, is at `x`.
pub fn text(x: f64, y: f64, anchor: &str, colour: &str, words: &str) -> String {
    let words = escape(words);
    format!("<text x=\"{x:.2}\" y=\"{y:.2}\" text-anchor=\"{anchor}\" fill=\"{colour}\">{words}</text>\n")
}

/// A thin horizontal line from the left edge to `end`.
pub fn rule(y: f64, end: f64) -> String {
    format!("<line x1=\"0\" y1=\"{y:.2}\" x2=\"{end:.2}\" y2=\"{y:.2}\" stroke=\"{RULE}\" />\n")
}

/// A dashed vertical line.
pub fn dashed(x: f64, top: f64, bottom: f64) -> String {
    format!(
        "<line x1=\"{x:.2}\" y1=\"{top:.2}\" x2=\"{x:.2}\" y2=\"{bottom:.2}\" stroke=\"{INK}\" \
         stroke-width=\"2\" stroke-dasharray=\"5 4\" />\n"
    )
}
