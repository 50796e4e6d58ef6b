//! Answers on standard output.

use std::io::{self, Write};

use serde::Serialize;

/// What a command tells: the same for people and as JSON.
pub trait Answer: Serialize {
    /// For people, with its line ends.
    fn text(&self) -> String;
}

/// Prints an answer.
pub fn tell(answer: &impl Answer, as_json: bool) -> anyhow::Result<()> {
    let text = match as_json {
        false => answer.text(),
        true => serde_json::to_string(answer)? + "\n",
    };
    print(text.as_bytes())
}

/// Prints bytes as they are.
pub fn print(bytes: &[u8]) -> anyhow::Result<()> {
    let mut out = io::stdout().lock();
    out.write_all(bytes).and_then(|()| out.flush()).map_err(not_printed)
}

/// For `map_err`: what was printed did not arrive.
pub fn not_printed(error: io::Error) -> anyhow::Error {
    anyhow::Error::new(error).context("cannot write to standard output")
}

/// A bar of `width` columns, filled in proportion; something is shown of whatever is above 0.
pub fn bar(part: u64, whole: u64, width: u64) -> String {
    let eighths = match whole {
        0 => 0,
        _ => (u128::from(part) * u128::from(width) * 8 / u128::from(whole)) as u64,
    };
    let eighths = if part > 0 { eighths.clamp(1, width * 8) } else { 0 };
    let mut text = "█".repeat((eighths / 8) as usize);
    if eighths % 8 > 0 {
        text.push(['▏', '▎', '▍', '▌', '▋', '▊', '▉'][(eighths % 8 - 1) as usize]);
    }
    let used = text.chars().count();
    text + &" ".repeat(width as usize - used)
}

#[cfg(test)]
mod tests {
    use super::bar;

    #[test]
    fn bars() {
        assert_eq!(bar(0, 10, 4), "    ");
        assert_eq!(bar(10, 10, 4), "████");
        assert_eq!(bar(5, 10, 4), "██  ");
        assert_eq!(bar(1, 1_000_000, 4), "▏   ");
        assert_eq!(bar(3, 4, 1), "▊");
        assert_eq!(bar(0, 0, 3), "   ");
    }
}
