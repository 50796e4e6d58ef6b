//! Numbers and names as text for the page.

pub use crate::numbers::commas;

/// The text with all that HTML or XML would read as markup escaped. A character that XML does not allow becomes U+FFFD,
/// and a line feed, carriage return or tab becomes a space.
pub fn escape(text: &str) -> String {
    let mut out = String::with_capacity(text.len());
    for c in text.chars() {
        match c {
            '<' => out.push_str("&lt;"),
            '>' => out.push_str("&gt;"),
            '&' => out.push_str("&amp;"),
            '"' => out.push_str("&quot;"),
            '\'' => out.push_str("&#39;"),
            '\n' | '\r' | '\t' => out.push(' '),
            c if c.is_control() || matches!(c, '\u{fffe}' | '\u{ffff}') => out.push('\u{fffd}'),
            c => out.push(c),
        }
    }
    out
}

/// The number and what it counts: '1 block', '2 blocks'.
pub fn count(n: u64, one: &str, more: &str) -> String {
    format!("{} {}", commas(n), if n == 1 { one } else { more })
}

/// The number with one decimal, rounded, and commas between thousands: 1,234.5.
pub fn tenths(n: f64) -> String {
    let tenths = (n * 10.0).round() as u64;
    format!("{}.{}", commas(tenths / 10), tenths % 10)
}

/// The share of the whole in per cent, with one decimal. Only nothing is 0.0 % and only all is 100.0 %.
pub fn percent(part: u64, whole: u64) -> String {
    let share = 100.0 * fraction(part, whole);
    if part > 0 && share < 0.05 {
        return "below\u{a0}0.1\u{a0}%".into();
    }
    if part < whole && share >= 99.95 {
        return "above\u{a0}99.9\u{a0}%".into();
    }
    format!("{share:.1}\u{a0}%")
}

/// The share of the whole in whole per cent, rounded down, so that 100 is said of all only.
pub fn whole_percent(part: u64, whole: u64) -> u64 {
    (u128::from(part) * 100 / u128::from(whole.max(1))) as u64
}

/// The share of the whole; 0 when the whole is 0.
pub fn fraction(part: u64, whole: u64) -> f64 {
    part as f64 / whole.max(1) as f64
}

/// A number of bytes in the largest unit of which there is one: 512 bytes, 18.4 kB, 65.5 GB.
pub fn bytes(n: u64) -> String {
    let units = [("TB", 1e12), ("GB", 1e9), ("MB", 1e6), ("kB", 1e3)];
    match units.iter().find(|(_, unit)| n as f64 >= *unit) {
        Some((name, unit)) => format!("{}\u{a0}{name}", tenths(n as f64 / unit)),
        None => count(n, "byte", "bytes"),
    }
}

#[cfg(test)]
mod tests {
    use super::*;

    #[test]
    fn markup_and_control_characters_are_escaped() {
        let text = "<b class=\"x\">R&D's\u{1b}\u{7f}\n</b>";
        let escaped = "&lt;b class=&quot;x&quot;&gt;R&amp;D&#39;s\u{fffd}\u{fffd} &lt;/b&gt;";
        assert_eq!(escape(text), escaped);
        assert_eq!(escape("Größe → 3"), "Größe → 3");
    }

    #[test]
    fn thousands_have_commas() {
        let shown = [0, 999, 1_000, 16_000_000, u64::MAX].map(commas);
        let expected = ["0", "999", "1,000", "16,000,000", "18,446,744,073,709,551,615"];
        assert_eq!(shown, expected);
        assert_eq!(tenths(1234.56), "1,234.6");
        assert_eq!(count(1, "block", "blocks"), "1 block");
        assert_eq!(count(0, "block", "blocks"), "0 blocks");
    }

    #[test]
    fn only_nothing_is_zero_per_cent_and_only_all_is_a_hundred() {
        assert_eq!(percent(0, 0), "0.0\u{a0}%");
        assert_eq!(percent(2, 5), "40.0\u{a0}%");
        assert_eq!(percent(5, 5), "100.0\u{a0}%");
        assert_eq!(percent(1, 1_000_000), "below\u{a0}0.1\u{a0}%");
        assert_eq!(percent(999_999, 1_000_000), "above\u{a0}99.9\u{a0}%");
        assert_eq!(whole_percent(999_999, 1_000_000), 99);
        assert_eq!(whole_percent(u64::MAX, u64::MAX), 100);
        assert_eq!(whole_percent(0, 0), 0);
    }

    #[test]
    fn bytes_are_in_decimal_units() {
        let shown = [1, 512, 18_432, 1_048_576_000_000].map(bytes);
        assert_eq!(shown, ["1 byte", "512 bytes", "18.4\u{a0}kB", "1.0\u{a0}TB"]);
    }
}
