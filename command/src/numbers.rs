//! Numbers as people write and read them.

/// A number of bytes: digits, and K, M or G for 1024, 1024² and 1024³ of them.
pub fn parse_bytes(text: &str) -> Result<u64, String> {
    let (digits, unit) = match text.char_indices().last() {
        Some((at, 'K' | 'k')) => (&text[..at], 1 << 10),
        Some((at, 'M' | 'm')) => (&text[..at], 1 << 20),
        Some((at, 'G' | 'g')) => (&text[..at], 1 << 30),
        _ => (text, 1),
    };
    let number: u64 = digits.parse().map_err(|_| "a number is expected, with K, M or G behind it if wanted")?;
    number.checked_mul(unit).ok_or_else(|| "the number is too large".to_string())
}

/// Bytes in a second, at least one.
pub fn parse_rate(text: &str) -> Result<u64, String> {
    match parse_bytes(text)? {
        0 => Err("a rate is at least 1".to_string()),
        rate => Ok(rate),
    }
}

/// A time in seconds, with a decimal point if wanted; at most a year.
pub fn parse_seconds(text: &str) -> Result<f64, String> {
    match text.parse::<f64>() {
        Ok(seconds) if (0.0..=31_536_000.0).contains(&seconds) => Ok(seconds),
        _ => Err("a number of seconds is expected".to_string()),
    }
}

/// Rows A-B, or one row.
pub fn parse_rows(text: &str) -> Result<(u64, u64), String> {
    let (first, last) = text.split_once('-').unwrap_or((text, text));
    match (first.parse(), last.parse()) {
        (Ok(first), Ok(last)) if first <= last => Ok((first, last)),
        (Ok(_), Ok(_)) => Err("the second row is below the first".to_string()),
        _ => Err("two rows are expected, as in 0-99".to_string()),
    }
}

/// With commas: 65,536.
pub fn commas(number: u64) -> String {
    let digits = number.to_string();
    let mut text = String::new();
    for (place, digit) in digits.chars().enumerate() {
        if place > 0 && (digits.len() - place).is_multiple_of(3) {
            text.push(',');
        }
        text.push(digit);
    }
    text
}

/// A count with its word: 1 disk, 3 disks.
pub fn counted(number: u64, word: &str) -> String {
    let plural = if number == 1 { "" } else { "s" };
    format!("{} {word}{plural}", commas(number))
}

/// `part` of `whole` in per cent, with one decimal and never rounded up to 100.
pub fn per_cent(part: u64, whole: u64) -> f64 {
    if whole == 0 {
        return 0.0;
    }
    (1000 * u128::from(part) / u128::from(whole)) as f64 / 10.0
}

#[cfg(test)]
mod tests {
    use super::*;

    #[test]
    fn bytes_with_units() {
        assert_eq!(parse_bytes("64K"), Ok(65_536));
        assert_eq!(parse_bytes("512"), Ok(512));
        assert_eq!(parse_bytes("3m"), Ok(3 << 20));
        assert_eq!(parse_bytes("2G"), Ok(2 << 30));
        for wrong in ["", "K", "-1", "1.5K", "64KB", "x", "99999999999999999999", "99999999999999999G", "é"] {
            assert!(parse_bytes(wrong).is_err(), "{wrong}");
        }
        assert!(parse_rate("0").is_err());
    }

    #[test]
    fn rows_and_seconds() {
        assert_eq!(parse_rows("3-9"), Ok((3, 9)));
        assert_eq!(parse_rows("7"), Ok((7, 7)));
        for wrong in ["9-3", "", "-", "a-b", "1-2-3", "-4"] {
            assert!(parse_rows(wrong).is_err(), "{wrong}");
        }
        assert_eq!(parse_seconds("0.5"), Ok(0.5));
        for wrong in ["-1", "x", "NaN", "inf", "1e9"] {
            assert!(parse_seconds(wrong).is_err(), "{wrong}");
        }
    }

    #[test]
    fn people_read() {
        assert_eq!(commas(0), "0");
        assert_eq!(commas(999), "999");
        assert_eq!(commas(1_000_000), "1,000,000");
        assert_eq!(counted(1, "disk"), "1 disk");
        assert_eq!(counted(1_500, "block"), "1,500 blocks");
        assert_eq!(per_cent(2, 3), 66.6);
        assert_eq!(per_cent(9_999, 10_000), 99.9);
        assert_eq!(per_cent(0, 0), 0.0);
    }
}
