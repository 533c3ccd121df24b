//! Names and numbers as they stand in pictures.

const MOST_NAME: usize = 40;

/// A name that fits, in characters that can be shown.
pub fn shortened(name: &str) -> String {
    let shown: Vec<char> = name
        .chars()
        .map(|c| if c.is_control() { '?' } else { c })
        .collect();
    if shown.len() <= MOST_NAME {
        return shown.into_iter().collect();
    }
    shown[..MOST_NAME - 1].iter().chain(&['\u{2026}']).collect()
}

/// A number with a comma ahead of each three digits.
pub fn grouped(number: u64) -> String {
    match number {
        0..=999 => number.to_string(),
        _ => format!("{},{:03}", grouped(number / 1000), number % 1000),
    }
}

#[cfg(test)]
mod tests {
    use super::*;

    #[test]
    fn names_that_fit() {
        assert_eq!(shortened("a\u{1}b"), "a?b");
        let long = "n".repeat(41);
        assert_eq!(shortened(&long[..40]), long[..40]);
        assert_eq!(shortened(&long), format!("{}\u{2026}", &long[..39]));
    }

    #[test]
    fn commas() {
        let said: Vec<String> = [0, 12, 999, 1000, 4352, 1034067].map(grouped).to_vec();
        assert_eq!(said, ["0", "12", "999", "1,000", "4,352", "1,034,067"]);
    }
}
