//! The lines that a program prints, taken one by one.

use std::fmt;

/// Why there is nothing to draw.
#[derive(Debug, PartialEq, Eq)]
pub enum Failure {
    /// The program refused: the list, the library, or what it was asked.
    Refused(u64),
    /// The lines end, and this should follow.
    CutOff(String),
    /// This line, counted from 1, should be another.
    Line {
        number: usize,
        found: String,
        wanted: String,
    },
}

impl Failure {
    /// Of a long line only the front is told.
    pub fn line(number: usize, found: &str, wanted: &str) -> Failure {
        Failure::Line {
            number,
            found: found.chars().take(40).collect(),
            wanted: wanted.to_string(),
        }
    }
}

impl fmt::Display for Failure {
    fn fmt(&self, f: &mut fmt::Formatter) -> fmt::Result {
        match self {
            Failure::Refused(refusal) => write!(f, "refused {refusal}"),
            Failure::CutOff(wanted) => write!(f, "cut off: {wanted} should follow"),
            Failure::Line {
                number,
                found,
                wanted,
            } => write!(f, "line {number} is `{found}`, and should be {wanted}"),
        }
    }
}

/// The lines that are left, and how many were taken.
#[derive(Clone)]
pub struct Lines<'a> {
    text: &'a str,
    number: usize,
}

impl<'a> Lines<'a> {
    /// All lines of a text, where it isn't the one line of a refusal.
    pub fn of(text: &'a str) -> Result<Lines<'a>, Failure> {
        let lines = Lines { text, number: 0 };
        let mut ahead = lines.clone();
        if let Ok(refusal) = ahead.take("`refused N`", |line| named("refused", line)) {
            ahead.end()?;
            return Err(Failure::Refused(refusal));
        }
        Ok(lines)
    }

    /// The next line, if it is whole.
    pub fn ahead(&self) -> Option<&'a str> {
        self.text.split_once('\n').map(|(line, _)| line)
    }

    /// What the next line says; a failure where it isn't what is wanted.
    pub fn take<T>(
        &mut self,
        wanted: &str,
        says: impl FnOnce(&str) -> Option<T>,
    ) -> Result<T, Failure> {
        let Some((line, rest)) = self.text.split_once('\n') else {
            return Err(Failure::CutOff(wanted.to_string()));
        };
        (self.text, self.number) = (rest, self.number + 1);
        says(line).ok_or_else(|| Failure::line(self.number, line, wanted))
    }

    /// No line is left.
    pub fn end(self) -> Result<(), Failure> {
        if self.text.is_empty() {
            return Ok(());
        }
        let found = self.text.lines().next().unwrap_or("");
        Err(Failure::line(self.number + 1, found, "the end"))
    }
}

/// The number behind a name.
pub fn named(name: &str, line: &str) -> Option<u64> {
    whole(line.strip_prefix(name)?.strip_prefix(' ')?)
}

/// A whole number as the programs write it: digits, no zero ahead of others, and below 2^32.
pub fn whole(word: &str) -> Option<u64> {
    let number: u32 = word.parse().ok()?;
    (number.to_string() == word).then_some(number as u64)
}

#[cfg(test)]
mod tests {
    use super::*;

    #[test]
    fn whole_numbers() {
        assert_eq!(whole("0"), Some(0));
        assert_eq!(whole("4294967295"), Some(4294967295));
        for word in ["", "00", "07", "+7", "-7", "7 ", "4294967296", "x"] {
            assert_eq!(whole(word), None, "{word}");
        }
        assert_eq!(named("calls", "calls 13"), Some(13));
        for line in ["calls", "calls13", "calls  13", "call 13", "scalls 13"] {
            assert_eq!(named("calls", line), None, "{line}");
        }
    }

    /// Of a long line the front is told.
    #[test]
    fn long_lines() {
        let failure = Failure::line(3, &"x".repeat(41), "`y`");
        let said = format!("line 3 is `{}`, and should be `y`", "x".repeat(40));
        assert_eq!(failure.to_string(), said);
    }
}
