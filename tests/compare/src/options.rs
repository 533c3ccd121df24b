//! The words behind a program's name: `--count N --seed S`, then others.

#[derive(Debug, PartialEq, Eq)]
pub struct Options {
    pub count: usize,
    pub seed: u64,
    /// What follows the options.
    pub others: Vec<String>,
}

/// The options, or none when they are bad. They come first.
pub fn parse(words: &[String], default_count: usize) -> Option<Options> {
    let mut options = Options {
        count: default_count,
        seed: 1,
        others: Vec::new(),
    };
    let mut rest = words;
    while let [name, more @ ..] = rest {
        match (name.as_str(), more) {
            ("--count", [value, more @ ..]) => {
                options.count = value.parse().ok()?;
                rest = more;
            }
            ("--seed", [value, more @ ..]) => {
                options.seed = value.parse().ok()?;
                rest = more;
            }
            (name, _) if name.starts_with("--") => return None,
            _ => {
                options.others = rest.to_vec();
                break;
            }
        }
    }
    Some(options)
}

/// The options of this program's own command line; on bad ones it says `usage` and exits 2.
pub fn of_command_line(default_count: usize, usage: &str) -> Options {
    let words: Vec<String> = std::env::args().skip(1).collect();
    parse(&words, default_count).unwrap_or_else(|| fail(usage, 2))
}

/// Says this and exits.
pub fn fail(text: &str, status: i32) -> ! {
    eprintln!("{text}");
    std::process::exit(status)
}

#[cfg(test)]
mod tests {
    use super::*;

    fn parsed(text: &str) -> Option<Options> {
        let words: Vec<String> = text.split_whitespace().map(String::from).collect();
        parse(&words, 5)
    }

    #[test]
    fn options_come_first() {
        let all = parsed("--seed 9 --count 7 program --count 3").unwrap();
        assert_eq!((all.count, all.seed), (7, 9));
        assert_eq!(all.others, ["program", "--count", "3"]);
        let none = parsed("").unwrap();
        assert_eq!((none.count, none.seed, none.others.len()), (5, 1, 0));
        for bad in ["--count", "--count x", "--other", "--seed -1"] {
            assert_eq!(parsed(bad), None);
        }
    }
}
