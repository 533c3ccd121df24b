//! What the program rounds prints, taken from its lines.

use crate::lines::{named, whole, Failure, Lines};

/// The lines are for 1 to 16 workers.
pub const MOST_WORKERS: usize = 16;

#[derive(Debug, PartialEq, Eq)]
pub struct Report {
    pub calls: u64,
    pub span: u64,
    /// The rounds with 1 to 16 workers.
    pub rounds: Vec<u64>,
    /// The fewest workers whose rounds are the span.
    pub enough: Option<usize>,
}

impl Report {
    /// How much of its workers' rounds is used for calls, in percent, rounded down.
    pub fn used(&self, workers: usize) -> u64 {
        100 * self.calls / (workers as u64 * self.rounds[workers - 1])
    }
}

/// Takes the lines of one report, and nothing else.
pub fn parse(text: &str) -> Result<Report, Failure> {
    let mut lines = Lines::of(text)?;
    let calls = lines.take("`calls C`, C from 1 on", |line| {
        named("calls", line).filter(|calls| *calls > 0)
    })?;
    let span = lines.take(&format!("`span S`, S from 1 to {calls}"), |line| {
        named("span", line).filter(|span| (1..=calls).contains(span))
    })?;
    let mut report = Report {
        calls,
        span,
        rounds: Vec::new(),
        enough: None,
    };
    for workers in 1..=MOST_WORKERS {
        // Neither lower bound is passed, and no round is without a call.
        let least = span.max(calls.div_ceil(workers as u64));
        let wanted = format!(
            "`{workers} R U%`, R from {least} to {calls}, U = 100 * {calls} / ({workers} * R)"
        );
        lines.take(&wanted, |line| {
            let (number, rest) = line.split_once(' ')?;
            let (rounds, used) = rest.strip_suffix('%')?.split_once(' ')?;
            let rounds = whole(rounds).filter(|rounds| (least..=calls).contains(rounds))?;
            report.rounds.push(rounds);
            let right = (Some(workers as u64), Some(report.used(workers)));
            ((whole(number), whole(used)) == right).then_some(())
        })?;
    }
    let reaching = report.rounds.iter().position(|rounds| *rounds == span);
    report.enough = reaching.map(|place| place + 1);
    let last = match report.enough {
        Some(workers) => format!("enough {workers}"),
        None => "enough none".to_string(),
    };
    lines.take(&format!("`{last}`"), |line| (line == last).then_some(()))?;
    lines.end()?;
    Ok(report)
}

#[cfg(test)]
mod tests {
    use super::*;

    const P: &str = "calls 13\nspan 11\n1 13 100%\n2 11 59%\n3 11 39%\n4 11 29%\n5 11 23%\n6 11 19%\n7 11 16%\n\
                     8 11 14%\n9 11 13%\n10 11 11%\n11 11 10%\n12 11 9%\n13 11 9%\n14 11 8%\n15 11 7%\n16 11 7%\n\
                     enough 2\n";

    /// What the lines of some rounds are.
    fn lines(calls: u64, span: u64, rounds: [u64; MOST_WORKERS], enough: &str) -> String {
        let mut text = format!("calls {calls}\nspan {span}\n");
        for (i, rounds) in rounds.iter().enumerate() {
            let workers = i as u64 + 1;
            let used = 100 * calls / (workers * rounds);
            text.push_str(&format!("{workers} {rounds} {used}%\n"));
        }
        text + &format!("enough {enough}\n")
    }

    fn wrong_line(text: &str) -> usize {
        match parse(text) {
            Err(Failure::Line { number, .. }) => number,
            other => panic!("{other:?}"),
        }
    }

    #[test]
    fn the_lines_of_p() {
        let report = parse(P).unwrap();
        assert_eq!((report.calls, report.span), (13, 11));
        assert_eq!(report.rounds[0], 13);
        assert_eq!(report.rounds[1..], [11; 15]);
        assert_eq!(report.enough, Some(2));
        assert_eq!(
            (report.used(1), report.used(2), report.used(16)),
            (100, 59, 7)
        );
    }

    #[test]
    fn one_is_enough_or_none() {
        let report = parse(&lines(2, 2, [2; 16], "1")).unwrap();
        assert_eq!(report.enough, Some(1));
        let mut rounds = [272; 16];
        for (i, rounds) in rounds.iter_mut().enumerate() {
            *rounds = 4352u64.div_ceil(i as u64 + 1);
        }
        let report = parse(&lines(4352, 34, rounds, "none")).unwrap();
        assert_eq!(report.enough, None);
        assert_eq!((report.rounds[0], report.rounds[15]), (4352, 272));
    }

    /// More workers may take more rounds.
    #[test]
    fn more_rounds_with_more_workers() {
        let mut rounds = [11; 16];
        (rounds[0], rounds[1], rounds[2]) = (20, 12, 13);
        assert_eq!(parse(&lines(20, 11, rounds, "4")).unwrap().rounds, rounds);
    }

    /// A list or library that is refused is no fault of the lines.
    #[test]
    fn refusals() {
        for (text, refusal) in [("refused 1\n", 1), ("refused 8\n", 8)] {
            let failure = parse(text).unwrap_err();
            assert_eq!(failure, Failure::Refused(refusal));
            assert_eq!(failure.to_string(), text.trim_end());
        }
        assert_eq!(wrong_line("refused\n"), 1);
        assert_eq!(wrong_line("refused 1 \n"), 1);
        assert_eq!(wrong_line("refused 1\nrefused 1\n"), 2);
        assert_eq!(wrong_line(&format!("refused 1\n{P}")), 2);
        assert!(matches!(parse("refused 1"), Err(Failure::CutOff(_))));
    }

    /// No front part of the lines is taken, from no byte up to all but the last.
    #[test]
    fn cut_off() {
        for length in 0..P.len() {
            let failure = parse(&P[..length]).unwrap_err();
            assert!(matches!(failure, Failure::CutOff(_)), "{length}: {failure}");
        }
    }

    #[test]
    fn wrong_order() {
        let good: Vec<&str> = P.lines().collect();
        for i in 1..good.len() {
            let mut bad = good.clone();
            bad.swap(i - 1, i);
            let failed = wrong_line(&(bad.join("\n") + "\n"));
            assert_eq!(failed, i, "{bad:?}");
        }
    }

    /// A line that is missing, or stands there twice.
    #[test]
    fn missing_and_doubled_lines() {
        let good: Vec<&str> = P.lines().collect();
        for i in 0..good.len() {
            let mut bad = good.clone();
            bad.remove(i);
            assert!(parse(&(bad.join("\n") + "\n")).is_err(), "{bad:?}");
            let mut bad = good.clone();
            bad.insert(i, good[i]);
            assert_eq!(wrong_line(&(bad.join("\n") + "\n")), i + 2, "{bad:?}");
        }
        assert_eq!(wrong_line(&format!("{P}\n")), good.len() + 1);
    }

    /// Each line must agree with those ahead of it.
    #[test]
    fn lines_that_contradict() {
        for (from, to, line) in [
            ("calls 13", "calls 0", 1),
            ("calls 13", "calls 013", 1),
            ("calls 13", "calls +13", 1),
            ("calls 13", "calls 4294967296", 1),
            ("calls 13", "Calls 13", 1),
            ("span 11", "span 0", 2),
            ("span 11", "span 14", 2),
            ("1 13 100%", "1 13 100", 3),
            ("1 13 100%", "1 13  100%", 3),
            ("1 13 100%", "1 12 108%", 3),
            ("2 11 59%", "2 11 60%", 4),
            ("2 11 59%", "2 10 65%", 4),
            ("2 11 59%", "2 14 46%", 4),
            ("enough 2", "enough 3", 19),
            ("enough 2", "enough none", 19),
        ] {
            assert_eq!(wrong_line(&P.replacen(from, to, 1)), line, "{to}");
        }
    }

    #[test]
    fn failures_in_words() {
        let said = |text: &str| parse(text).unwrap_err().to_string();
        assert_eq!(said(""), "cut off: `calls C`, C from 1 on should follow");
        assert_eq!(
            said("calls 13\nspan 14\n"),
            "line 2 is `span 14`, and should be `span S`, S from 1 to 13"
        );
        assert_eq!(
            said(&P.replace("enough 2", "enough 3")),
            "line 19 is `enough 3`, and should be `enough 2`"
        );
    }
}
