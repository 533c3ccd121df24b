//! What the program bill prints, taken from its lines.

use second::bill::shared;

use crate::lines::{named, whole, Failure, Lines};

/// Job 0 is no ward, and the highest number is 127.
pub const MOST_WARDS: usize = 127;

#[derive(Debug, PartialEq, Eq)]
pub struct Ward {
    pub number: u64,
    pub weight: u64,
    pub pence: u64,
}

impl Ward {
    fn line(&self) -> String {
        let Ward {
            number,
            weight,
            pence,
        } = self;
        format!("job {number} weight {weight} pence {pence}")
    }
}

/// The wards, by rising number; at least one.
#[derive(Debug, PartialEq, Eq)]
pub struct Bill {
    pub wards: Vec<Ward>,
}

impl Bill {
    pub fn weight(&self) -> u64 {
        self.wards.iter().map(|ward| ward.weight).sum()
    }

    pub fn pence(&self) -> u64 {
        self.wards.iter().map(|ward| ward.pence).sum()
    }

    /// Does the ward pay one of the pence that remain where all shares are rounded down?
    pub fn pays_remaining(&self, ward: &Ward) -> bool {
        let exact = self.pence() as u128 * ward.weight as u128;
        ward.pence as u128 > exact / self.weight() as u128
    }

    pub fn remaining(&self) -> usize {
        let pays = |ward: &&Ward| self.pays_remaining(ward);
        self.wards.iter().filter(pays).count()
    }
}

/// Takes the lines of one bill, and nothing else.
pub fn parse(text: &str) -> Result<Bill, Failure> {
    let mut lines = Lines::of(text)?;
    let mut bill = Bill { wards: Vec::new() };
    while bill.wards.is_empty() || lines.ahead().is_some_and(|line| line.starts_with("job ")) {
        let least = bill.wards.last().map_or(1, |ward| ward.number + 1);
        let wanted =
            format!("`job N weight W pence P`, N from {least} to {MOST_WARDS}, W from 1 on");
        let ward = lines.take(&wanted, |line| {
            ward_of(line).filter(|ward| (least..=MOST_WARDS as u64).contains(&ward.number))
        })?;
        bill.wards.push(ward);
    }
    let (count, weight, pence) = (bill.wards.len(), bill.weight(), bill.pence());
    let last = format!("wards {count} weight {weight} pence {pence}");
    let total = lines.take(&format!("`{last}`"), |line| {
        u32::try_from(pence).ok().filter(|_| line == last)
    })?;
    lines.end()?;
    // Only now is the bill known, of which each ward has its share.
    let weights: Vec<u64> = bill.wards.iter().map(|ward| ward.weight).collect();
    for (place, share) in shared(total, &weights).into_iter().enumerate() {
        let ward = &bill.wards[place];
        let right = Ward {
            pence: share as u64,
            ..*ward
        };
        if *ward != right {
            let wanted = format!("`{}`", right.line());
            return Err(Failure::line(place + 1, &ward.line(), &wanted));
        }
    }
    Ok(bill)
}

fn ward_of(line: &str) -> Option<Ward> {
    let (rest, pence) = line.split_once(" pence ")?;
    let (job, weight) = rest.split_once(" weight ")?;
    Some(Ward {
        number: named("job", job)?,
        weight: whole(weight).filter(|weight| *weight > 0)?,
        pence: whole(pence)?,
    })
}

#[cfg(test)]
mod tests {
    use super::*;

    /// The example bill: five equal wards and two others share 12,000 pence.
    const WARDS: &str = "job 1 weight 31 pence 1216\njob 2 weight 31 pence 1216\njob 3 weight 31 pence 1216\n\
                         job 4 weight 31 pence 1215\njob 5 weight 31 pence 1215\njob 6 weight 129 pence 5059\n\
                         job 14 weight 22 pence 863\nwards 7 weight 306 pence 12000\n";

    fn wrong_line(text: &str) -> usize {
        match parse(text) {
            Err(Failure::Line { number, .. }) => number,
            other => panic!("{other:?}"),
        }
    }

    #[test]
    fn the_lines_of_the_example() {
        let bill = parse(WARDS).unwrap();
        let numbers: Vec<u64> = bill.wards.iter().map(|ward| ward.number).collect();
        assert_eq!(numbers, [1, 2, 3, 4, 5, 6, 14]);
        assert_eq!(
            bill.wards[5],
            Ward {
                number: 6,
                weight: 129,
                pence: 5059
            }
        );
        assert_eq!((bill.weight(), bill.pence()), (306, 12000));
    }

    /// 12,000 * 31 / 306 is 1215.69, 12,000 * 129 / 306 is 5058.82, 12,000 * 22 / 306 is 862.75.
    #[test]
    fn who_pays_a_remaining_penny() {
        let bill = parse(WARDS).unwrap();
        let pays: Vec<bool> = bill
            .wards
            .iter()
            .map(|ward| bill.pays_remaining(ward))
            .collect();
        assert_eq!(pays, [true, true, true, false, false, true, true]);
        assert_eq!(bill.remaining(), 5);
        let whole = parse("job 1 weight 7 pence 0\nwards 1 weight 7 pence 0\n").unwrap();
        assert_eq!(whole.remaining(), 0);
    }

    #[test]
    fn the_least_and_the_most() {
        let one = "job 127 weight 7 pence 4294967295\nwards 1 weight 7 pence 4294967295\n";
        assert_eq!(parse(one).unwrap().pence(), 4294967295);
        let mut all = String::new();
        for number in 1..=MOST_WARDS {
            all.push_str(&format!("job {number} weight 4294967295 pence 1\n"));
        }
        let weight = MOST_WARDS as u64 * 4294967295;
        all.push_str(&format!("wards 127 weight {weight} pence 127\n"));
        let bill = parse(&all).unwrap();
        assert_eq!((bill.wards.len(), bill.weight()), (127, weight));
        assert_eq!(bill.remaining(), 0);
    }

    /// A list that is refused is no fault of the lines.
    #[test]
    fn refusals() {
        for (text, refusal) in [
            ("refused 1\n", 1),
            ("refused 28\n", 28),
            ("refused 29\n", 29),
        ] {
            let failure = parse(text).unwrap_err();
            assert_eq!(failure, Failure::Refused(refusal));
            assert_eq!(failure.to_string(), text.trim_end());
        }
        assert_eq!(wrong_line("refused\n"), 1);
        assert_eq!(wrong_line("refused 28\nrefused 28\n"), 2);
        assert_eq!(wrong_line(&format!("refused 28\n{WARDS}")), 2);
        assert_eq!(wrong_line("usage: bill PENCE [CALLS]\n"), 1);
        assert!(matches!(parse("refused 28"), Err(Failure::CutOff(_))));
    }

    /// No front part of the lines is taken, from no byte up to all but the last.
    #[test]
    fn cut_off() {
        for length in 0..WARDS.len() {
            let failure = parse(&WARDS[..length]).unwrap_err();
            assert!(matches!(failure, Failure::CutOff(_)), "{length}: {failure}");
        }
    }

    #[test]
    fn wrong_order() {
        let good: Vec<&str> = WARDS.lines().collect();
        for i in 1..good.len() - 1 {
            let mut bad = good.clone();
            bad.swap(i - 1, i);
            assert_eq!(wrong_line(&(bad.join("\n") + "\n")), i + 1, "{bad:?}");
        }
        let mut bad = good.clone();
        bad.swap(6, 7);
        assert_eq!(wrong_line(&(bad.join("\n") + "\n")), 7);
    }

    /// A line that is missing, or stands there twice.
    #[test]
    fn missing_and_doubled_lines() {
        let good: Vec<&str> = WARDS.lines().collect();
        for i in 0..good.len() {
            let mut bad = good.clone();
            bad.remove(i);
            assert!(parse(&(bad.join("\n") + "\n")).is_err(), "{bad:?}");
            let mut bad = good.clone();
            bad.insert(i, good[i]);
            assert_eq!(wrong_line(&(bad.join("\n") + "\n")), i + 2, "{bad:?}");
        }
        assert_eq!(wrong_line(&format!("{WARDS}\n")), good.len() + 1);
        assert_eq!(wrong_line("wards 0 weight 0 pence 0\n"), 1);
    }

    /// Each line must agree with the others.
    #[test]
    fn lines_that_contradict() {
        for (from, to, line) in [
            ("job 1 ", "job 0 ", 1),
            ("job 1 ", "job 01 ", 1),
            ("job 1 ", "Job 1 ", 1),
            ("job 1 ", "job  1 ", 1),
            ("job 2 ", "job 1 ", 2),
            ("job 14 ", "job 128 ", 7),
            ("weight 129", "weight 0", 6),
            ("weight 129", "weight 4294967296", 6),
            ("weight 129", "weight 128", 8),
            ("pence 863", "pence 863 ", 7),
            ("pence 863", "pence -1", 7),
            ("pence 863", "pence 864", 8),
            ("pence 863", "pence 4294967295", 8),
            ("wards 7", "wards 8", 8),
            ("weight 306", "weight 307", 8),
            ("pence 12000", "pence 12001", 8),
        ] {
            assert_eq!(wrong_line(&WARDS.replacen(from, to, 1)), line, "{to}");
        }
        // two bills that add up, whose pence are above all bills
        let large = "job 1 weight 1 pence 2147483648\n";
        let text = format!(
            "{large}{}wards 2 weight 2 pence 4294967296\n",
            large.replace("job 1", "job 2")
        );
        assert_eq!(wrong_line(&text), 3);
    }

    /// Sums that are right aren't enough: a penny from one ward to another is seen, also between equal ones.
    #[test]
    fn pence_that_another_ward_should_pay() {
        let lines: Vec<&str> = WARDS.lines().collect();
        for from in 0..7 {
            for to in 0..7 {
                let mut bad: Vec<String> = lines.iter().map(|line| line.to_string()).collect();
                for (place, more) in [(from, -1), (to, 1)] {
                    let (front, pence) = lines[place].rsplit_once(' ').unwrap();
                    let pence: i64 = pence.parse().unwrap();
                    bad[place] = format!("{front} {}", pence + more);
                }
                if from != to {
                    let text = bad.join("\n") + "\n";
                    assert_eq!(wrong_line(&text), from.min(to) + 1, "{text}");
                }
            }
        }
    }

    #[test]
    fn failures_in_words() {
        let said = |text: &str| parse(text).unwrap_err().to_string();
        assert_eq!(
            said(""),
            "cut off: `job N weight W pence P`, N from 1 to 127, W from 1 on should follow"
        );
        assert_eq!(
            said(&WARDS.replace("wards 7", "wards 8")),
            "line 8 is `wards 8 weight 306 pence 12000`, and should be `wards 7 weight 306 pence 12000`"
        );
        let swapped = WARDS
            .replace("job 3 weight 31 pence 1216", "job 3 weight 31 pence 1215")
            .replace("job 4 weight 31 pence 1215", "job 4 weight 31 pence 1216");
        assert_eq!(
            said(&swapped),
            "line 3 is `job 3 weight 31 pence 1215`, and should be `job 3 weight 31 pence 1216`"
        );
    }
}
