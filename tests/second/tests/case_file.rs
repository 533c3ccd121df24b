//! The file of cases and what is printed for it.

use second::case_file::*;
use second::named::*;
use second::{decode, Instruction};

/// The answers behind this word at the front of a line.
fn numbers(text: &str, word: &str) -> Vec<u64> {
    text.lines()
        .filter_map(|line| line.strip_prefix(word))
        .flat_map(|rest| rest.split_whitespace())
        .map(|number| number.parse().unwrap())
        .collect()
}

fn distinct(mut numbers: Vec<u64>) -> Vec<u64> {
    numbers.sort_unstable();
    numbers.dedup();
    numbers
}

#[test]
fn files_are_read_as_they_were_written() {
    let cases = stored_cases(7, 30);
    let bytes = encode_cases(&cases);
    assert_eq!(decode_cases(&bytes), Some(cases));
    assert_eq!(decode_cases(&[]), Some(Vec::new()));
    // A file cut within a case, another kind, too many bytes.
    for length in [1, 50, bytes.len() - 1] {
        assert_eq!(decode_cases(&bytes[..length]), None);
    }
    assert_eq!(decode_cases(&[0, 0, 0, 0, 1, 0, 3, 0, 0, 0, 0]), None);
    assert_eq!(decode_cases(&vec![0; MOST_BYTES + 2]), None);
    assert_eq!(decode_cases(&[0; 12]).unwrap().len(), 2);
}

/// The numbers of each line with this word at the front; none of lines that say otherwise.
fn rows(text: &str, word: &str) -> Vec<Vec<u64>> {
    text.lines()
        .filter_map(|line| line.strip_prefix(word))
        .filter_map(|rest| rest.split(' ').map(|number| number.parse().ok()).collect())
        .collect()
}

/// #103, #111 and #112.
#[test]
fn the_stored_cases_say_something_of_searches_moves_and_rounds() {
    let text = cases_output(&named_cases());
    // A search stops at the front, in the middle, and far behind; at a writer and at the job itself.
    let searches = rows(&text, "search ");
    for answer in [0, 19, 20] {
        let places: Vec<u64> = searches
            .iter()
            .flat_map(|row| row[1..].chunks(2))
            .filter(|found| found[0] == answer)
            .map(|found| found[1])
            .collect();
        assert!(distinct(places).len() > 5, "{answer}");
    }
    // All entries together find what no single one finds first.
    assert!(searches.iter().any(|row| row[1] == 19 && row[3] != 19));
    assert!(text.contains("\nsearch 0 refused 10\nsearch 128 refused 9\nmove 25 "));
    // All of 128 jobs are in the order: the searches of job 0, the last of them, are followed by 128's.
    assert!(text.contains("\nsearch 0 20 128 20 128\nsearch 128 refused 9\n"));
    // A search stops at a writer behind many jobs, and at one of the last entry there can be.
    assert!(text.contains("\nsearch 0 19 127 19 127\n"));
    assert!(searches
        .iter()
        .any(|row| row.len() == 131 && row[129..] == [19, 1]));
    let moves = rows(&text, "move ");
    assert_eq!(distinct(moves.iter().map(|row| row[0]).collect()), [0, 25]);
    let counts = distinct(rows(&text, "moves ").iter().map(|row| row[0]).collect());
    assert!(counts.contains(&0) && counts.len() > 20);
    // Rounds: more than 3 workers help, 16 are too few, the bound is met above the span.
    let rounds = rows(&text, "rounds ");
    let reports: Vec<&[Vec<u64>]> = rounds.chunks(4).collect();
    let such = |such: fn(&[Vec<u64>]) -> bool| reports.iter().filter(|of| such(of)).count();
    assert!(reports.iter().all(|of| of[0][0] == 1 && of[3][0] == 16));
    assert!(such(|of| of[1][1] > of[2][1] && of[2][1] > of[3][1]) >= 10);
    assert!(such(|of| of[3][1] > of[3][3]) >= 5);
    assert!(such(|of| of[3][1] == of[3][3] && of[2][1] > of[3][1]) >= 5);
    let is_bound = |row: &[u64]| row[0] * row[1] == row[2] + (row[0] - 1) * row[3];
    let above = rounds.iter().filter(|row| row[0] > 1 && row[1] > row[3]);
    assert!(above.filter(|row| is_bound(row)).count() >= 2);
    // The most rounds there can be, and a span that needs 128 workers.
    assert!(rounds.contains(&vec![1, 4352, 4352, 43]));
    let refusals = text.matches("rounds 0 refused 24\n").count();
    assert_eq!(refusals, named_cases().len());
    for refusal in 1..=8 {
        assert!(text.contains(&format!(
            "open {refusal}\nrounds 0 refused 24\nrounds 1 refused {refusal}\n"
        )));
    }
}

/// #114
#[test]
fn the_stored_cases_say_something_of_bills() {
    let text = cases_output(&named_cases());
    for word in ["", "hand "] {
        let wards = rows(&text, &format!("{word}wards "));
        let counts = distinct(wards.iter().map(|row| row[0]).collect());
        for count in [0, 1, 2, 3, 4, 5, 127] {
            assert!(counts.contains(&count), "{word}{count}");
        }
        // Wards behind a block that was passed over, and blocks of several numbers.
        assert!(wards.iter().filter(|row| row[0] > 1 && row[1] > 1).count() >= 5);
        assert!(
            wards
                .iter()
                .filter(|row| row[0] > 1 && row[3] > row[1] + 1)
                .count()
                >= 10
        );
        // Each bill has its line; equal wards of which the lower number has a penny more.
        for bill in [0, 1, 7, 100, u32::MAX] {
            let lines = format!("\n{word}shares {bill} ");
            assert_eq!(text.matches(&lines).count(), wards.len(), "{word}{bill}");
        }
        let shared = rows(&text, &format!("{word}shares 100 "));
        let short = format!("\n{word}short shares refused 17\n");
        assert_eq!(text.matches(&short).count(), shared.len());
        assert!(shared.len() > 40);
        assert!(text.contains(&format!("\n{word}shares 100 3 34 33 33\n")));
        assert!(text.contains(&format!("\n{word}shares 7 4 2 2 1 2\n")));
        assert!(text.contains(&format!("\n{word}shares 100 2 25 75\n")));
        assert!(text.contains(&format!("\n{word}wards 0\n{word}shares 0 refused 29\n")));
    }
    assert!(text.contains("\nwards 0\nshares 0 refused 28\n"));
    assert!(!text.contains("hand shares 0 refused 28\n"));
    // Several of the runs with a job left have wards that weigh what they do in the end.
    let blocks: Vec<&str> = text.split("\ncase ").collect();
    let line = |block: &str, word: &str| -> Option<String> {
        let line = block.lines().find_map(|line| line.strip_prefix(word));
        line.map(str::to_string)
    };
    let left = blocks
        .iter()
        .filter(|block| block.contains("\nshares 7 refused 28\n"));
    let same = left.filter(|block| {
        let wards = line(block, "wards ");
        wards.as_deref() != Some("0") && wards == line(block, "hand wards ")
    });
    assert!(same.count() >= 5);
    // Where no job is left, wards and shares are the hand run's.
    for block in blocks
        .iter()
        .filter(|block| block.contains("\nshort shares "))
    {
        for word in ["wards ", "shares 7 ", "shares 100 ", "shares 4294967295 "] {
            assert_eq!(line(block, word), line(block, &format!("hand {word}")));
        }
    }
}

/// The case's list is accepted and has such an instruction.
fn has(case: &Case, such: fn(&Instruction) -> bool) -> bool {
    let Ok(list) = decode(&case.list) else {
        return false;
    };
    list.bodies.iter().flatten().any(such)
}

fn has_fan(case: &Case) -> bool {
    has(case, |instruction| {
        matches!(instruction, Instruction::Fan { .. })
    })
}

fn has_sum(case: &Case) -> bool {
    has(case, |instruction| {
        matches!(instruction, Instruction::Sum { .. })
    })
}

fn has_rate(case: &Case) -> bool {
    has(case, |instruction| {
        matches!(
            instruction,
            Instruction::Mul { .. } | Instruction::Div { .. }
        )
    })
}

#[test]
fn the_stored_cases_reach_every_answer() {
    let cases = stored_cases(STORED_SEED, STORED_COUNT);
    assert!(encode_cases(&cases).len() <= 60_000);
    let text = cases_output(&cases);
    assert!(text.len() <= 850_000);
    assert!(!text.contains("spoiled"));
    assert_eq!(
        distinct(numbers(&text, "open ")),
        [0, 1, 2, 3, 4, 5, 6, 7, 8]
    );
    let answers = distinct(numbers(&text, "calls"));
    assert_eq!(answers, [0, 9, 10, 11, 13, 14, 15, 19, 20]);
    let mut faults = Vec::new();
    for line in text.lines().filter(|line| line.starts_with("hand record ")) {
        faults.push(line.split(' ').nth(11).unwrap().parse().unwrap());
    }
    // #106: fault 3 no longer occurs.
    assert_eq!(distinct(faults), [0, 1, 2, 4, 5]);
    assert!(text.contains("write 4805 4a48"));
    // #104: lists with fans, named ones and random ones.
    let fans = |cases: &[Case]| cases.iter().filter(|case| has_fan(case)).count();
    let named = named_cases().len();
    assert!(fans(&cases[..named]) > 40);
    assert!(fans(&cases[named..]) > STORED_COUNT / 8);
    // #107: lists with sums, likewise; some are left where a job sums beside another.
    let sums = |cases: &[Case]| cases.iter().filter(|case| has_sum(case)).count();
    assert!(sums(&cases[..named]) > 20);
    assert!(sums(&cases[named..]) > STORED_COUNT / 6);
    // #108: lists with products or quotients, likewise.
    let rates = |cases: &[Case]| cases.iter().filter(|case| has_rate(case)).count();
    assert!(rates(&cases[..named]) > 20);
    assert!(rates(&cases[named..]) > STORED_COUNT / 8);
    let is_sum = |place: &&str| place.parse().is_ok_and(|place: u32| place / 256 == 3);
    let queues = text.lines().filter(|line| line.starts_with("queue "));
    let beside = queues.filter(|line| line.split(' ').skip(2).filter(is_sum).count() > 1);
    assert!(beside.count() > 5);
    // The random ones often run to the end.
    let random = cases_output(&cases[named_cases().len()..]);
    let left = |line: &&str| line.starts_with("total ") && line.ends_with(" 0");
    assert!(random.lines().filter(left).count() > STORED_COUNT / 3);
}

#[test]
fn what_is_printed_for_p() {
    let cases = named_cases();
    // After start 0, step 0, step 0.
    let text = cases_output(&cases[14..15]);
    let modes = |modes: &str| format!("{modes:0<64}");
    let expected = [
        "case 0".to_string(),
        "open 0".to_string(),
        "calls 0 0 0".to_string(),
        "entries 5 7".to_string(),
        "total 3 21 3".to_string(),
        "queue 0 513 258 512".to_string(),
        "queue 1 514 512".to_string(),
        "queue 2 refused 16".to_string(),
        "short 0 refused 17".to_string(),
        "short 1 refused 17".to_string(),
        format!("record 0 2 0 2 0 0 0 0 2 0 21 {}", modes("22")),
        format!("record 1 1 1 0 0 0 0 0 0 0 0 {}", modes("2")),
        format!("record 2 1 2 0 0 0 0 0 0 0 0 {}", modes("12")),
        "record 128 refused 9".to_string(),
        "write 54 4a480202034a460101004a4602000001014a420207010000070201004a420200010900\
         050001004a4203040100000002010005020100"
            .to_string(),
        "short refused 17".to_string(),
        "search 1 0 1 0 1".to_string(),
        "search 2 19 1 19 1 0 2".to_string(),
        "search 0 19 1 19 1 19 2".to_string(),
        "search 3 refused 10".to_string(),
        "search 128 refused 9".to_string(),
        "move 0 4 26 3".to_string(),
        "move entries 5 7".to_string(),
        format!("move record 1 2 1 0 0 0 0 0 0 0 5 {}", modes("2")),
        "moves 10 13 50 0".to_string(),
        "moves entries 9 9".to_string(),
        "wards 2 1 0 2 0".to_string(),
        "shares 0 refused 28".to_string(),
        "shares 1 refused 28".to_string(),
        "shares 7 refused 28".to_string(),
        "shares 100 refused 28".to_string(),
        "shares 4294967295 refused 28".to_string(),
        "hand 13 50 0".to_string(),
        "hand entries 9 9".to_string(),
        format!("hand record 0 3 0 2 0 0 0 0 2 0 23 {}", modes("22")),
        format!("hand record 1 3 1 2 0 9 0 0 2 0 12 {}", modes("2")),
        format!("hand record 2 3 2 3 0 9 1 0 3 0 15 {}", modes("12")),
        "hand wards 2 1 12 2 15".to_string(),
        "hand shares 0 2 0 0".to_string(),
        "hand shares 1 2 0 1".to_string(),
        "hand shares 7 2 3 4".to_string(),
        "hand shares 100 2 44 56".to_string(),
        "hand shares 4294967295 2 1908874353 2386092942".to_string(),
        "hand short shares refused 17".to_string(),
        "rounds 0 refused 24".to_string(),
        "rounds 1 13 13 11".to_string(),
        "rounds 2 11 13 11".to_string(),
        "rounds 3 11 13 11".to_string(),
        "rounds 16 11 13 11".to_string(),
        "rounds 17 refused 24".to_string(),
    ];
    assert_eq!(text.lines().collect::<Vec<&str>>(), expected);
    // A refused open ends the case; no calls are printed as the word alone.
    assert_eq!(
        cases_output(&cases[19..20]),
        "case 0\nopen 8\nrounds 0 refused 24\nrounds 1 refused 8\nrounds 17 refused 24\n"
    );
    assert!(cases_output(&cases[..1]).contains("\ncalls\n"));
    // After the hand run's calls the bill is shared as the hand run's.
    let text = cases_output(&cases[13..14]);
    let bill = "wards 2 1 12 2 15\nshares 0 2 0 0\nshares 1 2 0 1\nshares 7 2 3 4\n";
    assert!(text.contains(&format!("\nmoves entries 9 9\n{bill}")));
    assert!(text.contains("\nshort shares refused 17\nhand 13 50 0\n"));
}

/// #101: what is printed for the empty file is what is printed for the marked records.
#[test]
fn what_is_printed_for_the_empty_file() {
    let cases: Vec<Case> = named_cases()
        .into_iter()
        .filter(|case| case.list.is_empty())
        .collect();
    let text = cases_output(&cases);
    assert!(text.contains("write 8 4a480100014a4200\nshort refused 17\nsearch 0 0 1 0 1\n"));
    assert!(text.contains("moves 2 2 7 0\nmoves entries 5\nwards 0\nshares 0 refused 28\n"));
    assert!(text.contains("shares 4294967295 refused 28\nhand 2 7 0\nhand entries 5\n"));
    assert!(text.contains("\nwards 0\nshares 0 refused 29\n"));
    assert_eq!(distinct(numbers(&text, "open ")), [0, 8]);
    let mut marked = cases;
    for case in &mut marked {
        case.list = list(1, &[], &[&[]]);
    }
    assert_eq!(cases_output(&marked), text);
}
