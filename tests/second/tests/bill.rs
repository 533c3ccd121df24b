//! #114: the server's bill, shared among the wards.

use second::bill::*;
use second::cases::*;
use second::coordinator::{call, open_files};
use second::named::*;
use second::rng::Rng;
use second::run::{ENDED, NEVER_MADE, RECORDS, STARTED};
use second::*;

/// What the lent places hold before each call.
const FILL: u32 = 0xAAAA_AAAA;

const BILLS: [u32; 5] = [0, 1, 7, 100, u32::MAX];

fn hand(bytes: &[u8], library: &[u32]) -> Run {
    hand_run(bytes, library, &TODAY).expect("an accepted list with its library")
}

/// Number and weight of each ward.
fn wards_of(run: &Run) -> Vec<(usize, u64)> {
    wards(run).iter().map(|w| (w.number, w.weight)).collect()
}

/// The answer with this much room. The places that are not to be written keep what they hold.
fn shares_into(run: &Run, bill: u32, room: usize) -> Result<Vec<u32>, u32> {
    let mut places = vec![FILL; room];
    let answer = shares(run, bill, &mut places);
    let written = answer.unwrap_or(0);
    assert!(places[written..].iter().all(|place| *place == FILL));
    answer.map(|_| places[..written].to_vec())
}

fn shares_of(run: &Run, bill: u32) -> Result<Vec<u32>, u32> {
    shares_into(run, bill, RECORDS)
}

/// The run after these calls, all of them accepted.
fn after(bytes: &[u8], library: &[u32], calls: &[(u8, u32)]) -> Run {
    let mut run = open(bytes, library, &TODAY).expect("an accepted list with its library");
    for (kind, task) in calls {
        call(&mut run, *kind, *task).expect("an accepted call");
    }
    run
}

// ---------------------------------------------------------------------------------------------
// Sharing in proportion

/// #114: "Shares total the bill, and each is less than one penny from the exact share."
fn assert_fair(bill: u32, weights: &[u64], shares: &[u32]) {
    assert_eq!(shares.len(), weights.len());
    let total: u64 = shares.iter().map(|share| *share as u64).sum();
    assert_eq!(total, bill as u64, "{bill} among {weights:?}");
    let sum: u128 = weights.iter().map(|weight| *weight as u128).sum();
    for (share, weight) in shares.iter().zip(weights) {
        let ours = *share as u128 * sum;
        let exact = bill as u128 * *weight as u128;
        // Both less than one penny above and less than one below.
        assert!(ours < exact + sum, "{bill} among {weights:?}: {shares:?}");
        assert!(exact < ours + sum, "{bill} among {weights:?}: {shares:?}");
    }
}

#[test]
fn remaining_pence_go_to_the_largest_remainders() {
    let cases: [(u32, &[u64], &[u32]); 12] = [
        // No pence remain.
        (100, &[25, 75], &[25, 75]),
        (0, &[3, 1, 2], &[0, 0, 0]),
        (12, &[1, 1, 1, 1], &[3, 3, 3, 3]),
        // 6.67 and 0.33; then the lightest has the largest remainder: 0.6, 2.4, 3; 2.14, 2.14, 0.71.
        (7, &[20, 1], &[7, 0]),
        (6, &[1, 4, 5], &[1, 2, 3]),
        (5, &[3, 3, 1], &[2, 2, 1]),
        // The heaviest has it, though it stands last.
        (1, &[1, 1, 3], &[0, 0, 1]),
        // Equal remainders: the lower number first, also where others stand between them.
        (1, &[5, 5], &[1, 0]),
        (7, &[7, 9, 7, 9], &[2, 2, 1, 2]),
        (100, &[7, 9, 7, 9], &[22, 28, 22, 28]),
        (2, &[1, 1, 1], &[1, 1, 0]),
        // Equal remainders of wards that differ in weight: 0.5 and 1.5.
        (2, &[1, 3], &[1, 1]),
    ];
    for (bill, weights, expected) in cases {
        assert_eq!(shared(bill, weights), expected, "{bill} among {weights:?}");
        assert_fair(bill, weights, expected);
    }
    assert_eq!(shared(2, &[3, 1]), [2, 0]);
    let thirds = [1_431_655_765; 3];
    assert_eq!(shared(u32::MAX, &[1, 1, 1]), thirds);
    assert_eq!(
        shared(u32::MAX - 1, &[1, 1, 1]),
        [1_431_655_765, 1_431_655_765, 1_431_655_764]
    );
    assert_eq!(shared(u32::MAX, &[4_352_000]), [u32::MAX]);
}

/// The weights of `count` wards, each from 1 to `most`, one after the other.
fn each_weights(count: usize, most: u64, mut each: impl FnMut(&[u64])) {
    let mut weights = vec![1; count];
    loop {
        each(&weights);
        let Some(place) = weights.iter().position(|weight| *weight < most) else {
            return;
        };
        weights[..place].fill(1);
        weights[place] += 1;
    }
}

/// Among all choices of who gets a penny more than the exact share rounded down, with the right total, there is one
/// that prefers the larger remainder and, among equals, the lower number. It is ours.
#[test]
fn every_other_choice_prefers_a_smaller_remainder_or_a_higher_number() {
    let mut choices = 0;
    for (count, most, bills) in [(1, 6, 20), (2, 8, 20), (3, 6, 20), (4, 5, 20), (5, 3, 12)] {
        each_weights(count, most, |weights| {
            let sum: u64 = weights.iter().sum();
            for bill in 0..=bills {
                let floors: Vec<u64> = weights.iter().map(|w| bill * w / sum).collect();
                let remainders: Vec<u64> = weights.iter().map(|w| bill * w % sum).collect();
                let mut found = Vec::new();
                for choice in 0..1u32 << count {
                    let more = |i: usize| (choice >> i & 1) as u64;
                    let shares: Vec<u64> = (0..count).map(|i| floors[i] + more(i)).collect();
                    if shares.iter().sum::<u64>() != bill {
                        continue;
                    }
                    choices += 1;
                    // No ward without the penny goes before one with it.
                    let before = |i: usize, j: usize| {
                        remainders[i] > remainders[j] || remainders[i] == remainders[j] && i < j
                    };
                    let good = (0..count)
                        .all(|i| (0..count).all(|j| more(i) == 1 || more(j) == 0 || !before(i, j)));
                    if good {
                        found.push(shares);
                    }
                }
                let ours = shared(bill as u32, weights);
                let ours: Vec<u64> = ours.into_iter().map(u64::from).collect();
                assert_eq!(found, [ours], "{bill} among {weights:?}");
            }
        });
    }
    assert!(choices > 30_000);
}

/// #114, on many weights: totals, less than a penny, and each penny given to what is then the largest remainder.
#[test]
fn random_weights_are_shared_fairly() {
    let mut rng = Rng::new(114);
    let mut remained = [0; 3];
    for _ in 0..20_000 {
        let count = rng.between(1, 127);
        let most = rng.pick(&[2, 10, 100, 10_000, 4_352_000]);
        let weights: Vec<u64> = (0..count).map(|_| rng.between(2, most) as u64).collect();
        let bill = match rng.below(3) {
            0 => rng.pick(&BILLS),
            1 => rng.below(2 * count) as u32,
            _ => rng.next_u64() as u32,
        };
        let shares = shared(bill, &weights);
        assert_fair(bill, &weights, &shares);
        // The same by looking for the next one anew, penny by penny.
        let sum: u128 = weights.iter().map(|weight| *weight as u128).sum();
        let exact = |i: usize| bill as u128 * weights[i] as u128;
        let mut slow: Vec<u32> = (0..count).map(|i| (exact(i) / sum) as u32).collect();
        let mut has_more = vec![false; count];
        let mut pence = 0;
        while slow.iter().map(|share| *share as u64).sum::<u64>() < bill as u64 {
            let mut next = None;
            for i in (0..count).filter(|i| !has_more[*i]) {
                if next.is_none_or(|next| exact(i) % sum > exact(next) % sum) {
                    next = Some(i);
                }
            }
            let next = next.expect("fewer pence remain than there are wards");
            has_more[next] = true;
            slow[next] += 1;
            pence += 1;
        }
        assert_eq!(shares, slow);
        remained[pence.min(2)] += 1;
    }
    assert!(remained.iter().all(|count| *count > 1000), "{remained:?}");
}

// ---------------------------------------------------------------------------------------------
// Wards

#[test]
fn the_bill_of_p() {
    let run = hand(&EXAMPLE_P, &LIBRARY_P);
    // Of the 50, job 0's own 23 are not shared.
    assert_eq!(wards_of(&run), [(1, 12), (2, 15)]);
    for (bill, expected) in [
        (0, [0, 0]),
        (1, [0, 1]),
        (7, [3, 4]),
        (100, [44, 56]),
        (1000, [444, 556]),
        (27, [12, 15]),
        (u32::MAX, [1_908_874_353, 2_386_092_942]),
    ] {
        assert_eq!(shares_of(&run, bill), Ok(expected.to_vec()), "{bill}");
        assert_fair(bill, &[12, 15], &expected);
    }
}

#[test]
fn wards_that_were_passed_over_are_none() {
    // Jobs 1, 8, 11, 14, 17 and 23 are passed over; jobs 4, 7, 18 and 21 are made.
    let run = hand(&wards_passed_over(), &[5, 7]);
    assert_eq!(wards_of(&run), [(4, 44), (7, 10), (18, 44), (21, 48)]);
    assert_eq!(run.records[1].state, NEVER_MADE);
    // A skip that isn't taken, and one that passes over all.
    // Sheet 1, which counts 3: 5 + 16 + 2, and two jobs of 7.
    let all = [
        (1, 37),
        (4, 37),
        (7, 37),
        (10, 37),
        (13, 7),
        (14, 7),
        (15, 7),
        (16, 7),
    ];
    for (skip, passed_over) in [(0, 0), (1, 3), (2, 4), (3, 6), (5, 8)] {
        let bytes = fans_and_spawns(Instruction::Skip { a: 0, b: skip });
        let run = hand(&bytes, &[5]);
        assert_eq!(wards_of(&run), all[passed_over..], "{skip}");
    }
}

#[test]
fn spawns_and_fans_that_fault_make_no_ward() {
    for last in [spawn(1, 1), fan(1, 2, 3)] {
        let bytes = fault_behind_wards(&[spawn(1, 0), fan(2, 0, 2), last, spawn(1, 0)]);
        let run = hand(&bytes, &[5, 7]);
        assert_eq!(run.records[0].fault, 1);
        // Job 1 has a child, job 2: 5 + 3 + 8 + 2, and 8.
        assert_eq!(wards_of(&run), [(1, 26), (3, 8), (4, 8)]);
        assert_eq!(shares_of(&run, 7), Ok(vec![5, 1, 1]));
        let bytes = fault_behind_wards(&[last, spawn(1, 0)]);
        let run = hand(&bytes, &[5, 7]);
        assert_eq!(wards_of(&run), []);
        assert_eq!(shares_of(&run, 7), Err(29));
    }
    // A fan two children of which would be good has none.
    let bytes = fault_behind_wards(&[fan(1, 2, 2), fan(1, 2, 3)]);
    let run = hand(&bytes, &[5, 7]);
    assert_eq!(wards(&run).len(), 2);
}

#[test]
fn fans_and_blocks_with_jobs_never_made() {
    // Four of 13 and two of 10; one of 8; two of 15 with a child of 8.
    let run = hand(&fan_of_two_weights(), &[5]);
    let mut expected = vec![(1, 13), (2, 13), (3, 13), (4, 13), (5, 10), (6, 10)];
    expected.extend([(7, 8), (8, 23), (10, 23)]);
    assert_eq!(wards_of(&run), expected);
    assert_eq!(shares_of(&run, 7), Ok(vec![1, 1, 1, 1, 1, 0, 0, 1, 1]));
    // Blocks of 6 numbers: job 1 passes over the sheet that counts 3, job 7 faults behind it.
    let run = hand(&blocks_with_gaps(), &[5, 7]);
    let expected = [(1, 46), (7, 69), (13, 46), (19, 46), (25, 11)];
    assert_eq!(wards_of(&run), expected);
    let made = |block: std::ops::Range<usize>| block.filter(|j| run.records[*j].state == ENDED);
    assert_eq!(made(1..7).collect::<Vec<usize>>(), [1, 5, 6]);
    assert_eq!(made(7..13).collect::<Vec<usize>>(), [7, 8, 9, 10]);
    assert_eq!(run.records[7].fault, 1);
}

#[test]
fn the_most_wards_there_can_be() {
    let run = hand(&most_calls(), &[5]);
    let wards = wards_of(&run);
    assert_eq!(wards.len(), 127);
    let shares = shares_of(&run, 100).unwrap();
    assert_eq!(shares[..100], [1; 100]);
    assert_eq!(shares[100..], [0; 27]);
    assert_eq!(shares_into(&run, 100, 127), Ok(shares));
    assert_eq!(shares_into(&run, 100, 126), Err(17));
}

// ---------------------------------------------------------------------------------------------
// Refusals

#[test]
fn refusals_of_shares() {
    // 28 with each job left in turn, also after no call, and with no room; 28 before 29 and 17.
    let calls = [
        (0, 0),
        (1, 0),
        (1, 0),
        (0, 1),
        (1, 1),
        (1, 1),
        (2, 1),
        (2, 0),
        (0, 2),
        (1, 2),
        (1, 2),
        (1, 2),
        (2, 2),
    ];
    for length in 0..=calls.len() {
        let run = after(&EXAMPLE_P, &LIBRARY_P, &calls[..length]);
        for bill in BILLS {
            for room in [0, 1, 2, 3, 128] {
                let expected = match room {
                    _ if length < calls.len() => Err(28),
                    0 | 1 => Err(17),
                    _ => Ok(shared(bill, &[12, 15])),
                };
                assert_eq!(shares_into(&run, bill, room), expected);
            }
        }
    }
    // No ward: 29, before 17; with job 0 left 28.
    let mut run = open(&[], &[5], &TODAY).unwrap();
    for (kind, refusal) in [(None, 28), (Some(0), 28), (Some(2), 29)] {
        if let Some(kind) = kind {
            call(&mut run, kind, 0).unwrap();
        }
        assert_eq!(wards_of(&run), []);
        for bill in BILLS {
            for room in [0, 1, 128] {
                assert_eq!(shares_into(&run, bill, room), Err(refusal));
            }
        }
    }
    // A spawn that is passed over makes none.
    let skip = Instruction::Skip { a: 0, b: 1 };
    let run = hand(&list(1, &[&[]], &[&[skip, spawn(1, 0)], &[]]), &[5]);
    assert_eq!(shares_into(&run, 7, 0), Err(29));
    // Wards all ended, and job 0 not: 28.
    let run = after(&EXAMPLE_P, &LIBRARY_P, &calls[..7]);
    assert_eq!(run.records[1].state, ENDED);
    assert_eq!(run.records[0].state, STARTED);
    assert_eq!(shares_of(&run, 7), Err(28));
}

#[test]
fn a_slice_that_is_too_short_by_any_number_keeps_its_places() {
    let run = hand(&blocks_with_gaps(), &[5, 7]);
    for room in 0..=8 {
        for bill in BILLS {
            let expected = if room < 5 {
                Err(17)
            } else {
                Ok(shared(bill, &[46, 69, 46, 46, 11]))
            };
            assert_eq!(shares_into(&run, bill, room), expected);
        }
    }
}

// ---------------------------------------------------------------------------------------------
// Random lists and orders of calls

/// Who made each job, noted step by step: `Some(maker)` for those that were made behind a step.
struct Notes {
    makers: Vec<Option<usize>>,
}

impl Notes {
    fn new() -> Notes {
        Notes {
            makers: vec![None; RECORDS],
        }
    }

    /// Makes a call and notes whom it made.
    fn call(&mut self, run: &mut Run, kind: u8, task: u32) -> bool {
        let before: Vec<u8> = run.records.iter().map(|record| record.state).collect();
        let accepted = call(run, kind, task).is_ok();
        for job in 0..RECORDS {
            if before[job] == NEVER_MADE && run.records[job].state != NEVER_MADE {
                assert!(self.makers[job].is_none() && accepted && kind == 1);
                self.makers[job] = Some(task as usize);
            }
        }
        accepted
    }

    /// The job that job 0 made from which this one comes, itself or its maker's and so on.
    fn ward_of(&self, job: usize) -> Option<usize> {
        match self.makers[job]? {
            0 => Some(job),
            maker => self.ward_of(maker),
        }
    }

    /// The wards by whom job 0 made, each with the weight of all that come from it.
    fn wards(&self, run: &Run) -> Vec<(usize, u64)> {
        let mut weights = vec![0; RECORDS];
        for job in 1..RECORDS {
            if let Some(ward) = self.ward_of(job) {
                weights[ward] += run.records[job].weight;
            }
        }
        (0..RECORDS)
            .filter(|job| self.makers[*job] == Some(0))
            .map(|job| (job, weights[job]))
            .collect()
    }
}

/// Lists for the bill and of any shape.
fn any_list(rng: &mut Rng) -> Vec<u8> {
    if rng.percent(70) {
        encode(&ward_list(rng))
    } else {
        accepted_file(rng)
    }
}

/// After each call: the wards by document 01's numbers are those that job 0 was seen to make, and what their blocks
/// weigh is what those weigh that come from them. Job 0's weight and theirs are the run's.
#[test]
fn wards_are_whom_job_0_was_seen_to_make() {
    let mut rng = Rng::new(1140);
    let (mut several, mut with_children) = (0, 0);
    for _ in 0..600 {
        let bytes = any_list(&mut rng);
        let library = fitting_library(&mut rng, &bytes);
        let table = random_table(&mut rng);
        let mut run = open(&bytes, &library, &table).unwrap();
        let mut notes = Notes::new();
        let strategy = rng.pick(&STRATEGIES);
        let mut last = 0;
        while !run.order.is_empty() {
            let (kind, task) = next_call(&mut rng, strategy, &run, last, 10);
            if notes.call(&mut run, kind, task) {
                last = task;
            }
            let found = wards_of(&run);
            assert_eq!(found, notes.wards(&run));
            let weight: u64 = found.iter().map(|(_, weight)| weight).sum();
            assert_eq!(run.weight, run.records[0].weight + weight);
            if !run.order.is_empty() {
                assert_eq!(shares_into(&run, 7, rng.below(129)), Err(28));
            }
        }
        let found = wards_of(&run);
        several += (found.len() > 1) as usize;
        with_children += notes.makers.iter().flatten().any(|maker| *maker != 0) as usize;
        assert!(found.windows(2).all(|two| two[0].0 < two[1].0));
    }
    assert!(
        several > 250 && with_children > 150,
        "{several} {with_children}"
    );
}

/// #114: "For one list, library, table and bill, all lists of calls from a fresh run that leave no job give the same
/// shares."
#[test]
fn all_full_plays_give_the_same_shares() {
    let mut rng = Rng::new(1141);
    let mut billed = 0;
    for _ in 0..400 {
        let bytes = any_list(&mut rng);
        let library = fitting_library(&mut rng, &bytes);
        let table = random_table(&mut rng);
        let fresh = open(&bytes, &library, &table).unwrap();
        let hand = hand_run(&bytes, &library, &table).unwrap();
        let bill = random_bill(&mut rng, Some(&hand));
        let expected = shares_of(&hand, bill);
        match &expected {
            Ok(shares) => {
                let weights: Vec<u64> = wards(&hand).iter().map(|ward| ward.weight).collect();
                assert_fair(bill, &weights, shares);
                billed += (shares.len() > 1) as usize;
            }
            Err(refusal) => assert_eq!(*refusal, 29),
        }
        for _ in 0..4 {
            let run = run_after(fresh.clone(), &full_play(&mut rng, &fresh));
            assert_eq!(shares_of(&run, bill), expected);
            assert_eq!(wards_of(&run), wards_of(&hand));
            let run = run_after(fresh.clone(), &junk_play(&mut rng, &fresh));
            assert_eq!(shares_of(&run, bill), expected);
            let run = run_after(fresh.clone(), &cut_play(&mut rng, &fresh));
            assert_eq!(shares_of(&run, bill), Err(28));
        }
    }
    assert!(billed > 200, "{billed}");
}

// ---------------------------------------------------------------------------------------------
// The program bill

#[test]
fn bills_in_words() {
    for (word, expected) in [
        ("0", Some(0)),
        ("7", Some(7)),
        ("007", Some(7)),
        ("00000000000000000000000000000000000000001", Some(1)),
        ("4294967295", Some(u32::MAX)),
        ("04294967295", Some(u32::MAX)),
        ("4294967296", None),
        ("4294967303", None),
        ("18446744073709551623", None),
        ("99999999999999999999", None),
        ("340282366920938463463374607431768211463", None),
        ("", None),
        (" ", None),
        ("-1", None),
        ("+1", None),
        ("1x", None),
        ("x", None),
        (" 7", None),
        ("7 ", None),
        ("7\n", None),
        ("1.0", None),
        ("٣", None),
    ] {
        assert_eq!(pence(word.as_bytes()), expected, "{word:?}");
    }
    assert_eq!(pence(&[0xFF]), None);
    assert_eq!(pence(&[b'7', b'7' + 0x80]), None);
}

/// The calls of P's hand run, and P's library.
fn play_of_p() -> (Vec<u8>, Vec<u8>) {
    let calls = [0, 0, 1, 0, 0, 1, 1, 1, 1, 1, 2, 1, 1, 0, 0, 2];
    let calls = [&calls[..], &[1, 2, 1, 2, 1, 2, 2, 2, 2, 0]].concat();
    (calls, library_bytes(&LIBRARY_P))
}

#[test]
fn what_is_printed_for_p() {
    let (calls, library) = play_of_p();
    let of_7 = "job 1 weight 12 pence 3\njob 2 weight 15 pence 4\nwards 2 weight 27 pence 7\n";
    let of_1000 =
        "job 1 weight 12 pence 444\njob 2 weight 15 pence 556\nwards 2 weight 27 pence 1000\n";
    assert_eq!(bill_text(7, &EXAMPLE_P, &library, None), of_7);
    assert_eq!(bill_text(1000, &EXAMPLE_P, &library, None), of_1000);
    assert_eq!(bill_text(7, &EXAMPLE_P, &library, Some(&calls)), of_7);
    // Half a call and other kinds are no call.
    let mut junk = Vec::new();
    for bytes in calls.chunks(2) {
        junk.extend([3, bytes[1], 255, 0]);
        junk.extend(bytes);
    }
    junk.push(0);
    assert_eq!(bill_text(7, &EXAMPLE_P, &library, Some(&junk)), of_7);
    // Cut: before the last call, within it, all.
    for length in [25, 24, 1, 0] {
        let cut = Some(&calls[..length]);
        assert_eq!(bill_text(7, &EXAMPLE_P, &library, cut), "refused 28\n");
    }
    assert_eq!(bill_text(7, &[], &[0; 4], None), "refused 29\n");
    let both = Some(&[0, 0, 2, 0][..]);
    assert_eq!(bill_text(7, &[], &[0; 4], both), "refused 29\n");
    assert_eq!(bill_text(7, &[], &[0; 4], Some(&[])), "refused 28\n");
    assert_eq!(
        bill_text(7, &EXAMPLE_P[..53], &library, None),
        "refused 1\n"
    );
    assert_eq!(bill_text(7, &EXAMPLE_P, &library[..7], None), "refused 8\n");
}

#[test]
fn words_and_files_of_the_program() {
    let (calls, library) = play_of_p();
    let all = |name: &[u8]| match name {
        b"jobs.bin" => Some(EXAMPLE_P.to_vec()),
        b"library.bin" => Some(library.clone()),
        b"calls" => Some(calls.clone()),
        _ => None,
    };
    let none = |_: &[u8]| None;
    let of_7 = bill_text(7, &EXAMPLE_P, &library, None);
    assert_eq!(program_text(&[b"7"], all), of_7);
    assert_eq!(program_text(&[b"007", b"calls"], all), of_7);
    // Calls that can't be read count as empty.
    assert_eq!(program_text(&[b"7", b"missing"], all), "refused 28\n");
    // Words come before files.
    let bad: [&[&[u8]]; 8] = [
        &[],
        &[b""],
        &[b"-1"],
        &[b"4294967296"],
        &[b"x", b"calls"],
        &[b"", b"calls"],
        &[b"7", b"calls", b""],
        &[b"7", b"calls", b"calls", b"calls"],
    ];
    for words in bad {
        assert_eq!(program_text(words, all), "usage: bill PENCE [CALLS]\n");
        assert_eq!(program_text(words, none), "usage: bill PENCE [CALLS]\n");
    }
    assert_eq!(program_text(&[b"7"], none), "refused 1\n");
    assert_eq!(program_text(&[b"7", b"calls"], none), "refused 1\n");
    let no_library = |name: &[u8]| all(name).filter(|_| name != b"library.bin");
    assert_eq!(program_text(&[b"7"], no_library), "refused 8\n");
    assert_eq!(program_text(&[b"7", b"calls"], no_library), "refused 8\n");
}

/// What compare_bill meets, unless another count or seed is named.
#[test]
fn the_random_cases_say_something_of_bills() {
    let mut rng = Rng::new(1);
    let (mut several, mut passed_over, mut faulted, mut gaps, mut tied) = (0, 0, 0, 0, 0);
    let mut answers = [0; 30];
    for _ in 0..1000 {
        let case = bill_case(&mut rng);
        let bill = pence(case.bill.as_bytes()).unwrap();
        let fresh = match open_files(&case.jobs, &case.library) {
            Ok(fresh) => fresh,
            Err(refusal) => {
                answers[refusal as usize] += 1;
                continue;
            }
        };
        for (_, calls) in &case.plays {
            let run = run_after(fresh.clone(), calls);
            answers[shares_of(&run, bill).err().unwrap_or(0) as usize] += 1;
        }
        let run = hand_run(&case.jobs, &fresh.memory, &TODAY).unwrap();
        let wards = wards(&run);
        if wards.len() < 2 {
            continue;
        }
        several += 1;
        faulted += (run.records[0].fault != 0) as usize;
        let weights: Vec<u64> = wards.iter().map(|ward| ward.weight).collect();
        let shares = shared(bill, &weights);
        // Two of one weight, the lower number of which has a penny more.
        tied += (0..wards.len())
            .any(|i| (0..i).any(|j| weights[i] == weights[j] && shares[i] < shares[j]))
            as usize;
        let made = |job: &usize| run.records[*job].state != NEVER_MADE;
        let first = wards[0].number;
        passed_over += (first > 1) as usize;
        gaps += (first..wards[1].number).any(|job| !made(&job)) as usize;
    }
    assert!(several >= 500);
    for count in [faulted, tied, passed_over, gaps] {
        assert!(count >= 40, "{faulted} {tied} {passed_over} {gaps}");
    }
    for answer in [0, 28, 29] {
        assert!(answers[answer] >= 200, "{answers:?}");
    }
    assert!(answers[1..=8].iter().filter(|count| **count > 0).count() >= 5);
}
