//! #111: rounds with so many workers, against every choice of calls on small lists. #112: the foremost job's
//! move. #103: what a search finds.

use std::collections::HashMap;

use second::cases::*;
use second::coordinator::call;
use second::list::task_count;
use second::named::*;
use second::rng::Rng;
use second::rounds::*;
use second::run::{
    at_its_end, footprint_of, may_write, search_modes, test_start, test_step, ENDED, NEVER_MADE,
    READ, RECORDS, SUM, WAITING, WRITE,
};
use second::*;

fn fresh(bytes: &[u8], library: &[u32]) -> Run {
    open(bytes, library, &TODAY).expect("an accepted list with its library")
}

/// A fresh run of a list, with a library of small numbers.
fn fresh_of(bytes: &[u8]) -> Run {
    let locations = decode(bytes).expect("an accepted list").locations;
    let library: Vec<u32> = (0..locations as u32).map(|entry| 5 + entry).collect();
    fresh(bytes, &library)
}

fn rounds_of(run: &Run, workers: u32) -> u64 {
    all_rounds(run, workers).len() as u64
}

/// The jobs that call in each round.
fn jobs_of_rounds(run: &Run, workers: u32) -> Vec<Vec<u32>> {
    let jobs = |round: Vec<Call>| round.into_iter().map(|(_, task)| task).collect();
    all_rounds(run, workers).into_iter().map(jobs).collect()
}

// ---------------------------------------------------------------------------------------------
// Examples

#[test]
fn rounds_of_p() {
    for (workers, expected) in [(1, 13), (2, 11), (3, 11), (16, 11)] {
        let report = rounds(workers, &EXAMPLE_P, &LIBRARY_P, &TODAY);
        let expected = Report {
            rounds: expected,
            calls: 13,
            span: 11,
        };
        assert_eq!(report, Ok(expected), "{workers} workers");
    }
    let run = fresh(&EXAMPLE_P, &LIBRARY_P);
    let expected: [&[u32]; 11] = [
        &[0],
        &[0],
        &[1, 0],
        &[1, 0],
        &[1],
        &[1],
        &[2],
        &[2],
        &[2],
        &[2],
        &[2],
    ];
    assert_eq!(jobs_of_rounds(&run, 2), expected);
}

#[test]
fn refusals_of_rounds() {
    let workers = [0, 17, 128, 256, 257, u32::MAX];
    // 24 before all else: before 1, 8, 21 and 22.
    let mut bad_number = TODAY;
    bad_number[3] = 0;
    for workers in workers {
        assert_eq!(rounds(workers, &EXAMPLE_P, &LIBRARY_P, &TODAY), Err(24));
        assert_eq!(rounds(workers, &[0x4A], &[], &[]), Err(24));
        assert_eq!(rounds(workers, &EXAMPLE_P, &[5], &[]), Err(24));
        assert_eq!(rounds(workers, &EXAMPLE_P, &LIBRARY_P, &[]), Err(24));
        assert_eq!(
            rounds(workers, &EXAMPLE_P, &LIBRARY_P, &bad_number),
            Err(24)
        );
    }
    // Then open's, in its order.
    let mut rng = Rng::new(24);
    for workers in 1..=16 {
        for refusal in 1..=7 {
            let bytes = damaged_list(&mut rng, refusal);
            assert_eq!(rounds(workers, &bytes, &[], &[]), Err(refusal));
        }
        assert_eq!(rounds(workers, &EXAMPLE_P, &[5], &[]), Err(8));
        assert_eq!(
            rounds(workers, &EXAMPLE_P, &LIBRARY_P, &TODAY[..14]),
            Err(21)
        );
        assert_eq!(
            rounds(workers, &EXAMPLE_P, &LIBRARY_P, &bad_number),
            Err(22)
        );
        assert!(rounds(workers, &EXAMPLE_P, &LIBRARY_P, &TODAY).is_ok());
    }
}

/// The table changes nothing but weights.
#[test]
fn rounds_do_not_depend_on_the_weights() {
    let mut rng = Rng::new(3);
    for workers in 1..=16 {
        let table = random_table(&mut rng);
        assert_eq!(
            rounds(workers, &EXAMPLE_P, &LIBRARY_P, &table),
            rounds(workers, &EXAMPLE_P, &LIBRARY_P, &TODAY)
        );
    }
}

#[test]
fn what_is_printed_for_p() {
    let library = library_bytes(&LIBRARY_P);
    let text = rounds_text(&EXAMPLE_P, &library);
    let used = [100, 59, 39, 29, 23, 19, 16, 14, 13, 11, 10, 9, 9, 8, 7, 7];
    let mut expected = "calls 13\nspan 11\n".to_string();
    for (i, used) in used.iter().enumerate() {
        let rounds = if i == 0 { 13 } else { 11 };
        expected.push_str(&format!("{} {rounds} {used}%\n", i + 1));
    }
    expected.push_str("enough 2\n");
    assert_eq!(text, expected);
    assert_eq!(files_rounds(Some(&EXAMPLE_P), Some(&library)), text);
    // As the coordinator: 1 without jobs.bin, a library.bin that is not there is empty.
    assert_eq!(files_rounds(None, Some(&library)), "refused 1\n");
    assert_eq!(files_rounds(Some(&EXAMPLE_P), None), "refused 8\n");
    assert_eq!(rounds_text(&EXAMPLE_P, &library[..7]), "refused 8\n");
    assert_eq!(rounds_text(&EXAMPLE_P[..53], &library), "refused 1\n");
    assert!(rounds_text(&[], &[0; 4]).starts_with("calls 2\nspan 2\n1 2 100%\n2 2 50%\n"));
    assert!(rounds_text(&[], &[0; 4]).ends_with("\n16 2 6%\nenough 1\n"));
}

fn enough(bytes: &[u8]) -> String {
    let locations = decode(bytes).unwrap().locations;
    let text = rounds_text(bytes, &vec![0; 4 * locations]);
    let last = text.lines().last().expect("a line");
    last.strip_prefix("enough ").expect("enough").to_string()
}

/// 15 jobs and job 0 are ready at once, then 16 and job 0, then more.
#[test]
fn more_jobs_than_workers() {
    assert_eq!(enough(&jobs_at_once(15, 1, 0)), "16");
    assert_eq!(enough(&jobs_at_once(16, 1, 0)), "none");
    assert_eq!(enough(&jobs_at_once(32, 0, 0)), "none");
    let run = fresh_of(&jobs_at_once(16, 1, 0));
    let most = |workers| {
        let rounds = all_rounds(&run, workers);
        rounds.iter().map(Vec::len).max().unwrap()
    };
    assert_eq!(most(16), 16);
    assert_eq!(most(17), 17);
    assert_eq!(most(128), 17);
    assert_eq!(rounds_of(&run, 16), 6);
    assert_eq!(rounds_of(&run, 17), 5);
    // Rounds that fall with each worker, up to a number between.
    let run = fresh_of(&jobs_at_once(5, 4, 0));
    let falling: Vec<u64> = (1..=8).map(|workers| rounds_of(&run, workers)).collect();
    assert_eq!(falling, [33, 20, 14, 14, 9, 8, 8, 8]);
}

/// The first jobs in the order aren't always the best choice: here the eleventh worker costs a round.
#[test]
fn a_worker_more_can_take_a_round_more() {
    let other = constant(1, 9);
    let bytes = list(
        1,
        &[&[]],
        &[
            &[
                fan(2, 0, 4),
                fan(2, 0, 2),
                spawn(1, 0),
                spawn(2, 0),
                fan(1, 0, 4),
            ],
            &[fan(2, 0, 2), other, fan(2, 0, 2), other, other],
            &[other],
        ],
    );
    let run = fresh_of(&bytes);
    let rounds: Vec<u64> = (9..=13).map(|workers| rounds_of(&run, workers)).collect();
    assert_eq!(rounds, [18, 17, 18, 17, 16]);
    assert_eq!(rounds_of(&run, 128), 13);
}

/// #111, a job freed and a job made within a round: it moves in the next.
#[test]
fn jobs_freed_and_made_within_a_round() {
    // Two writers of one entry: job 2 is ready at the start of the round behind job 1's end.
    let run = fresh_of(&one_entry_in_turn(&[1, 1]));
    let expected: [&[u32]; 12] = [
        &[0],
        &[0],
        &[1, 0],
        &[1],
        &[1],
        &[1],
        &[2],
        &[2],
        &[2],
        &[2],
        &[0],
        &[0],
    ];
    assert_eq!(jobs_of_rounds(&run, 128), expected);
    // A child stands ahead of its spawner, and calls first in the next round.
    let run = fresh_of(&jobs_at_once(2, 1, 2));
    let expected: [&[u32]; 5] = [&[0], &[0], &[1, 2, 0], &[1, 2, 0], &[1, 2, 0]];
    assert_eq!(jobs_of_rounds(&run, 128), expected);
}

// ---------------------------------------------------------------------------------------------
// Every choice

/// What a run can still do depends on this alone, its list being given.
type State = (Vec<usize>, Vec<u32>, Vec<Record>);

fn state_of(run: &Run) -> State {
    let made = run
        .records
        .iter()
        .filter(|record| record.state != NEVER_MADE);
    (
        run.order.clone(),
        run.memory.clone(),
        made.cloned().collect(),
    )
}

/// The run behind these calls, each of which is accepted, in this order.
fn behind(run: &Run, calls: &[Call]) -> Run {
    let mut next = run.clone();
    for (kind, task) in calls {
        assert_eq!(call(&mut next, *kind, *task), Ok(()));
    }
    next
}

/// All choices of at least one and at most `most` of these.
fn choices(calls: &[Call], most: u32) -> Vec<Vec<Call>> {
    (1u32..1 << calls.len())
        .filter(|choice| choice.count_ones() <= most)
        .map(|choice| {
            let chosen = |i: &usize| choice >> i & 1 == 1;
            (0..calls.len()).filter(chosen).map(|i| calls[i]).collect()
        })
        .collect()
}

/// #111, "Every other choice of at most P such calls per round, one per job, that finishes the list": the
/// least number of rounds of any of them. All choices are tried, but for empty rounds, which only add one.
fn least_rounds(run: &Run, workers: u32, known: &mut HashMap<State, u64>) -> u64 {
    if run.order.is_empty() {
        return 0;
    }
    let state = state_of(run);
    if let Some(least) = known.get(&state) {
        return *least;
    }
    let ready = calls_of_round(run, 128);
    let least = choices(&ready, workers)
        .iter()
        .map(|choice| 1 + least_rounds(&behind(run, choice), workers, known))
        .min()
        .expect("some call is accepted");
    known.insert(state, least);
    least
}

/// What every choice on these lists met.
#[derive(Debug, Default)]
struct Tried {
    lists: u64,
    states: usize,
    /// By the workers: where the rounds are more than the span, and more than the least of all choices; where
    /// the least of all choices is more than the span.
    above_span: u64,
    above_least: u64,
    least_above_span: u64,
}

fn try_every_choice(run: &Run, tried: &mut Tried) {
    let Report { calls, span, .. } = report(run, 1);
    tried.lists += 1;
    for workers in [1, 2, 3, 4, 5, 16, 128] {
        let mut known = HashMap::new();
        let least = least_rounds(run, workers, &mut known);
        let rounds = rounds_of(run, workers);
        tried.states += known.len();
        assert!(least >= span, "{least} rounds of {workers}, span {span}");
        assert!(workers as u64 * least >= calls);
        assert!(rounds >= least);
        match workers {
            1 => assert_eq!((rounds, least), (calls, calls)),
            128 => assert_eq!((rounds, least), (span, span)),
            _ => {}
        }
        tried.above_span += (workers > 1 && rounds > span) as u64;
        tried.above_least += (rounds > least) as u64;
        tried.least_above_span += (workers > 1 && least > span) as u64;
    }
}

#[test]
fn every_choice_on_named_lists() {
    let load = Instruction::Load { a: 1, b: 0 };
    let mut tried = Tried::default();
    for bytes in [
        EXAMPLE_P.to_vec(),
        Vec::new(),
        long_job_last(),
        jobs_at_once(1, 2, 1),
        jobs_at_once(2, 0, 4),
        jobs_at_once(3, 1, 0),
        jobs_at_once(4, 0, 2),
        one_entry_in_turn(&[1, 1]),
        one_entry_in_turn(&[0, 0, 1]),
        one_entry_in_turn(&[0, 4, 4]),
        one_entry_in_turn(&[4, 4, 0, 0]),
        children_within_rounds(),
        list(1, &[&[read_line(0)]], &[&[fan(1, 0, 3), load], &[load]]),
    ] {
        try_every_choice(&fresh_of(&bytes), &mut tried);
    }
    assert!(tried.above_span > 5 && tried.above_least > 1, "{tried:?}");
    // The front jobs are the wrong choice: two workers take 11 rounds, and 9 are enough.
    let run = fresh_of(&long_job_last());
    let least = least_rounds(&run, 2, &mut HashMap::new());
    assert_eq!((rounds_of(&run, 2), least), (11, 9));
}

/// A small list: few jobs and calls, more than one job.
fn small_run(rng: &mut Rng) -> Run {
    loop {
        let shape = Shape {
            locations: rng.between(1, 3),
            footprints: rng.between(1, 4),
            bodies: rng.between(2, 4),
            lines: rng.between(1, 2),
            instructions: rng.between(1, 4),
            full: rng.percent(50),
            spawn_percent: rng.pick(&[40, 60, 80]),
            fan_percent: rng.pick(&[0, 30, 60]),
            sum_percent: rng.pick(&[0, 30, 70]),
            rate_percent: rng.pick(&[0, 10]),
            tame_percent: rng.pick(&[60, 95, 100]),
            root_limit: rng.between(3, 6) as u64,
            other_limit: rng.between(1, 3) as u64,
            fill: rng.percent(30),
        };
        let list = list_of_shape(rng, &shape);
        let bytes = encode(&list);
        let run = fresh(&bytes, &random_library(rng, list.locations));
        let calls = all_rounds(&run, 1).len();
        if task_count(&list, 0) >= 3 && (9..=17).contains(&calls) {
            return run;
        }
    }
}

#[test]
fn every_choice_on_random_lists() {
    let mut rng = Rng::new(111);
    let mut tried = Tried::default();
    for _ in 0..500 {
        try_every_choice(&small_run(&mut rng), &mut tried);
    }
    assert!(tried.above_span > 200, "{tried:?}");
    assert!(tried.above_least > 50, "{tried:?}");
    assert!(tried.least_above_span > 200, "{tried:?}");
}

// ---------------------------------------------------------------------------------------------
// Random lists

/// What the rounds on random lists met, by list and number of workers but one.
#[derive(Debug, Default)]
struct Bounds {
    above_span: u64,
    equal: u64,
    equal_above_span: u64,
}

/// #111: "P × rounds is at most calls + (P − 1) × span"; and for the rounds themselves the two bounds of
/// every choice.
fn assert_bounds(run: &Run, bounds: &mut Bounds) {
    let calls = all_rounds(run, 1).len() as u64;
    let span = rounds_of(run, 128);
    assert_eq!(report(run, 3).calls, calls);
    for workers in 1..=16 {
        let rounds = rounds_of(run, workers);
        let product = workers as u64 * rounds;
        let bound = calls + (workers as u64 - 1) * span;
        assert!(calls <= product && product <= bound);
        assert!(rounds >= span);
        if workers > 1 {
            bounds.above_span += (rounds > span) as u64;
            bounds.equal += (product == bound) as u64;
            bounds.equal_above_span += (product == bound && rounds > span) as u64;
        }
    }
}

fn random_rounds_run(rng: &mut Rng) -> Run {
    loop {
        let (jobs, library) = rounds_case(rng);
        if let Ok(run) = coordinator::open_files(&jobs, &library) {
            return run;
        }
    }
}

#[test]
fn bounds_of_the_rounds() {
    let mut bounds = Bounds::default();
    // The bound is met where a full round never shortens what is left for 128 workers.
    for children in [2, 4, 8, 16] {
        let run = fresh_of(&jobs_at_once(children, 0, 6));
        let span = rounds_of(&run, 128);
        let calls = all_rounds(&run, 1).len() as u64;
        let workers = children as u64;
        let rounds = rounds_of(&run, workers as u32);
        assert!(rounds > span);
        assert_eq!(workers * rounds, calls + (workers - 1) * span);
        assert_bounds(&run, &mut bounds);
    }
    assert!(bounds.equal_above_span >= 10, "{bounds:?}");
    let mut rng = Rng::new(16);
    let mut bounds = Bounds::default();
    for _ in 0..500 {
        assert_bounds(&random_rounds_run(&mut rng), &mut bounds);
    }
    for _ in 0..500 {
        assert_bounds(&small_run(&mut rng), &mut bounds);
    }
    assert!(bounds.above_span > 1000, "{bounds:?}");
    assert!(bounds.equal > 500, "{bounds:?}");
    assert!(bounds.equal_above_span > 10, "{bounds:?}");
}

/// All orders of these.
fn permutations(calls: &[Call]) -> Vec<Vec<Call>> {
    if calls.is_empty() {
        return vec![Vec::new()];
    }
    let mut all = Vec::new();
    for i in 0..calls.len() {
        let mut rest = calls.to_vec();
        let first = rest.remove(i);
        for mut order in permutations(&rest) {
            order.insert(0, first);
            all.push(order);
        }
    }
    all
}

/// Plays the rounds; what a call's tests say is what a try on a copy says, a round's calls give one result in
/// every order, and the run ends as the hand run does. How many rounds had several orders.
fn assert_rounds(fresh: &Run, workers: u32) -> u64 {
    let mut run = fresh.clone();
    let mut several = 0;
    for round in all_rounds(fresh, workers) {
        let mut tried = Vec::new();
        for task in &run.order {
            let next = next_call_of(&run, *task);
            let (kind, number) = next;
            if call(&mut run.clone(), kind, number).is_ok() && tried.len() < workers as usize {
                tried.push(next);
            }
        }
        assert_eq!(tried, round);
        let after = behind(&run, &round);
        if (2..=5).contains(&round.len()) {
            several += 1;
            for order in permutations(&round) {
                assert!(behind(&run, &order) == after, "{order:?}");
            }
        }
        run = after;
    }
    let hand = hand_run(&encode(&fresh.list), &fresh.memory, &fresh.table).unwrap();
    assert!(run == hand);
    several
}

#[test]
fn a_round_gives_one_result_in_every_order() {
    assert_eq!(permutations(&[(0, 0), (0, 1), (0, 2)]).len(), 6);
    let mut rng = Rng::new(5);
    let mut several = 0;
    for _ in 0..300 {
        let run = small_run(&mut rng);
        for workers in [2, 3, 4, 5, 128] {
            several += assert_rounds(&run, workers);
        }
    }
    let mut lists = 0;
    while lists < 200 {
        let run = random_rounds_run(&mut rng);
        if all_rounds(&run, 1).len() <= 150 {
            several += assert_rounds(&run, rng.pick(&[3, 4, 5]));
            lists += 1;
        }
    }
    assert!(several > 5000, "{several}");
}

#[test]
fn random_cases_of_rounds_reach_every_answer() {
    let mut rng = Rng::new(1);
    let mut enough = HashMap::new();
    for _ in 0..1000 {
        let (jobs, library) = rounds_case(&mut rng);
        let text = rounds_text(&jobs, &library);
        let last = text.lines().last().unwrap().to_string();
        *enough.entry(last).or_insert(0) += 1;
    }
    for number in 1..=8 {
        assert!(
            enough.contains_key(&format!("refused {number}")),
            "{number}"
        );
    }
    // Each number of workers from 1 on, but for a few.
    let numbers = (1..=16).filter(|number| enough.contains_key(&format!("enough {number}")));
    assert!(numbers.count() > 13);
    assert!(enough["enough none"] > 100);
}

// ---------------------------------------------------------------------------------------------
// #112

/// The call of the hand run, counted from 1, with which it ends each job.
fn ends_by_hand(run: &mut Run, task: usize, ends: &mut [u64; RECORDS]) {
    make(run, (0, task as u32));
    while !at_its_end(run, task) {
        let before = run.records.clone();
        make(run, (1, task as u32));
        let made = |child: &usize| {
            before[*child].state == NEVER_MADE && run.records[*child].state == WAITING
        };
        let children: Vec<usize> = (0..RECORDS).filter(made).collect();
        for child in children {
            ends_by_hand(run, child, ends);
        }
    }
    make(run, (2, task as u32));
    ends[task] = run.calls;
}

/// One side makes the foremost job's move; the other makes calls between, of which it keeps only refused ones
/// where it is told so.
fn assert_turns(rng: &mut Rng, fresh: &Run, only_refused: bool) {
    let mut hand = fresh.clone();
    let mut ends = [0; RECORDS];
    ends_by_hand(&mut hand, 0, &mut ends);
    let mut run = fresh.clone();
    for turn in 1..=hand.calls {
        for _ in 0..rng.below(4) {
            let (kind, task) = next_call(rng, rng_strategy(turn), &run, 0, 50);
            let mut next = run.clone();
            if call(&mut next, kind, task).is_err() || !only_refused {
                run = next;
            }
        }
        if run.order.is_empty() {
            assert!(!only_refused);
            break;
        }
        assert_eq!(foremost_move(&mut run), Ok(()));
        for task in 0..RECORDS {
            let ended = run.records[task].state == ENDED;
            let due = ends[task] != 0 && ends[task] <= turn;
            // "job n has ended by the first side's K-th turn"; "it ends on exactly that turn"
            assert!(ended || !due);
            assert!(due || !ended || !only_refused);
        }
    }
    assert!(run == hand);
    assert_eq!(foremost_move(&mut run), Err(25));
    assert!(run == hand);
}

fn rng_strategy(turn: u64) -> Strategy {
    STRATEGIES[turn as usize % STRATEGIES.len()]
}

#[test]
fn the_foremost_jobs_move() {
    let mut rng = Rng::new(112);
    for _ in 0..300 {
        let run = random_rounds_run(&mut rng);
        if all_rounds(&run, 1).len() <= 400 {
            assert_turns(&mut rng, &run, true);
            assert_turns(&mut rng, &run, false);
        }
    }
}

// ---------------------------------------------------------------------------------------------
// #103

/// The entries of the job's footprint, each in its own mode.
fn own_modes(run: &Run, task: usize) -> Vec<(usize, u8)> {
    let footprint = footprint_of(run, task).into_iter();
    footprint
        .map(|entry| (entry, run.records[task].modes[entry]))
        .collect()
}

#[test]
fn what_a_search_finds() {
    // Jobs 1 to 6: read, read, write, read, sum, write.
    let mut run = fresh_of(&one_entry_in_turn(&[0, 0, 1, 0, 4, 1]));
    for (kind, count) in [(0, 1), (1, 6)] {
        for _ in 0..count {
            make(&mut run, (kind, 0));
        }
    }
    let find = |task, mode| search_modes(&run, task, &[(0, mode)]);
    assert_eq!(find(1, READ), Ok((0, 1)));
    assert_eq!(find(1, WRITE), Ok((0, 1)));
    assert_eq!(find(2, READ), Ok((0, 2)));
    assert_eq!(find(2, WRITE), Ok((20, 2)));
    assert_eq!(find(2, SUM), Ok((20, 2)));
    assert_eq!(find(3, WRITE), Ok((20, 3)));
    assert_eq!(find(3, READ), Ok((0, 3)));
    for task in [4, 5, 6, 0] {
        assert_eq!(find(task, READ), Ok((19, 3)));
    }
    // No entry: nothing holds back, it stops at the job itself.
    assert_eq!(search_modes(&run, 6, &[]), Ok((0, 6)));
    assert_eq!(search_modes(&run, 0, &[]), Ok((0, 7)));
    assert_eq!(find(7, READ), Err(10));
    assert_eq!(find(127, READ), Err(10));
    assert_eq!(find(128, READ), Err(9));
    assert_eq!(find(u32::MAX, READ), Err(9));
}

/// What a search of the whole footprint finds is what start answers; and of one entry asked for in each mode,
/// by the modes ahead.
#[test]
fn searches_on_random_runs() {
    let mut rng = Rng::new(103);
    let mut found = HashMap::new();
    for _ in 0..600 {
        let mut run = random_rounds_run(&mut rng);
        for turn in 0..120 {
            if run.order.is_empty() {
                break;
            }
            let (kind, task) = next_call(&mut rng, rng_strategy(turn / 20), &run, 0, 0);
            make(&mut run, (kind, task));
            if !rng.percent(30) {
                continue;
            }
            for task in run.order.clone() {
                assert_searches(&run, task, &mut found);
            }
        }
    }
    for answer in [0, 19, 20] {
        assert!(found[&answer] > 1000, "{found:?}");
    }
}

fn assert_searches(run: &Run, task: usize, found: &mut HashMap<u32, u64>) {
    let number = task as u32;
    let place = run.order.iter().position(|other| *other == task).unwrap();
    let (hold, looked) = search_modes(run, number, &own_modes(run, task)).unwrap();
    *found.entry(hold).or_insert(0) += 1;
    assert!(looked <= place + 1 && (hold == 19 || looked == place + 1));
    if run.records[task].state == WAITING {
        let answer = test_start(run, number).err().unwrap_or(0);
        assert_eq!(answer, hold);
    } else if !at_its_end(run, task) {
        // A step that is held back has an entry for which a search finds the same.
        if let Err(answer @ (19 | 20)) = test_step(run, number) {
            let alone = |entry: &usize| {
                let asked = [(*entry, READ), (*entry, WRITE), (*entry, SUM)];
                asked.iter().any(|asked| {
                    search_modes(run, number, &[*asked]).is_ok_and(|(hold, _)| hold == answer)
                })
            };
            assert!(footprint_of(run, task).iter().any(alone));
        }
    }
    for entry in 0..run.list.locations {
        let ahead: Vec<u8> = run.order[..place]
            .iter()
            .map(|other| run.records[*other].modes[entry])
            .collect();
        let writer = ahead.iter().position(|mode| *mode == WRITE);
        for (asked, beside) in [(READ, Some(READ)), (WRITE, None), (SUM, Some(SUM))] {
            let free = ahead.iter().all(|mode| *mode == 0 || Some(*mode) == beside);
            let hold = match writer {
                Some(_) => 19,
                None if free => 0,
                None => 20,
            };
            let looked = writer.unwrap_or(place) + 1;
            let answer = search_modes(run, number, &[(entry, asked)]);
            assert_eq!(answer, Ok((hold, looked)));
        }
        if run.records[task].modes[entry] == WRITE {
            assert_eq!(
                may_write(run, task, entry),
                ahead.iter().all(|mode| *mode == 0)
            );
        }
    }
}
