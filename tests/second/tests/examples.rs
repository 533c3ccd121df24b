//! Every example of document 01, "Publishing examples", and single sentences with a number in them, of
//! document 02 too.

use second::cases::{doubling_list, fan_tree, library_bytes, table_bytes, EXAMPLE_P};
use second::coordinator::call;
use second::list::task_counts;
use second::named::{
    children_that_sum, constant, div, fan, fan_of_rates, fan_of_strengths, fans_and_spawns,
    lines_of_each_mode, list, mul, pairs_of_lines, rate_between_spawns, rate_of_two, read_line,
    spawn, starts_behind_reader_and_writer, steps_behind_reader_and_writer, sum, sum_line,
    sums_that_wrap, three_modes, two_that_sum, write_line, LIBRARY_P, READ_BY_CHILD, SUM_BY_CHILD,
    WRITE_BY_CHILD,
};
use second::run::{may_read, never_made, product, quotient, search, ENDED, STARTED, WAITING};
use second::*;

/// The marked records of the empty list: C = 1, no footprints, one empty sheet.
const MARKED: [u8; 8] = [0x4A, 0x48, 1, 0, 1, 0x4A, 0x42, 0];

fn queue_of(run: &Run, location: u32) -> Vec<u16> {
    let mut places = [0; 128];
    let count = queue(run, location, &mut places).unwrap();
    places[..count].to_vec()
}

/// Start, then as many steps.
fn start_and_step(run: &mut Run, task: u32, steps: usize) {
    assert_eq!(start(run, task), Ok(()));
    for _ in 0..steps {
        assert_eq!(step(run, task), Ok(()));
    }
}

fn start_and_end(run: &mut Run, task: u32) {
    assert_eq!(start(run, task), Ok(()));
    assert_eq!(end(run, task), Ok(()));
}

#[test]
fn p_has_54_bytes_and_three_jobs() {
    let p = list(
        2,
        &[&[write_line(0)], &[read_line(0), write_line(1)]],
        &[
            &[spawn(1, 0), spawn(2, 1)],
            &[constant(1, 9), Instruction::Store { a: 0, b: 1 }],
            &[
                Instruction::Load { a: 1, b: 0 },
                constant(2, 1),
                Instruction::Store { a: 2, b: 1 },
            ],
        ],
    );
    assert_eq!(p.len(), 54);
    assert_eq!(p, EXAMPLE_P);
    assert_eq!(check(&EXAMPLE_P), Ok(3));
}

#[test]
fn p_hand_run() {
    let run = hand_run(&EXAMPLE_P, &LIBRARY_P, &TODAY).unwrap();
    assert_eq!(run.memory, [9, 9]);
    assert_eq!(run.calls, 13);
    assert_eq!(run.weight, 50);
    assert!(run.order.is_empty());
    for task in 0..3 {
        assert_eq!(record(&run, task).unwrap().state, ENDED);
    }
    for task in 3..128 {
        assert_eq!(record(&run, task).unwrap(), never_made());
    }
    assert_eq!(record(&run, 128), Err(9));
    // 5 + 8 + 8 + 2, 5 + 1 + 4 + 2, 5 + 3 + 1 + 4 + 2
    let weights: Vec<u64> = (0..3).map(|task| run.records[task].weight).collect();
    assert_eq!(weights, [23, 12, 15]);
}

#[test]
fn p_orders_and_queues() {
    let mut run = open(&EXAMPLE_P, &LIBRARY_P, &TODAY).unwrap();
    assert_eq!(run.order, [0]);
    assert_eq!(run.records[0].state, WAITING);
    start_and_step(&mut run, 0, 2);
    assert_eq!(run.order, [1, 2, 0]);
    assert_eq!(queue_of(&run, 0), [513, 258, 512]);
    assert_eq!(queue_of(&run, 1), [514, 512]);
    assert_eq!((run.calls, run.weight), (3, 21));

    // #102: "start 2 now gives 19"
    let before = run.clone();
    assert_eq!(start(&mut run, 2), Err(19));
    assert_eq!(run, before);
    assert_eq!(start(&mut run, 1), Ok(()));
    assert_eq!(end(&mut run, 0), Ok(()));
    // "Its children keep their places."
    assert_eq!(run.order, [1, 2]);
}

#[test]
fn queue_refusals() {
    let mut run = open(&EXAMPLE_P, &LIBRARY_P, &TODAY).unwrap();
    start_and_step(&mut run, 0, 2);
    let mut places = [7u16; 2];
    assert_eq!(queue(&run, 2, &mut places), Err(16));
    assert_eq!(queue(&run, u32::MAX, &mut []), Err(16));
    assert_eq!(queue(&run, 0, &mut places), Err(17));
    assert_eq!(places, [7, 7]);
    let mut places = [7u16; 4];
    assert_eq!(queue(&run, 0, &mut places), Ok(3));
    assert_eq!(places, [513, 258, 512, 7]);
}

#[test]
fn two_readers_start_beside_each_other() {
    let bytes = list(
        1,
        &[&[read_line(0)]],
        &[
            &[
                spawn(1, 0),
                spawn(1, 0),
                Instruction::Load { a: 1, b: 0 },
                Instruction::Store { a: 0, b: 1 },
            ],
            &[],
        ],
    );
    let mut run = open(&bytes, &[5], &TODAY).unwrap();
    start_and_step(&mut run, 0, 2);
    assert_eq!(start(&mut run, 2), Ok(()));
    assert_eq!(start(&mut run, 1), Ok(()));
    assert!(may_read(&run, 0, 0));
    assert_eq!(step(&mut run, 0), Ok(()));
    assert_eq!(run.records[0].registers, [0, 5, 0, 0]);
    // #102: "the store behind two readers 20"
    assert_eq!(step(&mut run, 0), Err(20));
    assert_eq!(end(&mut run, 1), Ok(()));
    assert_eq!(step(&mut run, 0), Err(20));
    assert_eq!(end(&mut run, 2), Ok(()));
    assert_eq!(step(&mut run, 0), Ok(()));
}

#[test]
fn a_writer_does_not_pass_a_reader() {
    let bytes = list(
        1,
        &[&[read_line(0)], &[write_line(0)]],
        &[&[spawn(1, 0), spawn(1, 1), spawn(1, 0)], &[]],
    );
    let mut run = open(&bytes, &[5], &TODAY).unwrap();
    start_and_step(&mut run, 0, 3);
    assert_eq!(run.order, [1, 2, 3, 0]);
    assert_eq!(start(&mut run, 1), Ok(()));
    // A writer behind a reader, and a reader behind a writer that waits.
    assert_eq!(start(&mut run, 2), Err(20));
    assert_eq!(start(&mut run, 3), Err(19));
    assert_eq!(end(&mut run, 1), Ok(()));
    assert_eq!(start(&mut run, 2), Ok(()));
    assert_eq!(start(&mut run, 3), Err(19));
    assert_eq!(end(&mut run, 2), Ok(()));
    assert_eq!(start(&mut run, 3), Ok(()));
}

/// #102: "For a start, all entries of the footprint count".
#[test]
fn a_start_looks_at_every_entry_of_the_footprint() {
    let bytes = starts_behind_reader_and_writer();
    let mut run = open(&bytes, &[5, 6, 7, 8], &TODAY).unwrap();
    start_and_step(&mut run, 0, 6);
    assert_eq!(run.order, [1, 2, 3, 4, 5, 6, 0]);
    // Behind the reader 1; the writer 2 is ahead of it, but not in its queue.
    assert_eq!(start(&mut run, 3), Err(20));
    // Behind the reader at one entry and the writer at another, the reader's entry first or last.
    assert_eq!(start(&mut run, 4), Err(19));
    assert_eq!(start(&mut run, 5), Err(19));
    // In no queue.
    assert_eq!(start(&mut run, 6), Ok(()));
    // The writer waited till here; it counts too when it has started, and no longer when it has ended.
    assert_eq!(start(&mut run, 2), Ok(()));
    assert_eq!(start(&mut run, 4), Err(19));
    assert_eq!(start(&mut run, 5), Err(19));
    assert_eq!(end(&mut run, 2), Ok(()));
    assert_eq!(start(&mut run, 4), Err(20));
    assert_eq!(start(&mut run, 5), Err(20));
    start_and_end(&mut run, 1);
    for task in [5, 4, 3] {
        assert_eq!(start(&mut run, task), Ok(()));
    }
}

/// #102: "for a step, the one entry concerned".
#[test]
fn a_step_looks_at_one_entry() {
    let bytes = steps_behind_reader_and_writer();
    let mut run = open(&bytes, &LIBRARY_P, &TODAY).unwrap();
    start_and_step(&mut run, 0, 3);
    assert_eq!(run.order, [1, 2, 0]);
    // Load and store at entry 0, where the reader is ahead.
    assert_eq!(step(&mut run, 0), Ok(()));
    assert_eq!(step(&mut run, 0), Err(20));
    start_and_end(&mut run, 1);
    assert_eq!(step(&mut run, 0), Ok(()));
    // Then the load at entry 1, where the writer is.
    assert_eq!(step(&mut run, 0), Ok(()));
    assert_eq!(step(&mut run, 0), Err(19));
    start_and_end(&mut run, 2);
    assert_eq!(step(&mut run, 0), Ok(()));
}

/// #102: each kind of step behind jobs of each mode. The writer counts wherever it stands ahead.
#[test]
fn each_step_behind_each_mode() {
    let load = Instruction::Load { a: 1, b: 0 };
    let store = Instruction::Store { a: 0, b: 1 };
    let wait = Instruction::Wait { a: 0 };
    for (footprints, load_gives, others_give) in [
        (&[0, 0][..], Ok(()), Err(20)),
        (&[1], Err(19), Err(19)),
        (&[0, 1], Err(19), Err(19)),
        (&[1, 0], Err(19), Err(19)),
        (&[0, 1, 0], Err(19), Err(19)),
        // Footprint 2 has no entry.
        (&[2, 2], Ok(()), Ok(())),
        (&[2, 0, 2], Ok(()), Err(20)),
    ] {
        for instruction in [load, store, wait] {
            let mut root: Vec<Instruction> = footprints.iter().map(|f| spawn(1, *f)).collect();
            root.push(instruction);
            let bytes = list(1, &[&[read_line(0)], &[write_line(0)], &[]], &[&root, &[]]);
            let mut run = open(&bytes, &[5], &TODAY).unwrap();
            start_and_step(&mut run, 0, footprints.len());
            let expected = if instruction == load {
                load_gives
            } else {
                others_give
            };
            assert_eq!(
                step(&mut run, 0),
                expected,
                "{footprints:?} {instruction:?}"
            );
        }
    }
}

/// #103: from the front to the first writer on one of the entries, or to the job itself.
#[test]
fn a_search_looks_no_further_than_needed() {
    let bytes = starts_behind_reader_and_writer();
    let mut run = open(&bytes, &[5, 6, 7, 8], &TODAY).unwrap();
    // Job 0 alone: its own mode write never counts.
    assert_eq!(search(&run, 0, &[0, 1, 2, 3]), (false, 1));
    start_and_step(&mut run, 0, 6);
    assert_eq!(run.order, [1, 2, 3, 4, 5, 6, 0]);
    for (task, footprint, found) in [
        (1, &[0, 2, 3][..], (false, 1)),
        // The job's own mode write, and readers ahead, don't stop it.
        (2, &[1], (false, 2)),
        (3, &[2], (false, 3)),
        // A writer on the last entry of the footprint, a reader nearer to the front on the first.
        (4, &[0, 1], (true, 2)),
        (5, &[1, 3], (true, 2)),
        // No entry.
        (6, &[], (false, 6)),
        (0, &[0, 1, 2, 3], (true, 2)),
        // One entry concerned: the first writer on it, whoever stands ahead of that one.
        (0, &[0], (true, 4)),
        (0, &[1], (true, 2)),
        (0, &[2], (true, 3)),
        (0, &[3], (true, 5)),
        // The first in the order, not the first by entry.
        (0, &[3, 2], (true, 3)),
    ] {
        assert_eq!(
            search(&run, task, footprint),
            found,
            "job {task} {footprint:?}"
        );
    }
    // Whether the writer waits or has started does not matter.
    assert_eq!(start(&mut run, 2), Ok(()));
    assert_eq!(search(&run, 4, &[0, 1]), (true, 2));
    // When it has ended the places move up, and the search goes on to the job itself.
    assert_eq!(end(&mut run, 2), Ok(()));
    assert_eq!(run.order, [1, 3, 4, 5, 6, 0]);
    assert_eq!(search(&run, 4, &[0, 1]), (false, 3));
    assert_eq!(search(&run, 0, &[1]), (false, 6));
    // P: "start 2 now gives 19", after a look at one job.
    let mut run = open(&EXAMPLE_P, &LIBRARY_P, &TODAY).unwrap();
    start_and_step(&mut run, 0, 2);
    assert_eq!(search(&run, 2, &[0, 1]), (true, 1));
    assert_eq!(search(&run, 1, &[0]), (false, 1));
    assert_eq!(search(&run, 0, &[1]), (true, 2));
}

#[test]
fn store_to_a_read_entry_is_fault_2() {
    let bytes = list(
        1,
        &[&[read_line(0)]],
        &[
            &[spawn(1, 0), spawn(1, 0)],
            &[constant(1, 9), Instruction::Store { a: 0, b: 1 }],
        ],
    );
    let mut run = open(&bytes, &[5], &TODAY).unwrap();
    start_and_step(&mut run, 0, 2);
    // Job 2 is behind the reader 1: the fault comes before waiting.
    start_and_step(&mut run, 2, 2);
    let record = record(&run, 2).unwrap();
    assert_eq!(
        (record.fault, record.pc, record.steps, record.weight),
        (2, 1, 2, 10)
    );
    assert_eq!(run.memory, [5]);
    assert_eq!(run.order, [1, 2, 0]);
    assert_eq!(step(&mut run, 2), Err(14));
    assert_eq!(end(&mut run, 2), Ok(()));
}

#[test]
fn load_at_c_is_fault_1() {
    for number in [2, 63, 64, 65535] {
        let bytes = list(
            2,
            &[],
            &[&[constant(0, number), Instruction::Load { a: 1, b: 0 }]],
        );
        let run = hand_run(&bytes, &LIBRARY_P, &TODAY).unwrap();
        let record = record(&run, 0).unwrap();
        assert_eq!((record.fault, record.pc, record.steps), (1, 1, 2));
        assert_eq!(record.registers, [number as u32, 0, 0, 0]);
        assert_eq!((run.calls, run.weight), (4, 11));
    }
}

/// #106: "Fault 3 no longer occurs, and its example becomes an accepted spawn."
#[test]
fn an_entry_named_twice_counts_once() {
    for (lines, mode) in pairs_of_lines().into_iter().zip([1, 2, 2, 2]) {
        let bytes = list(2, &[&lines], &[&[spawn(1, 0), constant(0, 1)], &[]]);
        let mut run = open(&bytes, &LIBRARY_P, &TODAY).unwrap();
        start_and_step(&mut run, 0, 1);
        assert_eq!((run.records[0].fault, run.records[0].pc), (0, 1));
        assert_eq!(run.order, [1, 0]);
        let mut child = never_made();
        child.state = WAITING;
        child.body = 1;
        child.modes[0] = mode;
        assert_eq!(record(&run, 1).unwrap(), child);
        assert_eq!(queue_of(&run, 0), [1 + 256 * mode as u16, 512]);
        assert_eq!(queue_of(&run, 1), [512]);
        let run = hand_run(&bytes, &LIBRARY_P, &TODAY).unwrap();
        assert_eq!((run.calls, run.weight), (6, 23));
        assert_eq!(run.records[1].state, ENDED);
    }
}

/// #106: three lines and more: one common mode, else write, wherever the write line stands; the other
/// entry keeps its own mode.
#[test]
fn an_entry_named_more_than_twice() {
    for (kinds, mode) in [
        (&[0, 0, 0][..], 1),
        (&[0, 0, 1], 2),
        (&[0, 1, 0], 2),
        (&[1, 0, 0], 2),
        (&[1, 1, 1], 2),
        (&[2, 0, 2, 0, 2, 0, 2], 1),
        (&[2, 0, 2, 0, 2, 0, 3], 2),
        (&[3, 0, 2, 0, 2, 0, 2], 2),
        (&[2, 3, 0], 2),
    ] {
        let mut lines: Vec<Line> = kinds
            .iter()
            .map(|kind| Line {
                kind: *kind,
                value: 1,
            })
            .collect();
        lines.insert(1, read_line(0));
        let bytes = list(2, &[&lines], &[&[constant(1, 1), spawn(1, 0)], &[]]);
        let run = hand_run(&bytes, &LIBRARY_P, &TODAY).unwrap();
        assert_eq!(run.records[0].fault, 0);
        assert_eq!(run.records[1].modes[..3], [1, mode, 0], "{kinds:?}");
    }
}

/// #106: lines are tested by the spawner's mode, each for itself: one that may only read can't be given
/// write by naming the entry twice, and one that may write is not held to what an earlier line names.
#[test]
fn lines_are_tested_by_the_mode_of_the_spawner() {
    for (own, lines, fault) in [
        (read_line(0), [read_line(0), read_line(0)], 0),
        (read_line(0), [read_line(0), write_line(0)], 2),
        (read_line(0), [write_line(0), read_line(0)], 2),
        (write_line(0), [read_line(0), write_line(0)], 0),
        (read_line(1), [read_line(0), write_line(0)], 1),
    ] {
        let bytes = list(2, &[&[own], &lines], &[&[spawn(1, 0)], &[spawn(2, 1)], &[]]);
        let run = hand_run(&bytes, &LIBRARY_P, &TODAY).unwrap();
        assert_eq!(run.records[1].fault, fault, "{own:?} {lines:?}");
    }
}

#[test]
fn lines_are_tested_in_turn() {
    let by_register = Line { kind: 2, value: 0 };
    let cases: [(&[Line], u8); 6] = [
        // Own mode of the spawner: read 0, none at 1.
        (&[read_line(0), write_line(0)], 2),
        (&[read_line(0), read_line(0), read_line(1)], 1),
        (&[read_line(0), write_line(0), read_line(1)], 2),
        (&[read_line(1), write_line(0)], 1),
        (&[read_line(0), by_register], 0),
        (&[by_register], 0),
    ];
    for (lines, fault) in cases {
        let bytes = list(
            2,
            &[&[read_line(0)], lines],
            &[&[spawn(1, 0)], &[spawn(2, 1)], &[]],
        );
        let run = hand_run(&bytes, &LIBRARY_P, &TODAY).unwrap();
        assert_eq!(run.records[1].fault, fault);
        assert_eq!(run.records[2].state, if fault == 0 { ENDED } else { 0 });
    }
}

#[test]
fn a_child_copies_registers_and_modes() {
    let by_register = Line { kind: 3, value: 1 };
    let bytes = list(
        3,
        &[&[read_line(0), by_register]],
        &[
            &[constant(1, 2), constant(3, 8), spawn(1, 0), constant(3, 9)],
            &[],
        ],
    );
    let mut run = open(&bytes, &[5, 6, 7], &TODAY).unwrap();
    start_and_step(&mut run, 0, 4);
    let mut child = never_made();
    child.state = WAITING;
    child.body = 1;
    child.registers = [0, 2, 0, 8];
    child.modes[0] = 1;
    child.modes[2] = 2;
    assert_eq!(record(&run, 1).unwrap(), child);
    assert_eq!(run.records[0].registers, [0, 2, 0, 9]);
    // The record keeps all but the state when the job ends.
    assert_eq!(start(&mut run, 1), Ok(()));
    assert_eq!(end(&mut run, 1), Ok(()));
    child.state = ENDED;
    child.weight = 7;
    assert_eq!(record(&run, 1).unwrap(), child);
}

#[test]
fn wait_follows_the_own_mode() {
    let wait = Instruction::Wait { a: 0 };
    // A job of mode write waits for the reader ahead; a job of mode read doesn't.
    let bytes = list(
        1,
        &[&[read_line(0)]],
        &[
            &[spawn(1, 0), spawn(2, 0), wait],
            &[],
            &[wait, constant(0, 1), wait],
        ],
    );
    let mut run = open(&bytes, &[5], &TODAY).unwrap();
    start_and_step(&mut run, 0, 2);
    assert_eq!(step(&mut run, 0), Err(20));
    start_and_step(&mut run, 2, 3);
    let record = record(&run, 2).unwrap();
    assert_eq!((record.fault, record.weight), (1, 8));
}

#[test]
fn empty_body_0() {
    let bytes = list(1, &[], &[&[]]);
    let mut run = open(&bytes, &[5], &TODAY).unwrap();
    assert_eq!(step(&mut run, 0), Err(13));
    assert_eq!(end(&mut run, 0), Err(13));
    assert_eq!(start(&mut run, 0), Ok(()));
    assert_eq!(run.records[0].state, STARTED);
    assert_eq!(start(&mut run, 0), Err(11));
    assert_eq!(step(&mut run, 0), Err(14));
    assert_eq!(end(&mut run, 0), Ok(()));
    assert_eq!((run.calls, run.weight), (2, 7));
    assert_eq!(run, hand_run(&bytes, &[5], &TODAY).unwrap());
    assert_eq!(start(&mut run, 0), Err(10));
    assert_eq!(step(&mut run, 0), Err(10));
    assert_eq!(end(&mut run, 0), Err(10));
    assert_eq!(end(&mut run, 128), Err(9));
}

#[test]
fn end_needs_the_end() {
    let mut run = open(&EXAMPLE_P, &LIBRARY_P, &TODAY).unwrap();
    start_and_step(&mut run, 0, 1);
    assert_eq!(end(&mut run, 0), Err(15));
}

#[test]
fn trees_of_127_128_and_129_jobs() {
    assert_eq!(check(&encode(&doubling_list(0))), Ok(127));
    assert_eq!(check(&encode(&doubling_list(1))), Ok(128));
    assert_eq!(check(&encode(&doubling_list(2))), Err(7));
    for more in 0..2 {
        let run = hand_run(&encode(&doubling_list(more)), &[0], &TODAY).unwrap();
        for task in 0..128 {
            let made = task < 127 + more;
            assert_eq!(run.records[task].state, if made { ENDED } else { 0 });
        }
        // Each job but job 0 takes one spawn, one start and one end.
        let children = 126 + more as u64;
        assert_eq!(run.calls, children + 2 * (children + 1));
        assert_eq!(run.weight, 8 * children + 7 * (children + 1));
    }
}

#[test]
fn job_numbers_count_spawns_passed_over() {
    let bytes = list(
        1,
        &[&[]],
        &[
            &[Instruction::Skip { a: 0, b: 1 }, spawn(1, 0), spawn(1, 0)],
            &[spawn(2, 0)],
            &[],
        ],
    );
    assert_eq!(check(&bytes), Ok(5));
    let run = hand_run(&bytes, &[0], &TODAY).unwrap();
    let states: Vec<u8> = run.records[..5].iter().map(|record| record.state).collect();
    assert_eq!(states, [3, 0, 0, 3, 3]);
    assert_eq!((run.records[0].pc, run.records[0].steps), (3, 2));
}

#[test]
fn numbers_wrap_and_compare_unsigned() {
    let bytes = list(
        1,
        &[],
        &[&[
            constant(1, 1 + 256 * 2),
            Instruction::Sub { a: 2, b: 0, c: 1 },
            Instruction::Less { a: 3, b: 2, c: 1 },
            Instruction::Less { a: 0, b: 1, c: 2 },
            Instruction::Add { a: 2, b: 2, c: 1 },
        ]],
    );
    let run = hand_run(&bytes, &[0], &TODAY).unwrap();
    assert_eq!(run.records[0].registers, [1, 513, 0, 0]);
}

#[test]
fn check_examples() {
    // C = 64 passes, 65 gives 3.
    assert_eq!(check(&[0x4A, 0x48, 64, 0, 1, 0x4A, 0x42, 0]), Ok(1));
    assert_eq!(check(&[0x4A, 0x48, 65, 0, 1, 0x4A, 0x42, 0]), Err(3));
    assert_eq!(check(&[0x4A, 0x48, 65]), Err(3));
    assert_eq!(check(&[0x4A, 0x48, 64]), Err(1));
    assert_eq!(check(&[0x4A]), Err(1));
    assert_eq!(check(&[0x4B]), Err(1));
    assert_eq!(check(&[0x4B, 0x48]), Err(2));
    // A skip to the sheet's end passes, one further gives 5.
    let skip = |b| vec![0x4A, 0x48, 1, 0, 1, 0x4A, 0x42, 2, 6, 0, b, 0, 0, 0, 0, 0];
    assert_eq!(check(&skip(1)), Ok(1));
    assert_eq!(check(&skip(2)), Err(5));
    // Three bytes of a bad instruction: not whole.
    for code in [9, 13] {
        assert_eq!(
            check(&[0x4A, 0x48, 1, 0, 1, 0x4A, 0x42, 1, code, 0, 0]),
            Err(1)
        );
        assert_eq!(
            check(&[0x4A, 0x48, 1, 0, 1, 0x4A, 0x42, 1, code, 0, 0, 0]),
            Err(5)
        );
    }
    // Half a bad line: not whole.
    assert_eq!(check(&[0x4A, 0x48, 1, 1, 1, 0x4A, 0x46, 1, 6]), Err(1));
    assert_eq!(check(&[0x4A, 0x48, 1, 1, 1, 0x4A, 0x46, 1, 6, 0]), Err(4));
    // 6 before 7.
    let mut bytes = encode(&doubling_list(2));
    bytes.push(0);
    assert_eq!(check(&bytes), Err(6));
    let mut bytes = EXAMPLE_P.to_vec();
    bytes.push(0x4A);
    assert_eq!(check(&bytes), Err(6));
}

/// #101
#[test]
fn the_empty_file() {
    assert_eq!(check(&[]), Ok(1));
    let list = decode(&[]).unwrap();
    assert_eq!(list, empty_list());
    assert_eq!(
        (list.locations, list.footprints.len(), list.bodies.len()),
        (1, 0, 1)
    );
    assert!(list.bodies[0].is_empty());
    // "The writer still gives the marked records for it".
    let mut buffer = [7u8; 9];
    assert_eq!(write(&list, &mut buffer), Ok(8));
    assert_eq!(buffer[..8], MARKED);
    assert_eq!(buffer[8], 7);
    assert_eq!(write(&list, &mut buffer[..7]), Err(17));
    assert_eq!(decode(&MARKED), Ok(list));
    // Every part of them but the empty one is refused.
    for length in 1..8 {
        assert_eq!(check(&MARKED[..length]), Err(1));
    }
    // Its runs are those of the marked records.
    for library in [&[][..], &[5], &[5, 7]] {
        assert_eq!(open(&[], library, &TODAY), open(&MARKED, library, &TODAY));
        assert_eq!(
            hand_run(&[], library, &TODAY),
            hand_run(&MARKED, library, &TODAY)
        );
        assert_eq!(
            open(&[], library, &TODAY).err(),
            (library.len() != 1).then_some(8)
        );
    }
    let mut run = open(&[], &[5], &TODAY).unwrap();
    assert_eq!(queue_of(&run, 0), [512]);
    assert_eq!(start(&mut run, 0), Ok(()));
    assert_eq!(end(&mut run, 0), Ok(()));
    assert_eq!((run.calls, run.weight, &run.memory[..]), (2, 7, &[5][..]));
    assert_eq!(run, hand_run(&[], &[5], &TODAY).unwrap());
}

#[test]
fn the_longest_list_and_huge_counts() {
    let line = [read_line(0); 8];
    let mut bodies: Vec<Vec<Instruction>> = Vec::new();
    for s in 0..31 {
        bodies.push(vec![spawn(s + 1, 0); 32]);
    }
    bodies.push(vec![constant(0, 0); 32]);
    let mut list = TaskList {
        locations: 64,
        footprints: vec![line.to_vec(); 32],
        bodies,
    };
    assert_eq!(encode(&list).len(), 4805);
    assert_eq!(check(&encode(&list)), Err(7));
    // Only count(0) is limited.
    list.bodies[0] = vec![constant(0, 0); 32];
    assert_eq!(encode(&list).len(), 4805);
    assert_eq!(check(&encode(&list)), Ok(1));
    list.bodies[0][31] = spawn(31, 0);
    assert_eq!(check(&encode(&list)), Ok(2));
}

#[test]
fn open_and_hand_run_refusals() {
    for library in [&[][..], &[5], &[5, 7, 9]] {
        assert_eq!(open(&EXAMPLE_P, library, &TODAY), Err(8));
        assert_eq!(hand_run(&EXAMPLE_P, library, &TODAY), Err(8));
    }
    assert_eq!(open(&EXAMPLE_P[..53], &[], &TODAY), Err(1));
    assert_eq!(hand_run(&EXAMPLE_P[..53], &[], &TODAY), Err(1));
}

#[test]
fn writer_refusal() {
    let list = decode(&EXAMPLE_P).unwrap();
    let mut buffer = [1u8; 53];
    assert_eq!(write(&list, &mut buffer), Err(17));
    assert_eq!(buffer, [1; 53]);
    let mut buffer = [1u8; 55];
    assert_eq!(write(&list, &mut buffer), Ok(54));
    assert_eq!(buffer[..54], EXAMPLE_P);
    assert_eq!(buffer[54], 1);
}

#[test]
fn coordinator_lines() {
    let library = library_bytes(&LIBRARY_P);
    let input = [0x00, 0x00, 0x01, 0x00, 0x01, 0x00, 0x00, 0x02];
    assert_eq!(
        transcript(&EXAMPLE_P, &library, &input),
        "0\n0\n0\n19\n5\n7\n3 21 3\n"
    );
    assert_eq!(transcript(&EXAMPLE_P, &library, &[]), "5\n7\n0 0 1\n");
    // Another kind, a number above 127, half a call.
    let input = [0x03, 0x00, 0xFF, 0xFF, 0x00, 0x80, 0x00];
    assert_eq!(
        transcript(&EXAMPLE_P, &library, &input),
        "18\n18\n9\n18\n5\n7\n0 0 1\n"
    );
    assert_eq!(transcript(&[0x4A], &library, &input), "refused 1\n");
    assert_eq!(transcript(&EXAMPLE_P, &library[..7], &input), "refused 8\n");
    assert_eq!(transcript(&EXAMPLE_P, &[], &input), "refused 8\n");
}

/// #101: an empty jobs.bin is a list, one that can't be read isn't; a library.bin that can't be read
/// counts as empty.
#[test]
fn coordinator_lines_of_an_empty_file() {
    let (one, two) = (library_bytes(&[5]), library_bytes(&LIBRARY_P));
    let calls = [0x00, 0x00, 0x02, 0x00];
    assert_eq!(transcript(&[], &one, &calls), "0\n0\n5\n2 7 0\n");
    assert_eq!(transcript(&[], &one, &[]), "5\n0 0 1\n");
    for library in [&[][..], &one[..3], &two] {
        assert_eq!(transcript(&[], library, &calls), "refused 8\n");
    }
    let empty = Some(&[][..]);
    for library in [None, empty, Some(&one[..]), Some(&two)] {
        assert_eq!(files_transcript(None, library, &calls), "refused 1\n");
    }
    assert_eq!(
        files_transcript(empty, Some(&one), &calls),
        "0\n0\n5\n2 7 0\n"
    );
    assert_eq!(files_transcript(empty, None, &calls), "refused 8\n");
    assert_eq!(
        files_transcript(Some(&EXAMPLE_P), None, &calls),
        "refused 8\n"
    );
    assert_eq!(
        files_transcript(Some(&EXAMPLE_P), Some(&two), &[]),
        "5\n7\n0 0 1\n"
    );
}

#[test]
fn preview_functions() {
    let library = library_bytes(&LIBRARY_P);
    assert_eq!(preview_check(&EXAMPLE_P), 3);
    assert_eq!(preview_check(&[0x4A]), 129);
    assert_eq!(preview_check(&encode(&doubling_list(1))), 128);
    assert_eq!(preview_check(&encode(&doubling_list(2))), 135);
    let mut result = [1u8; 9];
    assert_eq!(
        preview_hand_run(&EXAMPLE_P, &library, &table_bytes(&TODAY), &mut result),
        0
    );
    assert_eq!(result, [9, 0, 0, 0, 9, 0, 0, 0, 1]);
    let mut result = [1u8; 7];
    assert_eq!(
        preview_hand_run(&EXAMPLE_P, &library, &table_bytes(&TODAY), &mut result),
        145
    );
    assert_eq!(
        preview_hand_run(&EXAMPLE_P, &library[..7], &table_bytes(&TODAY), &mut result),
        136
    );
    assert_eq!(
        preview_hand_run(
            &EXAMPLE_P[..53],
            &library[..7],
            &table_bytes(&TODAY),
            &mut result
        ),
        129
    );
    assert_eq!(result, [1; 7]);
    // #101
    assert_eq!(preview_check(&[]), 1);
    for length in [0, 3, 5, 8] {
        assert_eq!(
            preview_hand_run(&[], &library[..length], &table_bytes(&TODAY), &mut result),
            136
        );
    }
    assert_eq!(
        preview_hand_run(&[], &library[..4], &table_bytes(&TODAY), &mut result[..3]),
        145
    );
    assert_eq!(result, [1; 7]);
    assert_eq!(
        preview_hand_run(&[], &library[..4], &table_bytes(&TODAY), &mut result),
        0
    );
    assert_eq!(result, [5, 0, 0, 0, 1, 1, 1]);
}

/// #104: "sheet a (a higher one), footprint b, c children (1 to 16)"; "A bad c gives 5."
#[test]
fn which_fans_are_good() {
    // Two footprints, three sheets; the fan stands in sheet 1.
    let bytes = |a, b, c| {
        let mut bytes = vec![0x4A, 0x48, 1, 2, 3, 0x4A, 0x46, 0, 0x4A, 0x46, 0];
        bytes.extend([0x4A, 0x42, 0, 0x4A, 0x42, 1, 9, a, b, c, 0x4A, 0x42, 0]);
        bytes
    };
    for a in 0..=255 {
        let good = a == 2;
        assert_eq!(check(&bytes(a, 0, 1)).is_ok(), good, "sheet {a}");
    }
    for b in 0..=255 {
        assert_eq!(check(&bytes(2, b, 1)).is_ok(), b < 2, "footprint {b}");
    }
    for c in 0..=255 {
        let answer = if (1..=16).contains(&c) { Ok(1) } else { Err(5) };
        assert_eq!(check(&bytes(2, 1, c)), answer, "{c} children");
    }
    let list = decode(&bytes(2, 1, 16)).unwrap();
    assert_eq!(list.bodies[1], [fan(2, 1, 16)]);
    assert_eq!(encode(&list), bytes(2, 1, 16));
}

/// #104: "Child i has R0 = i, and its footprint is found with that R0. Child 0 is foremost; all stand
/// directly ahead of the spawner".
#[test]
fn the_children_of_a_fan() {
    let bytes = fan_of_strengths();
    assert_eq!(check(&bytes), Ok(4));
    let mut run = open(&bytes, &[5, 6, 7, 8], &TODAY).unwrap();
    start_and_step(&mut run, 0, 4);
    assert_eq!(run.order, [1, 2, 3, 0]);
    // One step: 5 + 1 + 1 + 1 + 8 × 3.
    assert_eq!((run.calls, run.weight), (5, 32));
    let spawner = record(&run, 0).unwrap();
    assert_eq!((spawner.pc, spawner.steps, spawner.weight), (4, 4, 32));
    assert_eq!(spawner.registers, [3, 40, 0, 3]);
    for i in 0..3 {
        let mut child = never_made();
        child.state = WAITING;
        child.body = 1;
        child.registers = [i, 40, 0, 3];
        child.modes[i as usize] = 2;
        child.modes[3] = 1;
        assert_eq!(record(&run, 1 + i).unwrap(), child);
    }
    assert_eq!(queue_of(&run, 1), [514, 512]);
    assert_eq!(queue_of(&run, 3), [257, 258, 259, 512]);
    // All may start at once, the last first, and they stand between the spawner and who was ahead.
    for task in [3, 1, 2] {
        assert_eq!(start(&mut run, task), Ok(()));
    }
    let run = hand_run(&bytes, &[5, 6, 7, 8], &TODAY).unwrap();
    assert_eq!(run.memory, [48, 48, 48, 8]);
    assert_eq!(run.records[0].registers, [3, 40, 48, 3]);
    // 7 steps, three times 3, four starts and ends.
    assert_eq!(run.calls, 7 + 9 + 8);
    assert_eq!(run.weight, 1 + 1 + 1 + 24 + 1 + 1 + 3 + 3 * 8 + 4 * 7);
}

/// The children of a fan come ahead of their spawner and behind all that stood ahead of it.
#[test]
fn a_fan_stands_where_its_spawner_stands() {
    let bytes = list(
        1,
        &[&[]],
        &[
            &[spawn(1, 0), spawn(1, 0), fan(1, 0, 2)],
            &[fan(2, 0, 3)],
            &[],
        ],
    );
    // Sheet 1 counts 4: jobs 1, 5, 9 and 13.
    assert_eq!(check(&bytes), Ok(17));
    let mut run = open(&bytes, &[5], &TODAY).unwrap();
    start_and_step(&mut run, 0, 3);
    assert_eq!(run.order, [1, 5, 9, 13, 0]);
    start_and_step(&mut run, 9, 1);
    assert_eq!(run.order, [1, 5, 10, 11, 12, 9, 13, 0]);
    start_and_step(&mut run, 1, 1);
    assert_eq!(run.order, [2, 3, 4, 1, 5, 10, 11, 12, 9, 13, 0]);
    assert_eq!(end(&mut run, 9), Ok(()));
    assert_eq!(run.order, [2, 3, 4, 1, 5, 10, 11, 12, 13, 0]);
}

/// #104: "The fan adds c × count(a) to its sheet's count, and child i starts at i × count(a) within that
/// block. Later spawns and fans of the sheet number on after the block."
#[test]
fn numbers_behind_a_fan() {
    for (passed_over, made) in [
        (0, &[1, 4, 7, 10, 13, 14, 15, 16][..]),
        (1, &[10, 13, 14, 15, 16]),
        (2, &[13, 14, 15, 16]),
        (3, &[15, 16]),
    ] {
        let bytes = fans_and_spawns(Instruction::Skip {
            a: 0,
            b: passed_over,
        });
        assert_eq!(task_counts(&decode(&bytes).unwrap()), [17, 3, 1]);
        let mut run = open(&bytes, &[5], &TODAY).unwrap();
        start_and_step(&mut run, 0, 6 - passed_over as usize);
        assert_eq!(run.order, [made, &[0]].concat());
        let run = hand_run(&bytes, &[5], &TODAY).unwrap();
        for task in 1..128 {
            // The two behind 1, 4, 7 and 10 are theirs.
            let of =
                |first: &usize| task >= *first && task < *first + if *first < 13 { 3 } else { 1 };
            let state = if made.iter().any(of) { ENDED } else { 0 };
            assert_eq!(run.records[task].state, state, "job {task}");
        }
    }
}

/// #104: "If any child would fault, in order of children and lines, none is made. The weight is 8 × c."
#[test]
fn a_fan_makes_all_children_or_none() {
    let own = [read_line(0), write_line(1)];
    for (lines, children, fault) in [
        (&[READ_BY_CHILD][..], 2, 0),
        (&[READ_BY_CHILD], 3, 1),
        (&[WRITE_BY_CHILD], 1, 2),
        (&[read_line(1), WRITE_BY_CHILD], 3, 2),
        (&[READ_BY_CHILD, read_line(1)], 1, 0),
        // #106: child 1 names entry 1 twice, which is no fault; child 2's is.
        (&[READ_BY_CHILD, read_line(1)], 2, 0),
        (&[READ_BY_CHILD, read_line(1)], 3, 1),
        // Child 0's second line before child 2's first.
        (&[READ_BY_CHILD, write_line(0)], 3, 2),
        (&[READ_BY_CHILD, read_line(0)], 2, 0),
        (&[READ_BY_CHILD, read_line(0)], 3, 1),
        // The others by the spawner's registers.
        (&[Line { kind: 3, value: 1 }], 16, 0),
        (&[Line { kind: 3, value: 3 }], 16, 2),
    ] {
        let bytes = list(
            2,
            &[&own, lines],
            &[
                &[constant(1, 1), spawn(1, 0)],
                &[fan(2, 1, children), constant(2, 7)],
                &[],
            ],
        );
        let mut run = open(&bytes, &LIBRARY_P, &TODAY).unwrap();
        start_and_step(&mut run, 0, 2);
        start_and_step(&mut run, 1, 1);
        let spawner = record(&run, 1).unwrap();
        assert_eq!(spawner.fault, fault, "{lines:?} {children}");
        assert_eq!(
            (spawner.pc, spawner.steps, spawner.weight),
            ((fault == 0) as usize, 1, 5 + 8 * children as u64)
        );
        let made = if fault == 0 { children as usize } else { 0 };
        assert_eq!(run.order.len(), 2 + made);
        for child in 0..16 {
            let state = if child < made { WAITING } else { 0 };
            assert_eq!(run.records[2 + child].state, state);
        }
        assert_eq!(spawner.registers, [0, 1, 0, 0]);
        let hand = hand_run(&bytes, &LIBRARY_P, &TODAY).unwrap();
        assert_eq!(hand.records[1].fault, fault);
        assert_eq!(
            hand.calls,
            6 + 1 + if fault == 0 { 1 + 2 * made as u64 } else { 0 }
        );
    }
}

/// #104: "in one step that never waits".
#[test]
fn a_fan_never_waits() {
    let bytes = list(
        2,
        &[&[write_line(0), write_line(1)], &[WRITE_BY_CHILD]],
        &[&[spawn(1, 0), fan(1, 1, 2)], &[]],
    );
    let mut run = open(&bytes, &LIBRARY_P, &TODAY).unwrap();
    start_and_step(&mut run, 0, 2);
    assert_eq!(run.order, [1, 2, 3, 0]);
    for task in [2, 3] {
        assert_eq!(start(&mut run, task), Err(19));
    }
    assert_eq!(end(&mut run, 0), Ok(()));
    start_and_end(&mut run, 1);
    // No longer held: their entries are parted by R0.
    for task in [3, 2] {
        start_and_end(&mut run, task);
    }
    assert_eq!(run, hand_run(&bytes, &LIBRARY_P, &TODAY).unwrap());
}

/// #104: "the hand run completes them from child 0 on".
#[test]
fn the_hand_run_of_a_fan() {
    // Each child adds its number and 1 to ten times the entry: the order shows in the digits.
    let add = |a, b, c| Instruction::Add { a, b, c };
    let times_ten = [add(2, 1, 1), add(3, 2, 2), add(3, 3, 3), add(2, 2, 3)];
    let mut child = vec![
        add(1, 0, 1),
        constant(3, 0),
        Instruction::Load { a: 1, b: 3 },
    ];
    child.extend(times_ten);
    child.extend([
        add(2, 2, 0),
        constant(3, 1),
        add(2, 2, 3),
        constant(3, 0),
        Instruction::Store { a: 3, b: 2 },
    ]);
    let bytes = list(1, &[&[write_line(0)]], &[&[fan(1, 0, 9)], &child]);
    let run = hand_run(&bytes, &[0], &TODAY).unwrap();
    assert_eq!(run.memory, [123_456_789]);
    // No other order of the children is possible: each waits for those ahead.
    let mut run = open(&bytes, &[0], &TODAY).unwrap();
    start_and_step(&mut run, 0, 1);
    for task in 2..10 {
        assert_eq!(start(&mut run, task), Err(19));
    }
}

#[test]
fn trees_of_fans() {
    assert_eq!(check(&encode(&fan_tree(1))), Ok(114));
    assert_eq!(check(&encode(&fan_tree(15))), Ok(128));
    assert_eq!(check(&encode(&fan_tree(16))), Err(7));
    assert_eq!(check(&encode(&fan_tree(17))), Err(7));
    let run = hand_run(&encode(&fan_tree(15)), &[0], &TODAY).unwrap();
    assert!(run.records.iter().all(|record| record.state == ENDED));
    // Two fans of job 0 and one of each of its 16 children; 128 starts and ends.
    assert_eq!(run.calls, 18 + 2 * 128);
    assert_eq!(run.weight, 8 * 127 + 7 * 128);
    // The children of job 0: 16 blocks of 7, then 15 of one.
    for (task, record) in run.records.iter().enumerate().skip(1) {
        let child = if task > 112 {
            task - 113
        } else {
            (task - 1) / 7
        };
        let grandchild = task <= 112 && (task - 1) % 7 > 0;
        let r0 = if grandchild {
            (task - 1) % 7 - 1
        } else {
            child
        };
        assert_eq!(record.registers, [r0 as u32, 0, 0, 0], "job {task}");
        assert_eq!(record.body, if grandchild || task > 112 { 2 } else { 1 });
    }
}

/// #105: a table in which each number tells its place: start 101, end 102, code k 110 + k.
const TELLING: [u16; 15] = [
    101, 102, 110, 111, 112, 113, 114, 115, 116, 117, 118, 119, 120, 121, 122,
];

/// #105: "start, end, then codes 0 to 9, code 9's per child"; then the later codes.
#[test]
fn each_number_of_a_table() {
    let cases: [(Instruction, u64); 15] = [
        (constant(1, 9), 110),
        (Instruction::Add { a: 0, b: 1, c: 2 }, 111),
        (Instruction::Sub { a: 0, b: 1, c: 2 }, 112),
        (Instruction::Less { a: 0, b: 1, c: 2 }, 113),
        (Instruction::Load { a: 0, b: 1 }, 114),
        (Instruction::Store { a: 0, b: 1 }, 115),
        (Instruction::Skip { a: 0, b: 0 }, 116),
        (spawn(1, 0), 117),
        (Instruction::Wait { a: 0 }, 118),
        (fan(1, 0, 1), 119),
        (fan(1, 0, 16), 16 * 119),
        (sum(0, 1), 120),
        (mul(0, 1, 2), 121),
        // Fault 5: it weighs the same.
        (div(0, 1, 2), 122),
        (div(0, 0, 0), 122),
    ];
    for (instruction, weight) in cases {
        let bytes = list(1, &[&[]], &[&[instruction], &[]]);
        let mut run = open(&bytes, &[5], &TELLING).unwrap();
        assert_eq!((run.weight, run.table), (0, TELLING));
        assert_eq!(start(&mut run, 0), Ok(()));
        assert_eq!((run.weight, run.records[0].weight), (101, 101));
        assert_eq!(step(&mut run, 0), Ok(()));
        assert_eq!(run.weight, 101 + weight, "{instruction:?}");
        assert_eq!(end(&mut run, 0), Ok(()));
        assert_eq!(run.records[0].weight, 101 + weight + 102);
        let hand = hand_run(&bytes, &[5], &TELLING).unwrap();
        assert_eq!(hand.records[0].weight, 101 + weight + 102);
        let children = check(&bytes).unwrap() as u64 - 1;
        assert_eq!(hand.weight, 101 + weight + 102 + children * (101 + 102));
    }
}

/// #105: a faulting step weighs the same, a faulting fan by all its children.
#[test]
fn a_faulting_step_weighs_by_the_table() {
    for (instruction, weight) in [
        (Instruction::Load { a: 0, b: 1 }, 114),
        (Instruction::Store { a: 1, b: 0 }, 115),
        (Instruction::Wait { a: 1 }, 118),
        (spawn(1, 0), 117),
        (fan(1, 0, 7), 7 * 119),
        (sum(1, 0), 120),
    ] {
        let by_register = Line { kind: 2, value: 1 };
        let bytes = list(1, &[&[by_register]], &[&[constant(1, 1), instruction], &[]]);
        let run = hand_run(&bytes, &[5], &TELLING).unwrap();
        assert_eq!((run.records[0].fault, run.calls), (1, 4));
        assert_eq!(run.weight, 101 + 110 + weight + 102);
    }
}

/// #105: P under another table; under today's numbers its hand run weighs 50.
#[test]
fn p_under_another_table() {
    let run = hand_run(&EXAMPLE_P, &LIBRARY_P, &TELLING).unwrap();
    assert_eq!((&run.memory[..], run.calls), (&[9, 9][..], 13));
    let weight = 3 * (101 + 102) + 2 * 117 + (110 + 115) + (114 + 110 + 115);
    assert_eq!(run.weight, weight);
    let mut refused = open(&EXAMPLE_P, &LIBRARY_P, &TELLING).unwrap();
    let before = refused.clone();
    assert_eq!(step(&mut refused, 0), Err(13));
    assert_eq!(refused, before);
    // Runs are equal only under one table.
    assert_ne!(refused, open(&EXAMPLE_P, &LIBRARY_P, &TODAY).unwrap());
}

/// #105: "After 8: 21 wrong length, 22 a number not in 1 to 1000."
#[test]
fn refusals_of_a_table() {
    let refusal = |library: &[u32], table: &[u16]| {
        let opened = open(&EXAMPLE_P, library, table).err();
        assert_eq!(hand_run(&EXAMPLE_P, library, table).err(), opened);
        opened
    };
    for place in 0..15 {
        for (number, expected) in [
            (0, Some(22)),
            (1, None),
            (1000, None),
            (1001, Some(22)),
            (1024, Some(22)),
            (65535, Some(22)),
        ] {
            let mut table = TODAY;
            table[place] = number;
            assert_eq!(refusal(&LIBRARY_P, &table), expected);
            // 8 before 21 and 22, 21 before 22.
            assert_eq!(refusal(&[5], &table), Some(8));
            assert_eq!(refusal(&LIBRARY_P, &table[..13]), Some(21));
            assert_eq!(refusal(&[5], &table[..13]), Some(8));
        }
    }
    for length in [0, 1, 11, 12, 13, 14, 16, 30] {
        assert_eq!(refusal(&LIBRARY_P, &vec![1; length]), Some(21));
    }
    assert_eq!(open(&EXAMPLE_P[..53], &[], &[]), Err(1));
    // The empty list too.
    assert_eq!(open(&[], &[5], &[]), Err(21));
    assert_eq!(open(&[], &[5], &[0; 15]), Err(22));
    assert_eq!(open(&[], &[], &[0; 15]), Err(8));
}

/// #105: "over the C boundary the table is bytes, two per number, least first"; 17 stays last.
#[test]
fn the_table_over_the_c_boundary() {
    let library = library_bytes(&LIBRARY_P);
    let mut result = [1u8; 8];
    let mut answer = |library: &[u8], table: &[u8], room: usize| {
        let answer = preview_hand_run(&EXAMPLE_P, library, table, &mut result[..room]);
        let written = if answer == 0 {
            [9, 0, 0, 0, 9, 0, 0, 0]
        } else {
            [1; 8]
        };
        assert_eq!(result, written);
        result = [1; 8];
        answer
    };
    let today = table_bytes(&TODAY);
    assert_eq!(
        today,
        [
            5, 0, 2, 0, 1, 0, 1, 0, 1, 0, 1, 0, 3, 0, 4, 0, 1, 0, 8, 0, 1, 0, 8, 0, 4, 0, 1, 0, 1,
            0
        ]
    );
    assert_eq!(answer(&library, &today, 8), 0);
    let mut table = today.clone();
    // 1000 is E8 03.
    for (low, high, expected) in [
        (0xE8, 0x03, 0),
        (0xE9, 0x03, 150),
        (0x03, 0xE8, 150),
        (0, 0, 150),
        (0, 1, 0),
        (0, 4, 150),
        (1, 4, 150),
        (255, 255, 150),
    ] {
        for place in 0..15 {
            table[2 * place] = low;
            table[2 * place + 1] = high;
            assert_eq!(answer(&library, &table, 8), expected);
            let short = if expected == 0 { 145 } else { expected };
            assert_eq!(answer(&library, &table, 7), short);
            assert_eq!(answer(&library[..7], &table, 7), 136);
            table[2 * place..2 * place + 2].copy_from_slice(&today[2 * place..2 * place + 2]);
        }
    }
    for length in (0..34).filter(|length| *length != 30) {
        assert_eq!(answer(&library, &[1; 34][..length], 7), 149);
        assert_eq!(answer(&library[..7], &[1; 34][..length], 7), 136);
    }
}

/// #107: "line kind 4 sums a fixed entry, 5 one named by a register. New code 10: entry number Ra := entry +
/// Rb".
#[test]
fn which_sums_are_good() {
    let with_line = |kind, value| {
        let bytes = [
            0x4A, 0x48, 5, 1, 1, 0x4A, 0x46, 1, kind, value, 0x4A, 0x42, 0,
        ];
        check(&bytes)
    };
    for value in 0..=255 {
        let answer = |good| if good { Ok(1) } else { Err(4) };
        assert_eq!(with_line(4, value), answer(value < 5), "entry {value}");
        assert_eq!(with_line(5, value), answer(value < 4), "register {value}");
        assert_eq!(with_line(6, value), Err(4));
    }
    let with_instruction = |instruction: [u8; 4]| {
        let mut bytes = vec![0x4A, 0x48, 5, 0, 1, 0x4A, 0x42, 1];
        bytes.extend(instruction);
        check(&bytes)
    };
    for field in 0..=255 {
        let register = if field < 4 { Ok(1) } else { Err(5) };
        assert_eq!(with_instruction([10, field, 0, 0]), register);
        assert_eq!(with_instruction([10, 3, field, 0]), register);
        let not_listed = if field == 0 { Ok(1) } else { Err(5) };
        assert_eq!(with_instruction([10, 3, 3, field]), not_listed);
        // #108: registers in all three fields.
        for code in [11, 12] {
            assert_eq!(with_instruction([code, field, 0, 0]), register);
            assert_eq!(with_instruction([code, 3, field, 0]), register);
            assert_eq!(with_instruction([code, 3, 3, field]), register);
        }
        assert_eq!(with_instruction([13, field, 0, 0]), Err(5));
    }
    let lines = [sum_line(4), Line { kind: 5, value: 3 }];
    let bytes = list(5, &[&lines], &[&[sum(2, 1)]]);
    assert_eq!(bytes[8..12], [4, 4, 5, 3]);
    assert_eq!(bytes[15..], [10, 2, 1, 0]);
    assert_eq!(encode(&decode(&bytes).unwrap()), bytes);
    // Half a line and three bytes of an instruction are not whole.
    assert_eq!(check(&bytes[..9]), Err(1));
    assert_eq!(check(&bytes[..18]), Err(1));
}

/// Makes these calls: a kind (0 start, 1 step, 2 end) and a job, with what each answers.
fn calls(run: &mut Run, calls: &[(u8, u32, u32)]) {
    for (i, (kind, task, answer)) in calls.iter().enumerate() {
        let given = call(run, *kind, *task).err().unwrap_or(0);
        assert_eq!(given, *answer, "call {i}: {kind} of job {task}");
    }
}

/// #107: "A job of mode 3 may sum, and may start as far as that entry goes, when all ahead have mode 3; a
/// writer sums only when none is ahead." "All orders of adding still end as the hand run does".
#[test]
fn two_jobs_sum_in_either_order() {
    let wait = Instruction::Wait { a: 0 };
    let bytes = two_that_sum(wait);
    let hand = hand_run(&bytes, &[5], &TODAY).unwrap();
    assert_eq!(hand.memory, [48]);
    assert_eq!(hand.records[0].registers, [0, 40, 0, 48]);
    // 5 + 1 + 8 + 1 + 8 + 1 + 3 + 2, and twice 5 + 4 + 2.
    assert_eq!((hand.calls, hand.weight), (14, 29 + 2 * 11));
    for [first, other] in [[1, 2], [2, 1]] {
        let mut run = open(&bytes, &[5], &TODAY).unwrap();
        start_and_step(&mut run, 0, 4);
        assert_eq!(queue_of(&run, 0), [769, 770, 512]);
        calls(&mut run, &[(0, first, 0), (1, first, 0), (1, 0, 20)]);
        assert_eq!(run.memory, [if first == 1 { 8 } else { 45 }]);
        calls(&mut run, &[(0, other, 0), (2, first, 0), (1, 0, 20)]);
        calls(&mut run, &[(1, other, 0), (1, 0, 20), (2, other, 0)]);
        assert_eq!(run.memory, [48]);
        calls(&mut run, &[(1, 0, 0), (1, 0, 0), (2, 0, 0)]);
        assert_eq!(run, hand);
    }
    // A writer behind sums only: load, store and sum are held back by 20 too.
    for (instruction, entry, register) in [
        (Instruction::Load { a: 2, b: 0 }, 48, 48),
        (Instruction::Store { a: 0, b: 1 }, 40, 0),
        (sum(0, 1), 88, 0),
    ] {
        let bytes = two_that_sum(instruction);
        let mut run = open(&bytes, &[5], &TODAY).unwrap();
        start_and_step(&mut run, 0, 4);
        let before = run.clone();
        calls(&mut run, &[(1, 0, 20)]);
        assert_eq!(run, before);
        start_and_step(&mut run, 2, 1);
        calls(&mut run, &[(1, 0, 20), (2, 2, 0), (1, 0, 20)]);
        start_and_step(&mut run, 1, 1);
        calls(&mut run, &[(1, 0, 20), (2, 1, 0), (1, 0, 0)]);
        assert_eq!(run.memory, [entry]);
        assert_eq!(run.records[0].registers[2], register);
        calls(&mut run, &[(1, 0, 0), (2, 0, 0)]);
        assert_eq!(run, hand_run(&bytes, &[5], &TODAY).unwrap());
    }
}

/// #107: starts behind each mode, alone and behind another job. The search goes past sums to a writer.
#[test]
fn starts_behind_sums() {
    let (read, write, sums) = (0, 1, 4);
    for (kinds, second, third, looked) in [
        ([sums, sums, sums], 0, 0, 3),
        ([sums, read, sums], 20, 20, 3),
        ([sums, sums, read], 0, 20, 3),
        ([sums, sums, write], 0, 20, 3),
        ([sums, read, read], 20, 20, 3),
        ([sums, write, sums], 20, 19, 2),
        ([sums, write, read], 20, 19, 2),
        ([read, sums, sums], 20, 20, 3),
        ([read, read, sums], 0, 20, 3),
        ([read, sums, read], 20, 20, 3),
        ([write, sums, sums], 19, 19, 1),
        ([read, write, sums], 20, 19, 2),
    ] {
        let bytes = three_modes(kinds);
        let mut run = open(&bytes, &[5], &TODAY).unwrap();
        start_and_step(&mut run, 0, 3);
        assert_eq!(run.order, [1, 2, 3, 0]);
        let found = (third == 19, looked);
        assert_eq!(search(&run, 3, &[0]), found, "{kinds:?}");
        calls(&mut run, &[(0, 3, third), (0, 2, second), (0, 1, 0)]);
        // Whether those ahead wait or have started does not matter.
        let again = |answer| if answer == 0 { 11 } else { answer };
        calls(&mut run, &[(0, 2, again(second)), (0, 3, again(third))]);
        assert_eq!(search(&run, 3, &[0]), found);
        let mode = |kind| [257, 513, 769][[0, 1, 4].iter().position(|k| *k == kind).unwrap()];
        let queue: Vec<u16> = (0..3).map(|i| mode(kinds[i]) + i as u16).collect();
        assert_eq!(queue_of(&run, 0), [&queue[..], &[512]].concat());
    }
}

/// #107: "A wait on a sum entry passes when all ahead have mode 3"; of a job that reads another entry all
/// entries count at the start, and one for a step.
#[test]
fn waits_on_a_sum_entry() {
    let wait = Instruction::Wait { a: 0 };
    let bytes = list(
        2,
        &[&[sum_line(0)], &[sum_line(0), write_line(1)]],
        &[
            &[spawn(1, 0), spawn(1, 1), spawn(1, 1), wait],
            &[wait, sum(0, 1)],
        ],
    );
    let mut run = open(&bytes, &LIBRARY_P, &TODAY).unwrap();
    start_and_step(&mut run, 0, 3);
    assert_eq!(queue_of(&run, 0), [769, 770, 771, 512]);
    // Job 3 behind the writer of entry 1; job 0, a writer, behind sums and behind none.
    calls(
        &mut run,
        &[(0, 3, 19), (0, 2, 0), (1, 2, 0), (1, 2, 0), (1, 0, 20)],
    );
    calls(
        &mut run,
        &[(2, 2, 0), (0, 3, 0), (1, 3, 0), (1, 3, 0), (2, 3, 0)],
    );
    calls(
        &mut run,
        &[(1, 0, 20), (0, 1, 0), (1, 1, 0), (1, 1, 0), (1, 0, 20)],
    );
    calls(&mut run, &[(2, 1, 0), (1, 0, 0), (2, 0, 0)]);
    assert_eq!(run, hand_run(&bytes, &LIBRARY_P, &TODAY).unwrap());
}

/// #107: "entry + Rb modulo 2^32".
#[test]
fn sums_wrap() {
    for (entry, after) in [
        (5, 7),
        (u32::MAX, 1),
        (u32::MAX - 2, u32::MAX),
        (u32::MAX - 1, 0),
        (0x7FFF_FFFF, 0x8000_0001),
    ] {
        let run = hand_run(&sums_that_wrap(), &[entry, u32::MAX], &TODAY).unwrap();
        assert_eq!(run.memory, [after, 0]);
        // A sum changes no register; the last load shows entry 1.
        assert_eq!(run.records[0].registers, [0, 3, 1, 0]);
    }
}

/// #107: a spawner of mode sum sums beside its children, one of mode write behind them.
#[test]
fn a_spawner_beside_its_children() {
    for (line, held) in [(sum_line(0), 0), (write_line(0), 20)] {
        let bytes = children_that_sum(line);
        assert_eq!(check(&bytes), Ok(5));
        let mut run = open(&bytes, &LIBRARY_P, &TODAY).unwrap();
        start_and_step(&mut run, 0, 1);
        start_and_step(&mut run, 1, 4);
        assert_eq!(run.order, [2, 3, 4, 1, 0]);
        let own = if held == 0 { 769 } else { 513 };
        assert_eq!(queue_of(&run, 0), [770, 771, 772, own, 512]);
        assert_eq!(queue_of(&run, 1), [512]);
        calls(&mut run, &[(0, 4, 0), (1, 4, 0), (1, 4, 0), (1, 1, held)]);
        // 1 and the last child's number.
        assert_eq!(run.memory[0], 7);
        calls(
            &mut run,
            &[(0, 2, 0), (0, 3, 0), (1, 3, 0), (1, 3, 0), (2, 4, 0)],
        );
        calls(
            &mut run,
            &[(1, 1, held), (1, 2, 0), (2, 3, 0), (1, 2, 0), (2, 2, 0)],
        );
        if held != 0 {
            calls(&mut run, &[(1, 1, 0), (1, 1, 0)]);
        }
        assert_eq!(run.memory, [10, 7]);
        calls(&mut run, &[(2, 1, 0), (2, 0, 0)]);
        assert_eq!(run, hand_run(&bytes, &LIBRARY_P, &TODAY).unwrap());
    }
}

/// #107: "On a read entry it faults 2; load and store fault 2 on a sum entry." Before waiting; a wait has no
/// fault there.
#[test]
fn faults_of_sum_load_and_store() {
    let load = Instruction::Load { a: 1, b: 0 };
    let store = Instruction::Store { a: 0, b: 1 };
    let wait = Instruction::Wait { a: 0 };
    for (line, instruction, fault) in [
        (Some(sum_line(0)), load, 2),
        (Some(sum_line(0)), store, 2),
        (Some(sum_line(0)), wait, 0),
        (Some(sum_line(0)), sum(0, 1), 0),
        (Some(read_line(0)), sum(0, 1), 2),
        (Some(write_line(0)), sum(0, 1), 0),
        (None, sum(0, 1), 1),
    ] {
        let lines: Vec<Line> = line.into_iter().collect();
        let body = [constant(1, 9), instruction];
        let bytes = list(1, &[&lines], &[&[spawn(1, 0), spawn(1, 0)], &body]);
        let mut run = open(&bytes, &[5], &TODAY).unwrap();
        start_and_step(&mut run, 0, 2);
        // Job 2 is behind another of the same mode; a writer can't be started there.
        if line == Some(write_line(0)) {
            start_and_step(&mut run, 1, 2);
            calls(&mut run, &[(2, 1, 0)]);
        }
        let entry = run.memory[0];
        start_and_step(&mut run, 2, 2);
        let child = record(&run, 2).unwrap();
        let place = if fault == 0 { 2 } else { 1 };
        assert_eq!((child.fault, child.pc), (fault, place), "{line:?}");
        assert_eq!((child.steps, child.registers), (2, [0, 9, 0, 0]));
        let added = if fault == 0 && instruction != wait {
            9
        } else {
            0
        };
        assert_eq!(run.memory, [entry + added]);
        calls(&mut run, &[(1, 2, 14), (2, 2, 0)]);
    }
    // C and above.
    for number in [2, 63, 64, 65535] {
        let bytes = list(2, &[], &[&[constant(0, number), sum(0, 0)]]);
        let run = hand_run(&bytes, &LIBRARY_P, &TODAY).unwrap();
        assert_eq!((run.records[0].fault, &run.memory[..]), (1, &LIBRARY_P[..]));
        assert_eq!((run.calls, run.weight), (4, 12));
    }
}

/// #107: "A sum line faults 2 unless the spawner's mode is sum or write; a read or write line faults 2 where
/// it is sum." Where it is none: 1.
#[test]
fn lines_by_the_mode_of_the_spawner() {
    let run = hand_run(&lines_of_each_mode(), &LIBRARY_P, &TODAY).unwrap();
    let (read, write, sums) = (1, 2, 3);
    for (own, faults) in [
        (read, [0, 2, 0, 2, 2, 2]),
        (write, [0; 6]),
        (sums, [2, 2, 2, 2, 0, 0]),
        (0, [1; 6]),
    ] {
        let place = [read, write, sums, 0]
            .iter()
            .position(|m| *m == own)
            .unwrap();
        for kind in 0..6 {
            let spawner = 1 + 2 * (6 * place + kind);
            let record = &run.records[spawner];
            assert_eq!((record.body, record.modes[0]), (1 + kind, own));
            assert_eq!(record.fault, faults[kind], "mode {own}, kind {kind}");
            let child = &run.records[spawner + 1];
            let made = if faults[kind] == 0 { ENDED } else { 0 };
            let mode = [read, write, read, write, sums, sums][kind];
            assert_eq!(child.state, made);
            assert_eq!(child.modes[0], if made == ENDED { mode } else { 0 });
        }
    }
}

/// #106, #107: one common mode, else write; each line is tested by the spawner's mode alone.
#[test]
fn sum_lines_on_one_entry() {
    let (read, write, sums) = (read_line(0), write_line(0), sum_line(0));
    let by_register = Line { kind: 5, value: 0 };
    for (own, lines, fault, mode) in [
        (write, &[sums, sums][..], 0, 3),
        (write, &[sums, by_register, sums], 0, 3),
        (write, &[sums, read], 0, 2),
        (write, &[read, sums], 0, 2),
        (write, &[sums, sums, write], 0, 2),
        (write, &[write, sums], 0, 2),
        (write, &[read, read, by_register], 0, 2),
        (sums, &[sums, by_register], 0, 3),
        (sums, &[sums, read], 2, 0),
        (sums, &[write, sums], 2, 0),
        (read, &[read, sums], 2, 0),
        (read, &[read_line(1), sums], 1, 0),
        (sums, &[sums, sum_line(1)], 1, 0),
    ] {
        let bytes = list(2, &[&[own], lines], &[&[spawn(1, 0)], &[spawn(2, 1)], &[]]);
        let run = hand_run(&bytes, &LIBRARY_P, &TODAY).unwrap();
        assert_eq!(run.records[1].fault, fault, "{own:?} {lines:?}");
        assert_eq!(run.records[2].modes[..2], [mode, 0], "{own:?} {lines:?}");
    }
}

/// #104, #107: the children of a fan that sum one entry go in any order, also with an entry for each.
#[test]
fn a_fan_of_sums() {
    let bytes = list(
        4,
        &[&[SUM_BY_CHILD, sum_line(3)]],
        &[&[constant(1, 3), fan(1, 0, 3)], &[sum(0, 1), sum(1, 0)]],
    );
    let hand = hand_run(&bytes, &[5, 6, 7, 8], &TODAY).unwrap();
    assert_eq!(hand.memory, [8, 9, 10, 11]);
    for order in [[1, 2, 3], [3, 2, 1], [2, 3, 1], [3, 1, 2]] {
        let mut run = open(&bytes, &[5, 6, 7, 8], &TODAY).unwrap();
        start_and_step(&mut run, 0, 2);
        assert_eq!(queue_of(&run, 3), [769, 770, 771, 512]);
        for task in order {
            start_and_step(&mut run, task, 1);
        }
        for task in order {
            calls(&mut run, &[(1, task, 0)]);
        }
        for task in order {
            calls(&mut run, &[(2, task, 0)]);
        }
        calls(&mut run, &[(2, 0, 0)]);
        assert_eq!(run, hand);
    }
}

/// Every run that calls reach from a fresh one: where no job is left it is the hand run's, else some call is
/// accepted. How many there are.
fn assert_all_orders(bytes: &[u8], library: &[u32]) -> usize {
    let hand = hand_run(bytes, library, &TODAY).unwrap();
    let mut left = vec![open(bytes, library, &TODAY).unwrap()];
    let mut seen = std::collections::HashSet::new();
    while let Some(run) = left.pop() {
        if !seen.insert(format!(
            "{:?} {:?} {:?}",
            run.records, run.order, run.memory
        )) {
            continue;
        }
        if run.order.is_empty() {
            assert_eq!(run, hand);
            continue;
        }
        let before = left.len();
        for task in run.order.clone() {
            for kind in 0..3 {
                let mut next = run.clone();
                if call(&mut next, kind, task as u32).is_ok() {
                    left.push(next);
                }
            }
        }
        assert!(left.len() > before);
    }
    seen.len()
}

/// #107: "All orders of adding still end as the hand run does, job records too."
#[test]
fn all_orders_of_adding() {
    for instruction in [
        Instruction::Wait { a: 0 },
        Instruction::Load { a: 2, b: 0 },
        Instruction::Store { a: 0, b: 1 },
        sum(0, 1),
    ] {
        assert!(assert_all_orders(&two_that_sum(instruction), &[5]) > 20);
    }
    for line in [sum_line(0), write_line(0)] {
        assert!(assert_all_orders(&children_that_sum(line), &LIBRARY_P) > 100);
    }
    for kinds in [[4, 4, 4], [4, 0, 4], [4, 1, 4], [0, 4, 1], [4, 4, 0]] {
        assert!(assert_all_orders(&three_modes(kinds), &[5]) > 20);
    }
}

/// #108: "Both round to the nearest whole number, halves upward, on the exact value"; "Fault 4 is a result
/// above 2^32 − 1". The largest products and quotients that are no fault, and the least that are one.
#[test]
fn products_in_thousandths() {
    const MAX: u32 = u32::MAX;
    for (b, c, result) in [
        (0, 0, Ok(0)),
        (MAX, 0, Ok(0)),
        (1, 499, Ok(0)),
        (1, 500, Ok(1)),
        (1, 1499, Ok(1)),
        (3, 500, Ok(2)),
        (5, 500, Ok(3)),
        (12, 125, Ok(2)),
        (11, 125, Ok(1)),
        (1500, 2500, Ok(3750)),
        (65536, 65536, Ok(4_294_967)),
        (MAX, 500, Ok(2_147_483_648)),
        (MAX, 1000, Ok(MAX)),
        (MAX, 1001, Err(4)),
        // 4294967295.499, 4294967295.5, 4294967295.501
        (3_725_036_683, 1153, Ok(MAX)),
        (3_734_754_170, 1150, Err(4)),
        (2_472_635_173, 1737, Err(4)),
        // 2^32
        (4_194_304_000, 1024, Err(4)),
        (3_037_000_500, 3_037_000_500, Err(4)),
        (MAX, MAX, Err(4)),
    ] {
        assert_eq!(product(b, c), result, "{b} x {c}");
        assert_eq!(product(c, b), result);
        assert_rate(mul(3, 1, 2), b, c, result);
    }
}

/// #108: "fault 5, tested first and in code 12 only, is a zero Rc".
#[test]
fn quotients_in_thousandths() {
    const MAX: u32 = u32::MAX;
    for (b, c, result) in [
        (0, 0, Err(5)),
        (1, 0, Err(5)),
        (MAX, 0, Err(5)),
        (0, 1, Ok(0)),
        (0, MAX, Ok(0)),
        (1, 1, Ok(1000)),
        (1, 3, Ok(333)),
        (2, 3, Ok(667)),
        (1, 16, Ok(63)),
        (1, 1999, Ok(1)),
        (1, 2000, Ok(1)),
        (1, 2001, Ok(0)),
        (3, 2000, Ok(2)),
        (5, 2000, Ok(3)),
        (MAX, 2000, Ok(2_147_483_648)),
        (MAX, 1000, Ok(MAX)),
        (MAX, 999, Err(4)),
        (MAX, MAX, Ok(1000)),
        (2_147_483, MAX, Ok(0)),
        (2_147_484, MAX, Ok(1)),
        (53_687_091, MAX - 15, Ok(13)),
        (4_294_967, 1, Ok(4_294_967_000)),
        (4_294_968, 1, Err(4)),
        // 4294967295.499, 4294967295.501
        (2_194_728_288, 511, Ok(MAX)),
        (4_200_478_015, 978, Err(4)),
        (MAX, 1, Err(4)),
    ] {
        assert_eq!(quotient(b, c), result, "{b} / {c}");
        assert_rate(div(3, 1, 2), b, c, result);
    }
}

/// What a job that does this with R1 and R2 leaves in R3 and stores to entry 0, or its fault.
fn assert_rate(instruction: Instruction, b: u32, c: u32, result: Result<u32, u8>) {
    let run = hand_run(&rate_of_two(instruction), &[b, c], &TODAY).unwrap();
    let job = &run.records[0];
    assert_eq!(job.registers[..3], [0, b, c]);
    match result {
        Ok(result) => {
            assert_eq!((job.fault, job.pc, job.steps), (0, 5, 5));
            assert_eq!(
                (job.registers[3], &run.memory[..]),
                (result, &[result, c][..])
            );
            assert_eq!((run.calls, run.weight), (7, 5 + 3 + 1 + 3 + 1 + 4 + 2));
        }
        Err(fault) => {
            // At the faulting instruction's place.
            assert_eq!((job.fault, job.pc, job.steps), (fault, 3, 4));
            assert_eq!((job.registers[3], &run.memory[..]), (0, &[b, c][..]));
            assert_eq!((run.calls, run.weight), (6, 5 + 3 + 1 + 3 + 1 + 2));
        }
    }
}

/// #108: the result r of n / d is the only whole number with r - 1/2 <= n / d < r + 1/2. For small numbers
/// all, then those beside the numbers that a half or the largest result is made of.
#[test]
fn the_nearest_whole_number() {
    let is_nearest = |r: u128, n: u128, d: u128| {
        let (low, high) = (2 * d * r, 2 * d * r + d);
        low <= 2 * n + d && 2 * n < high
    };
    let assert_both = |b: u32, c: u32| {
        let (wide_b, wide_c) = (b as u128, c as u128);
        for (result, n, d) in [
            (product(b, c), wide_b * wide_c, 1000),
            (quotient(b, c), 1000 * wide_b, wide_c),
        ] {
            match result {
                Ok(r) => assert!(is_nearest(r as u128, n, d), "{n} / {d} is not {r}"),
                Err(fault) if d == 0 => assert_eq!(fault, 5),
                // The least result that faults is 2^32.
                Err(fault) => assert!(fault == 4 && 2 * n >= ((1 << 33) - 1) * d, "{n} / {d}"),
            }
        }
    };
    for b in 0..260 {
        for c in 0..5000 {
            assert_both(b, c);
        }
    }
    let numbers: Vec<u32> = [
        0u64,
        16,
        125,
        500,
        511,
        978,
        1000,
        1150,
        1153,
        2000,
        65536,
        4_294_967,
        2_147_483_648,
        3_725_036_683,
        3_734_754_170,
        4_200_478_015,
        1 << 32,
    ]
    .iter()
    .flat_map(|number| number.saturating_sub(3)..number + 3)
    .filter_map(|number| u32::try_from(number).ok())
    .collect();
    for b in &numbers {
        for c in &numbers {
            assert_both(*b, *c);
        }
    }
}

/// #108: a result may stand in the place of an operand, and one register may be both.
#[test]
fn registers_of_a_rate() {
    for (instruction, registers) in [
        (mul(1, 1, 2), [0, 14, 2000, 0]),
        (mul(2, 1, 2), [0, 7, 14, 0]),
        (mul(2, 2, 2), [0, 7, 4000, 0]),
        (div(1, 1, 2), [0, 4, 2000, 0]),
        (div(2, 1, 2), [0, 7, 4, 0]),
        (div(1, 2, 1), [0, 285_714, 2000, 0]),
        (div(3, 2, 2), [0, 7, 2000, 1000]),
    ] {
        let body = [constant(1, 7), constant(2, 2000), instruction];
        let run = hand_run(&list(1, &[], &[&body]), &[5], &TODAY).unwrap();
        assert_eq!(run.records[0].registers, registers, "{instruction:?}");
    }
}

/// #108: "A fault ends the job as the earlier ones do, and the hand run meets the same fault." A step with or
/// without one waits for nobody: job 1 writes all entries ahead of it.
#[test]
fn a_rate_between_spawns() {
    for (instruction, entry, r3, fault) in [
        (mul(3, 1, 2), 1500, 105, 0),
        (mul(3, 2, 2), u32::MAX, 9, 4),
        (div(3, 2, 1), 1500, 21_429, 0),
        (div(3, 2, 1), u32::MAX, 9, 4),
        (div(3, 1, 2), 0, 9, 5),
        (div(3, 0, 2), 0, 9, 5),
        (mul(0, 0, 0), 1500, 9, 0),
        (div(0, 0, 1), 1500, 9, 0),
    ] {
        let bytes = rate_between_spawns(instruction);
        assert_eq!(check(&bytes), Ok(3));
        let mut run = open(&bytes, &[entry, 7], &TODAY).unwrap();
        start_and_step(&mut run, 0, 4);
        let before = run.clone();
        calls(&mut run, &[(1, 0, 0)]);
        let job = record(&run, 0).unwrap();
        assert_eq!((job.fault, job.registers), (fault, [0, 70, entry, r3]));
        assert_eq!((job.pc, job.steps), (if fault == 0 { 5 } else { 4 }, 5));
        assert_eq!((run.calls, run.weight), (6, before.weight + 1));
        assert_eq!((&run.memory, &run.order), (&before.memory, &before.order));
        assert_eq!(run.records[1..], before.records[1..]);
        if fault == 0 {
            calls(&mut run, &[(2, 0, 15), (1, 0, 0)]);
            assert_eq!(run.order, [1, 2, 0]);
        } else {
            calls(&mut run, &[(1, 0, 14)]);
            assert_eq!(run.records[2], never_made());
        }
        calls(&mut run, &[(2, 0, 0), (0, 1, 0), (1, 1, 0), (2, 1, 0)]);
        if fault == 0 {
            calls(&mut run, &[(0, 2, 0), (1, 2, 0), (2, 2, 0)]);
        }
        assert_eq!(run, hand_run(&bytes, &[entry, 7], &TODAY).unwrap());
        assert_eq!(run.memory, [r3, 7]);
        assert!(assert_all_orders(&bytes, &[entry, 7]) > 10);
    }
}

/// #108: each child of a fan by itself: a fault of one leaves the others alone.
#[test]
fn a_fan_of_rates() {
    let library = [1, u32::MAX, 5, 4_294_968, 0];
    let bytes = fan_of_rates(div(1, 1, 2), 1, 5);
    let run = hand_run(&bytes, &library, &TODAY).unwrap();
    assert_eq!(run.memory, [1000, u32::MAX, 5000, 4_294_968, 0]);
    let faults: Vec<u8> = run.records[..6].iter().map(|job| job.fault).collect();
    assert_eq!(faults, [0, 0, 4, 0, 4, 0]);
    let run = hand_run(&fan_of_rates(div(1, 1, 2), 0, 5), &library, &TODAY).unwrap();
    assert_eq!(run.memory, library);
    assert!(run.records[1..6].iter().all(|job| job.fault == 5));
}
