//! The stored cases: those of "Publishing examples" and single sentences, then random ones.

use crate::case_file::Case;
use crate::cases::{
    accepted_file, any_call, doubling_list, fan_tree, fitting_library, list_case, next_call,
    sensible_call, Strategy, EXAMPLE_P, STRATEGIES,
};
use crate::coordinator::call;
use crate::list::{decode, encode, task_count, Instruction, Line, TaskList};
use crate::rng::Rng;
use crate::rounds::all_rounds;
use crate::run::{open, TODAY};

/// The stored file of cases is made with these.
pub const STORED_SEED: u64 = 1;
pub const STORED_COUNT: usize = 40;

/// P's library.
pub const LIBRARY_P: [u32; 2] = [5, 7];

pub fn spawn(body: u8, footprint: u8) -> Instruction {
    Instruction::Spawn { body, footprint }
}

pub fn fan(body: u8, footprint: u8, children: u8) -> Instruction {
    Instruction::Fan {
        body,
        footprint,
        children,
    }
}

pub fn constant(a: u8, value: u16) -> Instruction {
    Instruction::Const { a, value }
}

pub fn read_line(value: u8) -> Line {
    Line { kind: 0, value }
}

pub fn write_line(value: u8) -> Line {
    Line { kind: 1, value }
}

pub fn sum_line(value: u8) -> Line {
    Line { kind: 4, value }
}

pub fn sum(a: u8, b: u8) -> Instruction {
    Instruction::Sum { a, b }
}

pub fn mul(a: u8, b: u8, c: u8) -> Instruction {
    Instruction::Mul { a, b, c }
}

pub fn div(a: u8, b: u8, c: u8) -> Instruction {
    Instruction::Div { a, b, c }
}

/// Lines by R0, which is a fan's child's number.
pub const READ_BY_CHILD: Line = Line { kind: 2, value: 0 };
pub const WRITE_BY_CHILD: Line = Line { kind: 3, value: 0 };
pub const SUM_BY_CHILD: Line = Line { kind: 5, value: 0 };

/// The bytes of a list with these parts.
pub fn list(locations: usize, footprints: &[&[Line]], bodies: &[&[Instruction]]) -> Vec<u8> {
    encode(&TaskList {
        locations,
        footprints: footprints.iter().map(|lines| lines.to_vec()).collect(),
        bodies: bodies.iter().map(|body| body.to_vec()).collect(),
    })
}

/// Calls in words: `start 0, step 0`.
fn calls(text: &str) -> Vec<(u8, u32)> {
    text.split(", ")
        .filter(|words| !words.is_empty())
        .map(|words| {
            let (kind, task) = words.split_once(' ').expect("a kind and a job");
            let kind = ["start", "step", "end"].iter().position(|k| *k == kind);
            (
                kind.expect("a kind") as u8,
                task.parse().expect("a job's number"),
            )
        })
        .collect()
}

fn case(list: &[u8], library: &[u32], text: &str) -> Case {
    Case {
        list: list.to_vec(),
        library: library.to_vec(),
        calls: calls(text),
    }
}

/// The calls of the hand run, and then one more.
fn whole(list: &[u8], library: &[u32]) -> Case {
    let mut case = case(list, library, "");
    let mut run = open(list, library, &TODAY).expect("an accepted list with its library");
    let mut rng = Rng::new(0);
    while let Some((kind, task)) = sensible_call(&mut rng, Strategy::Front, &run, 0) {
        case.calls.push((kind, task));
        call(&mut run, kind, task).expect("a sensible call");
    }
    case.calls.push((0, 0));
    case
}

/// All the named cases.
pub fn named_cases() -> Vec<Case> {
    let mut cases = Vec::new();
    cases.extend(orders_of_p());
    cases.extend(empty_files());
    cases.extend(readers_and_writers());
    cases.extend(faults());
    cases.extend(named_twice());
    cases.extend(large_numbers());
    cases.extend(trees());
    cases.extend(fans());
    cases.extend(sums());
    cases.extend(thousandths());
    cases.extend(rounds_moves_and_searches());
    cases.extend(bills());
    cases.extend(refused_lists());
    cases
}

/// P: the hand run's calls up to each length, then other orders.
fn orders_of_p() -> Vec<Case> {
    let mut cases = Vec::new();
    let by_hand = calls(
        "start 0, step 0, start 1, step 1, step 1, end 1, step 0, start 2, step 2, step 2, step 2, \
         end 2, end 0",
    );
    for length in 0..=by_hand.len() {
        let mut prefix = case(&EXAMPLE_P, &LIBRARY_P, "");
        prefix.calls = by_hand[..length].to_vec();
        cases.push(prefix);
    }
    for text in [
        "start 0, step 0, step 0",
        "start 0, step 0, step 0, start 2, start 1, end 0",
        // The spawner ends first.
        "start 0, step 0, step 0, start 2, start 1, end 0, step 1, start 2, step 1, end 1, start 2, \
         step 2, step 2, step 2, end 2, start 0",
        // Refused calls of each number between the accepted ones.
        "step 0, end 0, start 1, start 128, step 127, start 0, start 0, end 0, step 0, step 0, \
         step 0, end 1, start 2, step 2, start 1, step 1, step 1, step 1, start 2, end 1, end 1, \
         start 2, step 2, end 2, step 2, step 2, end 2, step 0, end 0, end 0, step 0, start 0",
        // Job numbers at and beyond the table.
        "start 127, step 127, end 127, start 128, step 128, end 128, start 255, start 256, \
         step 65536, end 2147483648, start 4294967168, start 4294967295, step 4294967295, \
         end 4294967295, start 0, step 256, step 0, step 128, end 4294967295",
    ] {
        cases.push(case(&EXAMPLE_P, &LIBRARY_P, text));
    }
    // A library that doesn't fit.
    for library in [&[][..], &[5], &[5, 7, 9]] {
        cases.push(case(&EXAMPLE_P, library, "start 0"));
    }
    cases
}

/// Files of no bytes: C = 1 and one empty sheet, with libraries that fit and that don't; then such of
/// one byte, which are refused.
fn empty_files() -> Vec<Case> {
    vec![
        case(&[], &[5], ""),
        case(&[], &[5], "start 0, end 0"),
        case(
            &[],
            &[u32::MAX],
            "step 0, end 0, start 1, start 0, start 0, step 0, end 128, end 0, start 0, end 0",
        ),
        case(&[], &[], "start 0"),
        case(&[], &[5, 7], "start 0"),
        case(&[0], &[5], "start 0"),
        case(&[0x4A], &[5], "start 0"),
    ]
}

fn readers_and_writers() -> Vec<Case> {
    let load = Instruction::Load { a: 1, b: 0 };
    let store = Instruction::Store { a: 0, b: 1 };
    let wait = Instruction::Wait { a: 0 };
    // Two children of job 0 reading one entry; job 0 loads it, then stores to it.
    let two_readers = list(
        1,
        &[&[read_line(0)]],
        &[&[spawn(1, 0), spawn(1, 0), load, store], &[load]],
    );
    // A writer between readers.
    let writer_between = list(
        1,
        &[&[read_line(0)], &[write_line(0)]],
        &[&[spawn(1, 0), spawn(2, 1), spawn(1, 0)], &[load], &[store]],
    );
    // A job of mode write waits for the reader ahead, a job of mode read doesn't.
    let waits = list(
        1,
        &[&[read_line(0)]],
        &[
            &[spawn(1, 0), spawn(2, 0), wait],
            &[],
            &[wait, constant(0, 1), wait],
        ],
    );
    // A grandchild stands ahead of its spawner's later sibling.
    let nested = list(
        2,
        &[&[write_line(0), read_line(1)], &[read_line(0)], &[]],
        &[
            &[spawn(1, 0), spawn(2, 0), load],
            &[spawn(2, 1), load, spawn(2, 2), store],
            &[load, constant(3, 7)],
        ],
    );
    let mut cases = vec![
        case(
            &two_readers,
            &[5],
            "start 0, step 0, step 0, start 2, start 1, step 0, step 0",
        ),
        case(
            &two_readers,
            &[5],
            "start 0, step 0, step 0, start 1, step 0, start 2, step 0, step 1, end 1, step 0, \
             step 2, end 2, step 0, end 0",
        ),
        case(
            &writer_between,
            &[5],
            "start 0, step 0, step 0, step 0, start 3, start 2, start 1, step 1, start 2, start 3, \
             end 1, start 3, start 2, step 2, start 3, end 2, start 3, step 3, end 3, end 0",
        ),
        case(
            &waits,
            &[5],
            "start 0, step 0, step 0, step 0, start 2, step 2, step 2, step 2, step 2, step 0, \
             start 1, end 1, step 0, end 2, step 0, end 0",
        ),
        case(
            &nested,
            &[5, 7],
            "start 0, step 0, step 0, start 1, step 1, step 1, start 4, step 1, step 1, start 3, \
             start 2, step 2, step 1, end 2, end 2, step 2, end 2, step 1, end 1, start 4, end 3",
        ),
    ];
    cases.push(whole(&nested, &[5, 7]));
    cases.extend([
        case(
            &starts_behind_reader_and_writer(),
            &[5, 6, 7, 8],
            "start 0, step 0, step 0, step 0, step 0, step 0, step 0, start 3, start 4, start 5, \
             start 6, start 2, start 5, start 4, end 2, start 4, start 5, start 1, start 3, end 1, \
             start 5, start 4, start 3",
        ),
        case(
            &steps_behind_reader_and_writer(),
            &LIBRARY_P,
            "start 0, step 0, step 0, step 0, step 0, step 0, start 2, step 0, start 1, end 1, step 0, \
             step 0, step 0, end 2, step 0",
        ),
    ]);
    cases
}

/// #102: jobs 1 to 6 in this order: one reads entries 0, 2 and 3; one writes 1; one writes 2; one writes 0
/// and reads 1; one reads 1 and writes 3; one has no entry.
pub fn starts_behind_reader_and_writer() -> Vec<u8> {
    let spawns: Vec<Instruction> = (0..6).map(|footprint| spawn(1, footprint)).collect();
    list(
        4,
        &[
            &[read_line(0), read_line(2), read_line(3)],
            &[write_line(1)],
            &[write_line(2)],
            &[write_line(0), read_line(1)],
            &[read_line(1), write_line(3)],
            &[],
        ],
        &[&spawns, &[]],
    )
}

/// #102: job 1 reads entry 0 and job 2 writes entry 1; job 0 loads entry 0 and stores to it, then it
/// loads entry 1.
pub fn steps_behind_reader_and_writer() -> Vec<u8> {
    list(
        2,
        &[&[read_line(0)], &[write_line(1)]],
        &[
            &[
                spawn(1, 0),
                spawn(1, 1),
                constant(2, 1),
                Instruction::Load { a: 1, b: 0 },
                Instruction::Store { a: 0, b: 1 },
                Instruction::Add { a: 0, b: 0, c: 2 },
                Instruction::Load { a: 1, b: 0 },
            ],
            &[],
        ],
    )
}

fn faults() -> Vec<Case> {
    let mut cases = Vec::new();
    let load = Instruction::Load { a: 1, b: 0 };
    let store = Instruction::Store { a: 0, b: 1 };
    let wait = Instruction::Wait { a: 0 };
    // Store to a read entry, job 2 behind another reader.
    let store_to_read = list(
        1,
        &[&[read_line(0)]],
        &[&[spawn(1, 0), spawn(1, 0)], &[constant(1, 9), store]],
    );
    cases.push(case(
        &store_to_read,
        &[5],
        "start 0, step 0, step 0, start 2, step 2, step 2, step 2, end 2, end 2",
    ));
    cases.push(whole(&store_to_read, &[5]));
    // Load, store and wait at C and above.
    for number in [2, 63, 64, 65535] {
        for instruction in [load, store, wait] {
            let bytes = list(2, &[], &[&[constant(0, number), instruction, load]]);
            cases.push(whole(&bytes, &LIBRARY_P));
        }
    }
    // An entry that others hold, not in the job's footprint.
    for instruction in [load, store, wait] {
        let bytes = list(
            1,
            &[&[write_line(0)], &[]],
            &[&[spawn(1, 0), spawn(2, 1)], &[], &[instruction]],
        );
        cases.push(case(
            &bytes,
            &[5],
            "start 0, step 0, step 0, start 1, start 2, step 2, end 2",
        ));
    }
    // Lines in turn; the spawner's own mode is read at 0, none at 1.
    let by_register = Line { kind: 2, value: 0 };
    let lines: [&[Line]; 6] = [
        &[read_line(0), write_line(0)],
        &[read_line(0), read_line(0), read_line(1)],
        &[read_line(0), read_line(0), write_line(0), read_line(1)],
        &[read_line(1), write_line(0)],
        &[read_line(0), by_register],
        &[by_register],
    ];
    for lines in lines {
        let bytes = list(
            2,
            &[&[read_line(0)], lines],
            &[&[spawn(1, 0)], &[spawn(2, 1)], &[]],
        );
        cases.push(whole(&bytes, &LIBRARY_P));
    }
    cases
}

/// #106: entries that are named twice and more often.
fn named_twice() -> Vec<Case> {
    let load = Instruction::Load { a: 1, b: 0 };
    let store = Instruction::Store { a: 0, b: 1 };
    let by_register = |kind| Line { kind, value: 1 };
    let mut cases = Vec::new();
    // The entry counts once, in each pair of modes; its child spawns with the same lines again.
    for lines in pairs_of_lines() {
        let bytes = list(
            2,
            &[&lines],
            &[
                &[spawn(1, 0), spawn(1, 0), constant(0, 1)],
                &[load, store, spawn(2, 0)],
                &[],
            ],
        );
        cases.push(case(
            &bytes,
            &LIBRARY_P,
            "start 0, step 0, step 0, start 3, start 1, step 0, step 1, step 1, step 1, end 1, start 3, \
             start 2, end 2, end 0",
        ));
        cases.push(whole(&bytes, &LIBRARY_P));
    }
    // Two strengths that share an entry by their registers, and that don't; three lines and eight.
    let lines: [&[Line]; 5] = [
        &[by_register(2), Line { kind: 2, value: 2 }],
        &[by_register(3), Line { kind: 2, value: 2 }],
        &[read_line(1), by_register(2), Line { kind: 3, value: 2 }],
        &[write_line(1), by_register(2), read_line(0), by_register(2)],
        &[READ_BY_CHILD; 8],
    ];
    for lines in lines {
        for strengths in [[1, 1], [0, 1], [1, 0]] {
            let bytes = list(
                2,
                &[lines],
                &[
                    &[
                        constant(1, strengths[0]),
                        constant(2, strengths[1]),
                        spawn(1, 0),
                        fan(1, 0, 2),
                    ],
                    &[load, Instruction::Store { a: 1, b: 1 }],
                ],
            );
            cases.push(case(
                &bytes,
                &LIBRARY_P,
                "start 0, step 0, step 0, step 0, step 0, start 3, start 2, start 1",
            ));
        }
    }
    cases
}

/// #106: entry 0 named twice, in each pair of modes.
pub fn pairs_of_lines() -> [[Line; 2]; 4] {
    [
        [read_line(0), read_line(0)],
        [read_line(0), write_line(0)],
        [write_line(0), read_line(0)],
        [write_line(0), write_line(0)],
    ]
}

/// Registers that hold numbers far above C.
fn large_numbers() -> Vec<Case> {
    let mut cases = Vec::new();
    let load = |a, b| Instruction::Load { a, b };
    let uses = [
        load(2, 1),
        Instruction::Store { a: 1, b: 0 },
        Instruction::Wait { a: 1 },
        spawn(1, 0),
        spawn(1, 1),
    ];
    let lines = [Line { kind: 2, value: 1 }, Line { kind: 3, value: 1 }];
    // 2^32 - 1 by a difference; a register line that names it.
    for instruction in uses {
        let difference = Instruction::Sub { a: 1, b: 0, c: 1 };
        let bytes = list(
            2,
            &[&lines[..1], &lines[1..]],
            &[&[constant(1, 1), difference, instruction], &[]],
        );
        cases.push(whole(&bytes, &LIBRARY_P));
    }
    // The entry's number from the library: 1 is in the footprint, the others are not.
    for number in [1, 2, 64, 256, 257, 65536, 0x8000_0000, u32::MAX] {
        for instruction in [uses[0], uses[4]] {
            let bytes = list(
                2,
                &[&lines[..1], &lines[1..]],
                &[&[load(1, 0), instruction], &[]],
            );
            cases.push(whole(&bytes, &[number, 7]));
        }
    }
    // Sums and differences modulo 2^32, unsigned order.
    let bytes = list(
        2,
        &[],
        &[&[
            load(1, 0),
            constant(2, 1),
            load(2, 2),
            Instruction::Add { a: 3, b: 1, c: 2 },
            Instruction::Sub { a: 0, b: 2, c: 1 },
            Instruction::Less { a: 1, b: 1, c: 2 },
            Instruction::Less { a: 2, b: 0, c: 3 },
        ]],
    );
    cases.push(whole(&bytes, &[u32::MAX, 2]));
    cases.push(whole(&bytes, &[0x7FFF_FFFF, 0x8000_0000]));
    cases
}

fn trees() -> Vec<Case> {
    let empty_body = list(1, &[], &[&[]]);
    let mut cases = vec![
        case(&empty_body, &[5], "start 0, end 0"),
        case(
            &empty_body,
            &[5],
            "step 0, end 0, start 0, start 0, step 0, end 0, start 0, step 0, end 0, end 128",
        ),
    ];
    // 127 jobs, 128, and 129, which is refused.
    for more in 0..3 {
        cases.push(case(
            &encode(&doubling_list(more)),
            &[0],
            "start 0, step 0, step 0, start 64, step 64, start 1, step 0, start 127, end 0",
        ));
    }
    // Spawns that are passed over keep their numbers.
    let passed_over = list(
        1,
        &[&[]],
        &[
            &[Instruction::Skip { a: 0, b: 1 }, spawn(1, 0), spawn(1, 0)],
            &[spawn(2, 0)],
            &[],
        ],
    );
    cases.push(case(
        &passed_over,
        &[5],
        "start 0, step 0, step 0, start 1, start 3, step 3, start 4",
    ));
    cases.push(whole(&passed_over, &[5]));
    cases.push(queue_of_128());
    cases.push(case(
        &deepest_list(),
        &[5],
        "start 0, step 0, start 1, step 1, start 0, start 2, end 0",
    ));
    let library: Vec<u32> = (0..64).map(|entry| 1000 + entry).collect();
    cases.push(case(
        &longest_list(),
        &library,
        "start 0, step 0, step 0, step 0, step 0, start 1, start 2, step 2, step 1, step 0, step 0, \
         start 3, end 3",
    ));
    cases
}

/// All of 128 jobs in one queue: four children of 30 children each, and three more.
fn queue_of_128() -> Case {
    let children = [spawn(2, 0); 30];
    let mut root = vec![spawn(1, 0); 4];
    root.extend([spawn(2, 0); 3]);
    let bytes = list(1, &[&[read_line(0)]], &[&root, &children, &[]]);
    let mut case = case(&bytes, &[5], "start 0");
    case.calls.extend([(1, 0); 7]);
    for child in 0..4 {
        let number = 1 + 31 * child;
        case.calls.push((0, number));
        case.calls.extend([(1, number); 30]);
    }
    case.calls.extend([(0, 127), (0, 2), (2, 1), (2, 0)]);
    case
}

/// 4,805 bytes; sheet 0 spawns the last only, the sheets between have counts beyond any machine word.
pub fn longest_list() -> Vec<u8> {
    let mut footprints = Vec::new();
    for f in 0..32u8 {
        let line = |i| Line {
            kind: (f + i) % 2,
            value: (8 * f + i) % 64,
        };
        footprints.push((0..8).map(line).collect::<Vec<Line>>());
    }
    let mut bodies = vec![Vec::new()];
    for i in 0..16 {
        bodies[0].push(constant(i % 4, 8 * i as u16));
        bodies[0].push(spawn(31, i));
    }
    for s in 1..31 {
        bodies.push(vec![spawn(s + 1, s); 32]);
    }
    let load = Instruction::Load { a: 1, b: 0 };
    let store = Instruction::Store { a: 0, b: 1 };
    bodies.push([load, store].repeat(16));
    encode(&TaskList {
        locations: 64,
        footprints,
        bodies,
    })
}

/// 32 sheets, each but the last spawning the next, which writes too: the deepest tree.
pub fn deepest_list() -> Vec<u8> {
    let mut bodies: Vec<Vec<Instruction>> = (1..32).map(|next| vec![spawn(next, 0)]).collect();
    bodies.push(vec![constant(1, 9), Instruction::Store { a: 0, b: 1 }]);
    encode(&TaskList {
        locations: 1,
        footprints: vec![vec![write_line(0)]],
        bodies,
    })
}

/// #104
fn fans() -> Vec<Case> {
    let load = |a, b| Instruction::Load { a, b };
    let store = |a, b| Instruction::Store { a, b };
    let mut cases = Vec::new();
    // Registers, order and queues after the fan; then the children in other orders than that.
    let strengths = fan_of_strengths();
    let library = [5, 6, 7, 8];
    for text in [
        "start 0, step 0, step 0, step 0, step 0",
        // The last child first, the spawner's end before the first child's.
        "start 0, step 0, step 0, step 0, step 0, start 3, step 3, step 3, start 4, step 0, end 0, \
         start 1, step 3, end 3, step 1, start 2, step 1, step 1, end 1, start 3, step 2, step 2, \
         step 2, end 2, start 0, step 4",
        // The spawner behind the children: its wait.
        "start 0, step 0, step 0, step 0, step 0, step 0, step 0, start 1, start 2, step 2, step 1, \
         end 1, step 0, step 1, step 1, end 1, step 0, step 2, step 2, end 2, step 0, start 3, \
         step 3, step 3, step 3, end 3, step 0, end 0",
    ] {
        cases.push(case(&strengths, &library, text));
    }
    cases.push(whole(&strengths, &library));
    // Children that all write one entry go one after the other; such as read it don't.
    for lines in [[write_line(0)], [read_line(0)]] {
        let bytes = list(
            1,
            &[&lines],
            &[&[fan(1, 0, 3), load(2, 1)], &[constant(1, 0), load(2, 1)]],
        );
        cases.push(case(
            &bytes,
            &[5],
            "start 0, step 0, start 3, start 2, step 0, start 1, start 2, step 1, step 1, end 1, \
             start 3, start 2, step 2, step 2, end 2, start 3, step 0, step 3, step 3, end 3, \
             step 0, end 0",
        ));
    }
    // A fan never waits, though a writer of all its entries stands ahead of the spawner.
    let behind = list(
        2,
        &[&[write_line(0), write_line(1)], &[WRITE_BY_CHILD]],
        &[&[spawn(2, 0), fan(1, 1, 2)], &[store(0, 1)], &[]],
    );
    cases.push(case(
        &behind,
        &LIBRARY_P,
        "start 0, step 0, step 0, start 3, start 2, end 0, start 1, start 3, end 1, start 3, start 2",
    ));
    // One child: R0 is 0 whatever the spawner's is. 16 children, one of a sheet that has none.
    let one = list(
        2,
        &[&[WRITE_BY_CHILD]],
        &[&[constant(0, 1), fan(1, 0, 1), spawn(1, 0)], &[store(0, 0)]],
    );
    cases.push(whole(&one, &LIBRARY_P));
    let sixteen = list(
        16,
        &[&[WRITE_BY_CHILD]],
        &[&[fan(1, 0, 16)], &[constant(1, 9), store(0, 1)]],
    );
    let library: Vec<u32> = (0..16).map(|entry| 100 + entry).collect();
    cases.push(whole(&sixteen, &library));
    cases.extend(fan_numbers());
    cases.extend(fan_faults());
    // 128 jobs, and 129, which is refused; then counts beyond any machine word.
    for single in [15, 16] {
        cases.push(case(
            &encode(&fan_tree(single)),
            &[0],
            "start 0, step 0, step 0, start 106, step 106, start 112, start 113, start 114, \
             start 127, start 8, step 8, start 14, end 0, end 8",
        ));
    }
    cases.push(queue_of_128_by_fans());
    for reached in [false, true] {
        cases.push(case(
            &fans_of_fans(reached),
            &[5],
            "start 0, step 0, start 1",
        ));
    }
    cases
}

/// #104: a fan of three children; child i writes entry i, into which it stores entry 3 + R1. The spawner's
/// R0 is 3; behind the fan it waits for entry 0 and loads it.
pub fn fan_of_strengths() -> Vec<u8> {
    list(
        4,
        &[&[WRITE_BY_CHILD, Line { kind: 2, value: 3 }]],
        &[
            &[
                constant(0, 3),
                constant(1, 40),
                constant(3, 3),
                fan(1, 0, 3),
                Instruction::Sub { a: 2, b: 2, c: 2 },
                Instruction::Wait { a: 2 },
                Instruction::Load { a: 2, b: 2 },
            ],
            &[
                Instruction::Load { a: 2, b: 3 },
                Instruction::Add { a: 2, b: 2, c: 1 },
                Instruction::Store { a: 0, b: 2 },
            ],
        ],
    )
}

/// #104: sheet 1 counts 3. Fans, a spawn, and fans and a spawn again: jobs 1, 4 and 7; 10; 13 and 14; 15;
/// 16.
pub fn fans_and_spawns(first: Instruction) -> Vec<u8> {
    list(
        1,
        &[&[]],
        &[
            &[
                first,
                fan(1, 0, 3),
                spawn(1, 0),
                fan(2, 0, 2),
                fan(2, 0, 1),
                spawn(2, 0),
            ],
            &[fan(2, 0, 2)],
            &[],
        ],
    )
}

/// The numbers of the jobs behind a fan, also behind one that is passed over.
fn fan_numbers() -> Vec<Case> {
    let mut cases = Vec::new();
    for passed_over in [0, 1, 3] {
        let bytes = fans_and_spawns(Instruction::Skip {
            a: 0,
            b: passed_over,
        });
        cases.push(case(
            &bytes,
            &[5],
            "start 0, step 0, step 0, step 0, step 0, step 0, step 0, start 1, start 4, start 7, \
             step 4, step 7, start 10, step 10, start 11, start 13, start 14, start 16, end 14",
        ));
        cases.push(whole(&bytes, &[5]));
    }
    cases
}

/// Faults of a fan: by children, then lines. The spawner, job 1, reads entry 0 and writes 1, or the other
/// way about, and has no other of C = 4; R1 is 3, R2 is 1.
fn fan_faults() -> Vec<Case> {
    let mut cases = Vec::new();
    let own = [[read_line(0), write_line(1)], [write_line(0), read_line(1)]];
    let lines: [(usize, &[Line]); 9] = [
        // Fault 1 of child 2.
        (0, &[READ_BY_CHILD]),
        // Fault 2 of child 0, at its first line and at its last; then of child 1.
        (0, &[WRITE_BY_CHILD]),
        (0, &[read_line(1), WRITE_BY_CHILD]),
        (1, &[WRITE_BY_CHILD]),
        // #106: child 0 names an entry twice, then child 1 does; fault 1 of child 2 stays.
        (0, &[READ_BY_CHILD, read_line(0)]),
        (0, &[READ_BY_CHILD, write_line(1)]),
        // Fault 2 of child 0 before fault 1 of child 2, though the latter has it at an earlier line.
        (0, &[READ_BY_CHILD, read_line(0), write_line(0)]),
        // A line that names another register: the same for each child.
        (0, &[Line { kind: 2, value: 1 }]),
        (0, &[Line { kind: 3, value: 2 }, READ_BY_CHILD]),
    ];
    for (spawner, lines) in lines {
        for children in [1, 2, 3] {
            let bytes = list(
                4,
                &[&own[spawner], lines],
                &[
                    &[constant(1, 3), constant(2, 1), spawn(1, 0)],
                    &[fan(2, 1, children), constant(3, 7)],
                    &[],
                ],
            );
            let text =
                "start 0, step 0, step 0, step 0, start 1, step 1, start 2, step 1, end 1, end 1";
            cases.push(case(&bytes, &[5, 6, 7, 8], text));
        }
    }
    // Fault 1 of the last of 16, at C.
    let bytes = list(
        15,
        &[&[READ_BY_CHILD]],
        &[&[fan(1, 0, 15), fan(1, 0, 16), spawn(1, 0)], &[]],
    );
    cases.push(case(
        &bytes,
        &[5; 15],
        "start 0, step 0, step 0, start 15, start 16, start 1, step 0, end 0",
    ));
    cases
}

/// All of 128 jobs in one queue, by fans of fans: eight of 15 each, less one.
fn queue_of_128_by_fans() -> Case {
    let bytes = list(
        1,
        &[&[read_line(0)]],
        &[&[fan(1, 0, 7), fan(2, 0, 15)], &[fan(2, 0, 15)], &[]],
    );
    let mut case = case(&bytes, &[5], "start 0, step 0, step 0");
    for child in [6, 0, 3, 1, 5, 2, 4] {
        case.calls
            .extend([(0, 1 + 16 * child), (1, 1 + 16 * child)]);
    }
    case.calls
        .extend([(0, 127), (0, 128), (0, 112), (2, 1), (2, 0)]);
    case
}

/// 32 sheets, each but the first and the last with a fan of 16 of the next, so that counts go beyond any
/// machine word; sheet 0 has a fan of the next, which is refused, or of the last.
fn fans_of_fans(next: bool) -> Vec<u8> {
    let mut bodies = vec![vec![fan(if next { 1 } else { 31 }, 0, 2)]];
    for s in 1..31 {
        bodies.push(vec![fan(s + 1, 0, 16)]);
    }
    bodies.push(Vec::new());
    encode(&TaskList {
        locations: 1,
        footprints: vec![vec![read_line(0)]],
        bodies,
    })
}

/// #107
fn sums() -> Vec<Case> {
    let mut cases = Vec::new();
    // Two jobs add to one entry in either order, and one within the other; job 0 waits for both.
    let two = two_that_sum(Instruction::Wait { a: 0 });
    for text in [
        "start 0, step 0, step 0, step 0, step 0, start 2, start 1",
        "start 0, step 0, step 0, step 0, step 0, start 1, step 1, end 1, start 2, step 2, end 2, step 0, \
         step 0, end 0",
        "start 0, step 0, step 0, step 0, step 0, start 2, step 2, step 0, start 1, end 2, step 0, step 1, \
         step 0, end 1, step 0, step 0, end 0",
        "start 0, step 0, step 0, step 0, step 0, start 1, start 2, step 2, step 1, end 2, step 0, end 1, \
         step 0, step 0, end 0",
    ] {
        cases.push(case(&two, &[5], text));
    }
    cases.push(whole(&two, &[5]));
    // A writer behind sums: load, store and sum are held back as its wait is.
    for instruction in [
        Instruction::Load { a: 2, b: 0 },
        Instruction::Store { a: 0, b: 1 },
        sum(0, 1),
    ] {
        cases.push(case(
            &two_that_sum(instruction),
            &[5],
            "start 0, step 0, step 0, step 0, step 0, step 0, start 2, step 0, step 2, end 2, step 0, start 1, \
             step 1, step 0, end 1, step 0, step 0, end 0",
        ));
    }
    // Modulo 2^32, with two addends and with the entry's own number.
    for entry in [u32::MAX, u32::MAX - 2, 0x8000_0000] {
        cases.push(whole(&sums_that_wrap(), &[entry, u32::MAX]));
    }
    cases.extend(sums_beside_other_modes());
    cases.extend(sums_of_children());
    cases.extend(faults_of_sums());
    cases
}

/// #107: jobs 1 and 2 sum entry 0, one adding 3 and the other 40; then job 0 does this with R0 = 0 and
/// R1 = 40, and loads the entry.
pub fn two_that_sum(instruction: Instruction) -> Vec<u8> {
    list(
        1,
        &[&[sum_line(0)]],
        &[
            &[
                constant(1, 3),
                spawn(1, 0),
                constant(1, 40),
                spawn(1, 0),
                instruction,
                Instruction::Load { a: 3, b: 0 },
            ],
            &[sum(0, 1)],
        ],
    )
}

/// #107: job 0 adds 3 to entry 0, entry 1 to it, and 1 to entry 1 by one register.
pub fn sums_that_wrap() -> Vec<u8> {
    list(
        2,
        &[],
        &[&[
            constant(1, 3),
            sum(0, 1),
            constant(2, 1),
            Instruction::Load { a: 3, b: 2 },
            sum(0, 3),
            sum(2, 2),
            Instruction::Load { a: 3, b: 2 },
        ]],
    )
}

/// #107: jobs 1, 2 and 3 have entry 0 in these modes, in this order.
pub fn three_modes(kinds: [u8; 3]) -> Vec<u8> {
    let line = |kind| [Line { kind, value: 0 }];
    list(
        1,
        &[&line(kinds[0]), &line(kinds[1]), &line(kinds[2])],
        &[&[spawn(1, 0), spawn(1, 1), spawn(1, 2)], &[]],
    )
}

/// Starts behind jobs of each mode: a sum is held by a reader and by a writer, and holds both. The search
/// goes past sums: 19 where a writer stands behind them.
fn sums_beside_other_modes() -> Vec<Case> {
    let mut cases = Vec::new();
    for kinds in [
        [4, 4, 4],
        [4, 4, 0],
        [4, 0, 4],
        [0, 4, 0],
        [4, 1, 4],
        [1, 4, 4],
        [4, 4, 1],
    ] {
        let begun = "start 0, step 0, step 0, step 0, start 3, start 2, start 1, end 0";
        let ended = "start 2, start 3, end 1, start 3, start 2, end 2, start 3, end 3";
        for text in [begun, &format!("{begun}, {ended}")] {
            cases.push(case(&three_modes(kinds), &[5], text));
        }
    }
    // A sum on one entry and another mode on a second: all entries of the footprint count.
    let bytes = list(
        2,
        &[
            &[sum_line(0), read_line(1)],
            &[sum_line(0), write_line(1)],
            &[sum_line(0), sum_line(1)],
            &[sum_line(0)],
        ],
        &[
            &[spawn(1, 0), spawn(1, 1), spawn(1, 2), spawn(1, 3)],
            &[Instruction::Wait { a: 0 }, sum(0, 1)],
        ],
    );
    cases.push(case(
        &bytes,
        &LIBRARY_P,
        "start 0, step 0, step 0, step 0, step 0, start 4, step 4, step 4, start 3, start 2, start 1, end 4, step 1, \
         step 1, end 1, start 3, start 2, step 2, start 3, step 2, end 2, start 3, step 3, step 3, end 3, end 0",
    ));
    cases
}

/// A job of mode sum and one of mode write, each with children that sum, by spawns and by fans.
fn sums_of_children() -> Vec<Case> {
    let mut cases = Vec::new();
    for kind in [4, 1] {
        let bytes = children_that_sum(Line { kind, value: 0 });
        cases.push(case(
            &bytes,
            &LIBRARY_P,
            "start 0, step 0, start 1, step 1, step 1, step 1, step 1, start 4, step 4, step 4, end 4, start 2, \
             step 1, step 2, step 2, start 3, end 2, step 3, step 3, end 3, step 1, step 1, end 1, end 0",
        ));
        cases.push(whole(&bytes, &LIBRARY_P));
    }
    // Child i sums entry i, and all sum entry 2; the last first.
    let bytes = list(
        3,
        &[&[SUM_BY_CHILD, sum_line(2)]],
        &[
            &[constant(1, 2), constant(3, 7), fan(1, 0, 3), sum(1, 3)],
            &[sum(0, 3), sum(1, 0), Instruction::Wait { a: 1 }],
        ],
    );
    cases.push(case(
        &bytes,
        &[5, 6, u32::MAX],
        "start 0, step 0, step 0, step 0, start 3, start 2, start 1, step 3, step 3, step 2, step 1, step 2, step 0, \
         step 1, end 2, step 1, end 1, step 3, step 0, end 3, step 0, end 0",
    ));
    cases.push(whole(&bytes, &[5, 6, u32::MAX]));
    cases
}

/// #107: job 1 has this line. It adds 1 to entry 0 by a spawn, by two children of a fan and by itself: each
/// child its number and 1. R1 is 0.
pub fn children_that_sum(line: Line) -> Vec<u8> {
    let add_one = [
        Instruction::Add { a: 2, b: 0, c: 2 },
        Instruction::Sum { a: 1, b: 2 },
    ];
    list(
        2,
        &[&[line], &[Line { kind: 5, value: 1 }]],
        &[
            &[spawn(1, 0)],
            &[
                constant(2, 1),
                spawn(2, 1),
                fan(2, 1, 2),
                Instruction::Less { a: 3, b: 1, c: 2 },
                Instruction::Wait { a: 1 },
                sum(1, 2),
            ],
            &add_one,
        ],
    )
}

fn faults_of_sums() -> Vec<Case> {
    let load = Instruction::Load { a: 1, b: 0 };
    let store = Instruction::Store { a: 0, b: 1 };
    let wait = Instruction::Wait { a: 0 };
    let mut cases = Vec::new();
    // Each use where the mode is sum, and where it is read; job 2 behind another of its mode. A fault comes
    // before waiting; a wait has none.
    for line in [sum_line(0), read_line(0)] {
        for instruction in [load, store, sum(0, 1), wait] {
            let bytes = list(
                1,
                &[&[line]],
                &[&[spawn(1, 0), spawn(1, 0)], &[constant(1, 9), instruction]],
            );
            cases.push(case(
                &bytes,
                &[5],
                "start 0, step 0, step 0, start 2, step 2, step 2, step 2, end 2, start 1, end 1",
            ));
        }
    }
    // An entry at C and above, and one that others hold.
    for number in [2, 63, 64, 65535] {
        let bytes = list(2, &[], &[&[constant(0, number), sum(0, 0)]]);
        cases.push(whole(&bytes, &LIBRARY_P));
    }
    let bytes = list(
        1,
        &[&[sum_line(0)], &[]],
        &[&[spawn(1, 0), spawn(1, 1)], &[sum(0, 0)]],
    );
    cases.push(case(
        &bytes,
        &[5],
        "start 0, step 0, step 0, start 2, step 2, end 2, start 1",
    ));
    cases.push(whole(&lines_of_each_mode(), &LIBRARY_P));
    // Lines in turn; the spawner sums entry 0, reads 1, writes 2 and has no 3. R1 is 0.
    let own = [sum_line(0), read_line(1), write_line(2)];
    let by_register = |kind| Line { kind, value: 1 };
    let lines: [&[Line]; 9] = [
        &[sum_line(0), by_register(5), sum_line(0)],
        &[sum_line(0), by_register(2)],
        &[sum_line(0), sum_line(1), sum_line(3)],
        &[sum_line(3), sum_line(1)],
        &[sum_line(2), read_line(2)],
        &[read_line(2), sum_line(2)],
        &[sum_line(2), sum_line(2), write_line(2)],
        &[write_line(2), read_line(0)],
        &[read_line(0), read_line(3)],
    ];
    for lines in lines {
        let bytes = list(
            4,
            &[&own, lines],
            &[&[spawn(1, 0)], &[spawn(2, 1), constant(2, 7)], &[]],
        );
        cases.push(case(
            &bytes,
            &[5, 6, 7, 8],
            "start 0, step 0, start 1, step 1, start 2, step 1, end 1",
        ));
    }
    // A fan of sums by R0: the second child's entry is read, the third's is none.
    for children in [1, 2, 4] {
        for lines in [&[SUM_BY_CHILD][..], &[sum_line(2), SUM_BY_CHILD]] {
            let bytes = list(
                4,
                &[&own, lines],
                &[&[spawn(1, 0)], &[fan(2, 1, children)], &[]],
            );
            cases.push(case(
                &bytes,
                &[5, 6, 7, 8],
                "start 0, step 0, start 1, step 1, start 2, end 1",
            ));
        }
    }
    cases
}

/// #107: for each mode at entry 0 that a job has, none included, and each kind of line, one job spawns with
/// such a line. By the job: read, write, sum, none; for each of them by the line: kinds 0 to 5.
pub fn lines_of_each_mode() -> Vec<u8> {
    let own: [&[Line]; 4] = [&[read_line(0)], &[write_line(0)], &[sum_line(0)], &[]];
    let lines: Vec<[Line; 1]> = (0..6).map(|kind| [Line { kind, value: 0 }]).collect();
    let mut footprints = own.to_vec();
    footprints.extend(lines.iter().map(|line| &line[..]));
    let spawns: Vec<[Instruction; 1]> = (0..6).map(|line| [spawn(7, 4 + line)]).collect();
    let root: Vec<Instruction> = (0..24).map(|i| spawn(1 + i % 6, i / 6)).collect();
    let mut bodies = vec![&root[..]];
    bodies.extend(spawns.iter().map(|body| &body[..]));
    bodies.push(&[]);
    list(2, &footprints, &bodies)
}

/// #108
fn thousandths() -> Vec<Case> {
    const MAX: u32 = u32::MAX;
    let mut cases = Vec::new();
    // One Rc for several Rb, each in a job of its own: by the hand run's calls where Rc is odd, else by its
    // result alone.
    let products: [(u16, &[u32]); 6] = [
        // Halves, and beside them; a zero Rc is no fault.
        (500, &[0, 1, 2, 3, 5, 999, MAX]),
        (125, &[3, 4, 11, 12, 13]),
        (0, &[0, MAX]),
        // Each number is kept.
        (1000, &[1, MAX]),
        // 4294967294.618 and 4294967295.619; then 4294967295.499 and 4294967296.652: the rounded result
        // decides.
        (1001, &[499, 500, 4_290_676_618, 4_290_676_619]),
        (1153, &[3_725_036_683, 3_725_036_684]),
    ];
    let quotients: [(u16, &[u32]); 9] = [
        (2000, &[0, 1, 2, 3, 5, 999, MAX]),
        (16, &[1, 2, 3, 5]),
        (3, &[1, 2, 4, 5]),
        (2001, &[1, 2]),
        (0, &[0, 1, MAX]),
        (1, &[0, 4_294_967, 4_294_968]),
        (1000, &[MAX]),
        // 4294967295.499 and, with the next Rc, 4294967295.501.
        (511, &[2_194_728_288, 2_194_728_289]),
        (978, &[4_200_478_014, 4_200_478_015]),
    ];
    for (c, numbers) in products {
        cases.push(rates(mul(1, 1, 2), c, numbers, c % 2 == 1));
    }
    for (c, numbers) in quotients {
        cases.push(rates(div(1, 1, 2), c, numbers, c % 2 == 1));
    }
    // Two numbers of the library: 4294967295.5; then 2^63 and a little more, whose double is a little more
    // than 2^64.
    for (b, c) in [
        (3_734_754_170, 1150),
        (65536, 65536),
        (3_037_000_500, 3_037_000_500),
        (MAX, MAX),
    ] {
        cases.push(case(&rate_of_two(mul(3, 1, 2)), &[b, c], ""));
    }
    // The last is 12.5.
    for (b, c) in [
        (MAX, MAX),
        (MAX, MAX - 1),
        (2_147_483_648, MAX),
        (2_147_484, MAX),
        (2_147_483, MAX),
        (53_687_091, MAX - 15),
    ] {
        cases.push(case(&rate_of_two(div(3, 1, 2)), &[b, c], ""));
    }
    // A result in the place of an operand, one operand for both.
    let bytes = list(
        1,
        &[],
        &[&[
            Instruction::Load { a: 1, b: 0 },
            constant(2, 7),
            mul(1, 1, 1),
            div(2, 1, 2),
            div(3, 2, 2),
            mul(2, 3, 2),
            div(0, 0, 3),
        ]],
    );
    cases.push(whole(&bytes, &[4500]));
    cases.extend(faults_of_rates());
    cases
}

/// #108: a fan of jobs that each make of their entry what this does with R1, which is the entry, and R2.
pub fn fan_of_rates(instruction: Instruction, c: u16, entries: usize) -> Vec<u8> {
    list(
        entries,
        &[&[WRITE_BY_CHILD]],
        &[
            &[constant(2, c), fan(1, 0, entries as u8)],
            &[
                Instruction::Load { a: 1, b: 0 },
                instruction,
                Instruction::Store { a: 0, b: 1 },
            ],
        ],
    )
}

fn rates(instruction: Instruction, c: u16, numbers: &[u32], with_calls: bool) -> Case {
    let bytes = fan_of_rates(instruction, c, numbers.len());
    if with_calls {
        whole(&bytes, numbers)
    } else {
        case(&bytes, numbers, "")
    }
}

/// #108: R1 and R2 are the entries 0 and 1; what this leaves in R3 is stored to entry 0.
pub fn rate_of_two(instruction: Instruction) -> Vec<u8> {
    list(
        2,
        &[],
        &[&[
            Instruction::Load { a: 1, b: 0 },
            constant(2, 1),
            Instruction::Load { a: 2, b: 2 },
            instruction,
            Instruction::Store { a: 0, b: 3 },
        ]],
    )
}

/// #108: job 0 makes a job that writes both entries, does this, and makes another. Its R1 is 70, R2 is entry
/// 0, R3 is 9.
pub fn rate_between_spawns(instruction: Instruction) -> Vec<u8> {
    list(
        2,
        &[&[write_line(0), write_line(1)]],
        &[
            &[
                constant(1, 70),
                Instruction::Load { a: 2, b: 0 },
                constant(3, 9),
                spawn(1, 0),
                instruction,
                spawn(1, 0),
            ],
            &[Instruction::Store { a: 0, b: 3 }],
        ],
    )
}

/// "A fault ends the job as the earlier ones do": no place or register changes, the jobs made before it
/// stay, none is made behind it; with a writer of all entries ahead, since none of them waits.
fn faults_of_rates() -> Vec<Case> {
    let mut cases = Vec::new();
    for (instruction, entry) in [
        (mul(3, 1, 2), 1500),
        (mul(3, 2, 2), u32::MAX),
        (div(3, 2, 1), 1500),
        (div(3, 2, 1), u32::MAX),
        (div(3, 1, 2), 0),
        (div(3, 0, 2), 0),
        // Registers that hold the number of an entry.
        (mul(0, 0, 0), 1500),
        (div(0, 0, 1), 1500),
    ] {
        cases.push(case(
            &rate_between_spawns(instruction),
            &[entry, 7],
            "start 0, step 0, step 0, step 0, step 0, step 0, step 0, end 0, start 1, step 1, end 1, start 2",
        ));
    }
    cases
}

/// #111: job 0 makes so many jobs, up to 32, by fans; each does this many instructions. Then it does as many
/// as `rest` itself. No job has an entry.
pub fn jobs_at_once(children: usize, length: usize, rest: usize) -> Vec<u8> {
    let mut root = vec![fan(1, 0, children.min(16) as u8)];
    if children > 16 {
        root.push(fan(1, 0, children as u8 - 16));
    }
    root.extend(vec![constant(1, 9); rest]);
    list(1, &[&[]], &[&root, &vec![constant(2, 7); length]])
}

/// #111: three jobs without an entry; the last, which is behind the others in the order, is the longest.
pub fn long_job_last() -> Vec<u8> {
    list(
        1,
        &[&[]],
        &[
            &[spawn(1, 0), spawn(1, 0), spawn(2, 0)],
            &[constant(1, 9)],
            &[constant(1, 9); 3],
        ],
    )
}

/// #111: jobs of these kinds of lines at entry 0, in this order, each of which uses it once and then does
/// something else; job 0 waits for all.
pub fn one_entry_in_turn(kinds: &[u8]) -> Vec<u8> {
    let lines: Vec<[Line; 1]> = (0..6).map(|kind| [Line { kind, value: 0 }]).collect();
    let footprints: Vec<&[Line]> = lines.iter().map(|line| &line[..]).collect();
    let sheet = |kind| match kind {
        0 => 1,
        1 => 2,
        _ => 3,
    };
    let mut root: Vec<Instruction> = kinds
        .iter()
        .map(|kind| spawn(sheet(*kind), *kind))
        .collect();
    root.push(Instruction::Wait { a: 0 });
    let other = constant(2, 7);
    list(
        1,
        &footprints,
        &[
            &root,
            &[Instruction::Load { a: 1, b: 0 }, other],
            &[Instruction::Store { a: 0, b: 1 }, other],
            &[sum(0, 1), other],
        ],
    )
}

/// #111: job 1 makes two jobs of its own while job 2 does other things; job 0 makes job 4 beside them.
pub fn children_within_rounds() -> Vec<u8> {
    list(
        2,
        &[&[write_line(0)], &[read_line(0)], &[write_line(1)]],
        &[
            &[spawn(1, 0), spawn(3, 2), spawn(2, 1), constant(1, 9)],
            &[
                constant(1, 5),
                spawn(2, 1),
                Instruction::Store { a: 0, b: 1 },
            ],
            &[Instruction::Load { a: 2, b: 0 }],
            &[constant(1, 1), Instruction::Store { a: 1, b: 1 }],
        ],
    )
}

/// The calls of the rounds with so many workers, cut behind so many rounds.
fn in_rounds(list: &[u8], library: &[u32], workers: u32, rounds: usize) -> Case {
    let mut case = case(list, library, "");
    let fresh = open(list, library, &TODAY).expect("an accepted list with its library");
    let all = all_rounds(&fresh, workers);
    case.calls = all.into_iter().take(rounds).flatten().collect();
    case
}

/// #111, #112 and #103.
fn rounds_moves_and_searches() -> Vec<Case> {
    let mut cases = Vec::new();
    // 15 jobs and job 0, 16 and job 0, and more, which are ready at once; the last have nothing to do.
    for (children, length) in [(15, 1), (16, 1), (17, 2), (32, 1), (32, 0)] {
        let bytes = jobs_at_once(children, length, 0);
        cases.push(in_rounds(&bytes, &[5], 16, 3));
    }
    // The bound of the rounds is met by 1, 2, 4, 8 and 16 workers; more workers help up to 6.
    cases.push(in_rounds(&jobs_at_once(16, 0, 6), &[5], 4, 6));
    cases.push(in_rounds(&jobs_at_once(5, 4, 0), &[5], 3, 5));
    cases.push(in_rounds(&long_job_last(), &[5], 2, usize::MAX));
    // Jobs that are freed, and jobs that are made, within a round.
    let writers = one_entry_in_turn(&[1, 1, 0, 0, 1]);
    for rounds in [8, 10, 12] {
        cases.push(in_rounds(&writers, &[5], 3, rounds));
        cases.push(in_rounds(
            &children_within_rounds(),
            &LIBRARY_P,
            2,
            rounds - 3,
        ));
    }
    // Readers beside sums: each group goes at once, one group after the other.
    let groups = one_entry_in_turn(&[0, 0, 4, 4, 4, 0, 4, 1]);
    for rounds in [6, 10, 13, usize::MAX] {
        cases.push(in_rounds(&groups, &[5], 16, rounds));
    }
    // A search that stops at a writer in the middle, at the front, at the job itself behind readers and sums.
    let made = "start 0, step 0, step 0, step 0, step 0, step 0, step 0";
    for kinds in [
        [0, 0, 1, 0, 0, 1],
        [1, 0, 4, 4, 1, 0],
        [0, 0, 0, 0, 0, 1],
        [4, 4, 4, 4, 4, 0],
    ] {
        cases.push(case(&one_entry_in_turn(&kinds), &[5], made));
    }
    cases.push(case(
        &starts_behind_reader_and_writer(),
        &[5, 6, 7, 8],
        made,
    ));
    // All of 128 jobs in the order: the last two calls, which end jobs, are left out.
    let mut all = queue_of_128_by_fans();
    all.calls.truncate(all.calls.len() - 2);
    cases.push(all);
    // The most calls that a list can have, 34 for each of 128 jobs, which are all ready at once.
    cases.push(case(&most_calls(), &[5], ""));
    // A writer of the last entry there can be, and one behind 126 jobs without entries: a search stops at place 127.
    let last: Vec<u32> = (0..64).collect();
    cases.push(case(&writer_of_entry_63(), &last, "start 0, step 0"));
    let behind = "start 0, step 0, step 0, step 0, step 0, step 0, step 0, step 0, step 0, step 0";
    cases.push(case(&writer_behind_126(), &[5], behind));
    cases
}

/// #111: 128 jobs of 32 instructions each, and so 4,352 calls; each child is made before the first of them has
/// ended, and none has an entry.
pub fn most_calls() -> Vec<u8> {
    let mut root = vec![fan(1, 0, 16); 7];
    root.push(fan(1, 0, 15));
    root.resize(32, constant(1, 9));
    list(1, &[&[]], &[&root, &[constant(2, 7); 32]])
}

/// #103: a job that writes entry 63.
pub fn writer_of_entry_63() -> Vec<u8> {
    list(64, &[&[write_line(63)]], &[&[spawn(1, 0)], &[]])
}

/// #103: 126 jobs without an entry, then one that writes entry 0.
pub fn writer_behind_126() -> Vec<u8> {
    let mut root = vec![fan(1, 0, 16); 7];
    root.push(fan(1, 0, 14));
    root.push(spawn(1, 1));
    list(1, &[&[], &[write_line(0)]], &[&root, &[]])
}

/// A full play: accepted calls in an order that this strategy prefers, until no job is left.
fn played(list: &[u8], library: &[u32], strategy: Strategy, seed: u64) -> Case {
    let mut case = case(list, library, "");
    let mut run = open(list, library, &TODAY).expect("an accepted list with its library");
    let mut rng = Rng::new(seed);
    let mut last = 0;
    while let Some((kind, task)) = sensible_call(&mut rng, strategy, &run, last) {
        case.calls.push((kind, task));
        call(&mut run, kind, task).expect("a sensible call");
        last = task;
    }
    case
}

/// The same, but for so many calls at its end.
fn cut(list: &[u8], library: &[u32], strategy: Strategy, less: usize) -> Case {
    let mut case = played(list, library, strategy, 0);
    case.calls.truncate(case.calls.len() - less);
    case
}

/// #114
fn bills() -> Vec<Case> {
    let mut cases = Vec::new();
    // Equal wards; equal ones between others, with the larger remainder now at these, now at those; one alone.
    for lengths in [&[0, 0, 0][..], &[0, 2, 0, 2], &[3, 0, 0, 3, 1], &[4]] {
        let bytes = wards_of_lengths(lengths);
        cases.push(played(&bytes, &[5], Strategy::Back, 0));
    }
    // Exact shares of 100: no pence remain.
    cases.push(played(&wards_of_25_and_75(), &[5], Strategy::Other, 0));
    // Fans of job 0 beside spawns; children of one fan that differ in weight.
    let two_rates = fan_of_two_weights();
    cases.push(played(&two_rates, &[5], Strategy::LateEnds, 1));
    cases.push(in_rounds(&two_rates, &[5], 4, usize::MAX));
    // Wards that were passed over, and blocks with jobs that were never made: in several orders, and cut.
    for bytes in [wards_passed_over(), blocks_with_gaps()] {
        cases.push(whole(&bytes, &[5, 7]));
        cases.push(in_rounds(&bytes, &[5, 7], 3, usize::MAX));
        for strategy in [Strategy::Back, Strategy::Same] {
            cases.push(played(&bytes, &[5, 7], strategy, 2));
        }
        // Near the end of the hand run; with job 0 alone, at its end; with a ward or some of its block, job 0 ended.
        for (strategy, less) in [
            (Strategy::Front, 5),
            (Strategy::Front, 1),
            (Strategy::Back, 9),
        ] {
            cases.push(cut(&bytes, &[5, 7], strategy, less));
        }
    }
    // A spawn or a fan of job 0 that faults behind wards; what stands behind it isn't done.
    for last in [spawn(1, 1), fan(1, 2, 3)] {
        let bytes = fault_behind_wards(&[spawn(1, 0), fan(2, 0, 2), last, spawn(1, 0)]);
        cases.push(played(&bytes, &[5, 7], Strategy::Back, 3));
        cases.push(cut(&bytes, &[5, 7], Strategy::LateEnds, 1));
    }
    // No ward: the first spawn or fan faults, all are passed over, or there is none; then with job 0 left.
    for instructions in [
        &[spawn(1, 1), spawn(1, 0)][..],
        &[fan(1, 2, 3), spawn(1, 0)],
        &[Instruction::Skip { a: 0, b: 2 }, spawn(1, 0), fan(1, 0, 2)],
        &[constant(1, 9)],
    ] {
        let bytes = fault_behind_wards(instructions);
        cases.push(whole(&bytes, &[5, 7]));
        cases.push(cut(&bytes, &[5, 7], Strategy::Front, 1));
    }
    cases
}

/// #114: job 0 makes a job for each of these, by spawns, with as many instructions of weight 1.
pub fn wards_of_lengths(lengths: &[usize]) -> Vec<u8> {
    let mut bodies: Vec<Vec<Instruction>> = vec![Vec::new()];
    for (i, length) in lengths.iter().enumerate() {
        bodies[0].push(spawn(i as u8 + 1, 0));
        bodies.push(vec![constant(1, 9); *length]);
    }
    encode(&TaskList {
        locations: 1,
        footprints: vec![Vec::new()],
        bodies,
    })
}

/// #114: two wards, the first of weight 25, the second, with four children, of weight 75.
pub fn wards_of_25_and_75() -> Vec<u8> {
    let mut second = vec![spawn(3, 0); 4];
    second.extend([constant(1, 9); 8]);
    list(
        1,
        &[&[]],
        &[
            &[spawn(1, 0), spawn(2, 0)],
            &[constant(1, 9); 18],
            &second,
            &[],
        ],
    )
}

/// #114: a fan of six, the first four of which do three instructions more, then a spawn, and a fan of two that
/// have a child each.
pub fn fan_of_two_weights() -> Vec<u8> {
    list(
        1,
        &[&[]],
        &[
            &[fan(1, 0, 6), spawn(3, 0), fan(2, 0, 2)],
            &[
                constant(1, 4),
                Instruction::Less { a: 2, b: 0, c: 1 },
                Instruction::Skip { a: 2, b: 3 },
                constant(3, 9),
                constant(3, 9),
                constant(3, 9),
            ],
            &[spawn(3, 0)],
            &[constant(3, 9)],
        ],
    )
}

/// #114: job 0 passes over a spawn, a fan and a spawn, and another spawn at its end. A ward reads entry 1, or it
/// writes it and has two children that read it, and stores to it where its R0 isn't 0.
pub fn wards_passed_over() -> Vec<u8> {
    let skip = |a, b| Instruction::Skip { a, b };
    list(
        2,
        &[&[write_line(1)], &[read_line(1)]],
        &[
            &[
                constant(1, 1),
                skip(0, 1),
                spawn(1, 0),
                skip(1, 1),
                spawn(1, 0),
                spawn(2, 1),
                skip(0, 2),
                fan(1, 0, 3),
                spawn(2, 1),
                fan(1, 0, 2),
                skip(0, 1),
                spawn(2, 1),
            ],
            &[fan(2, 1, 2), skip(0, 1), Instruction::Store { a: 1, b: 0 }],
            &[Instruction::Load { a: 2, b: 1 }],
        ],
    )
}

/// #114: wards whose blocks have jobs that are never made: where R1 is 0, a ward passes over a spawn of a sheet
/// that counts 3; where it is 9, the spawn behind it faults.
pub fn blocks_with_gaps() -> Vec<u8> {
    list(
        2,
        &[&[sum_line(0)], &[Line { kind: 5, value: 1 }]],
        &[
            &[
                spawn(1, 0),
                constant(1, 9),
                spawn(1, 0),
                Instruction::Sub { a: 1, b: 1, c: 1 },
                fan(1, 0, 2),
                spawn(3, 0),
            ],
            &[
                Instruction::Skip { a: 1, b: 1 },
                spawn(2, 0),
                spawn(3, 1),
                spawn(3, 0),
            ],
            &[fan(3, 0, 2)],
            &[sum(1, 2)],
        ],
    )
}

/// #114: C = 2. Job 0 does this with R3 = 9. Footprint 1 names the entry in R3, which is none; footprint 2 the
/// entry of the child's number.
pub fn fault_behind_wards(instructions: &[Instruction]) -> Vec<u8> {
    let mut root = vec![constant(3, 9)];
    root.extend(instructions);
    list(
        2,
        &[
            &[read_line(0)],
            &[Line { kind: 2, value: 3 }],
            &[READ_BY_CHILD],
        ],
        &[
            &root,
            &[Instruction::Load { a: 1, b: 0 }, spawn(2, 0)],
            &[constant(1, 9)],
        ],
    )
}

fn refused_lists() -> Vec<Case> {
    let head = |locations| vec![0x4A, 0x48, locations, 0, 1, 0x4A, 0x42, 0];
    let mut cases = vec![
        // 6 before 7, and both before 8.
        case(&[&encode(&doubling_list(2))[..], &[0]].concat(), &[], ""),
        case(&[&EXAMPLE_P[..], &[0x4A]].concat(), &LIBRARY_P, ""),
        case(&EXAMPLE_P[..53], &[], ""),
        case(&[0x4B], &[], ""),
        case(&[0x4B, 0x48], &[], ""),
        case(&[0x4A, 0x48, 65], &[], ""),
    ];
    for locations in [0, 1, 64, 65, 255] {
        let library = vec![3; locations as usize];
        cases.push(case(&head(locations), &library, "start 0, end 0"));
    }
    cases.push(case(&head(64), &[3; 65], ""));
    // Footprint counts and lines: at the limit, and beyond it.
    let footprint = |bytes: &[u8]| {
        let start = [0x4A, 0x48, 2, 1, 1, 0x4A, 0x46];
        [&start[..], bytes, &[0x4A, 0x42, 0]].concat()
    };
    let sheet = |bytes: &[u8]| {
        let start = [0x4A, 0x48, 2, 1, 2, 0x4A, 0x46, 0, 0x4A, 0x42];
        [&start[..], bytes, &[0x4A, 0x42, 0]].concat()
    };
    let counts = [[8].as_slice(), &[0; 16]].concat();
    cases.push(case(&footprint(&counts), &LIBRARY_P, ""));
    let counts = [[9].as_slice(), &[0; 18]].concat();
    cases.push(case(&footprint(&counts), &LIBRARY_P, ""));
    for line in [
        [0, 1],
        [0, 2],
        [1, 2],
        [2, 3],
        [2, 4],
        [3, 4],
        [4, 1],
        [4, 2],
        [5, 3],
        [5, 4],
        [6, 0],
    ] {
        cases.push(case(&footprint(&[1, line[0], line[1]]), &LIBRARY_P, ""));
    }
    // Sheet counts and instructions, likewise.
    for count in [32, 33] {
        let counts = [&[count][..], &vec![0; 4 * count as usize]].concat();
        cases.push(case(&sheet(&counts), &LIBRARY_P, ""));
    }
    for instruction in [
        [0, 4, 0, 0],
        [1, 0, 4, 0],
        [3, 0, 0, 4],
        [4, 0, 0, 1],
        [6, 0, 0, 1],
        [7, 0, 0, 0],
        [7, 1, 0, 0],
        [7, 2, 0, 0],
        [7, 1, 1, 0],
        [7, 1, 0, 1],
        [8, 0, 1, 0],
        [9, 0, 0, 0],
        [9, 1, 0, 0],
        [9, 1, 0, 1],
        [9, 1, 0, 16],
        [9, 1, 0, 17],
        [9, 1, 0, 255],
        [9, 0, 0, 2],
        [9, 2, 0, 2],
        [9, 1, 1, 2],
        [10, 0, 0, 0],
        [10, 3, 3, 0],
        [10, 4, 0, 0],
        [10, 0, 4, 0],
        [10, 0, 0, 1],
        [11, 3, 3, 3],
        [11, 4, 0, 0],
        [11, 0, 4, 0],
        [11, 0, 0, 4],
        [12, 3, 3, 3],
        [12, 4, 0, 0],
        [12, 0, 4, 0],
        [12, 0, 0, 4],
        [13, 0, 0, 0],
    ] {
        let bytes = [&[1][..], &instruction].concat();
        cases.push(case(&sheet(&bytes), &LIBRARY_P, ""));
    }
    // Skips to the sheet's end and beyond, and of nothing.
    for b in [0, 1, 2, 3, 255] {
        let skip = Instruction::Skip { a: 0, b };
        let bytes = list(
            1,
            &[],
            &[&[constant(1, 1), skip, Instruction::Skip { a: 1, b: 1 }, skip]],
        );
        cases.push(case(&bytes, &[5], ""));
        let bytes = list(1, &[], &[&[constant(1, 1), skip, constant(2, 2)]]);
        cases.push(case(&bytes, &[5], "start 0, step 0, step 0, step 0, end 0"));
    }
    cases
}

/// A random case for the stored file: mostly small, calls accepted and refused, often to the end.
pub fn random_case(rng: &mut Rng) -> Case {
    let most_bytes = if rng.percent(10) { 700 } else { 250 };
    let most_tasks = if rng.percent(10) { 60 } else { 20 };
    let file = loop {
        let file = accepted_file(rng);
        let list = decode(&file).expect("an accepted file");
        let small = task_count(&list, 0) <= most_tasks && list.locations <= 16;
        if file.len() <= most_bytes && small {
            break file;
        }
    };
    let mut case = Case {
        library: fitting_library(rng, &file),
        list: file,
        calls: Vec::new(),
    };
    if rng.percent(4) {
        while case.list.len() > most_bytes || open(&case.list, &case.library, &TODAY).is_ok() {
            case.list = list_case(rng);
        }
    }
    let mut run = match open(&case.list, &case.library, &TODAY) {
        Ok(run) => run,
        Err(_) => return case,
    };
    let strategy = rng.pick(&STRATEGIES);
    let any_percent = rng.pick(&[0, 20, 50]);
    let most_calls = if rng.percent(30) { rng.below(30) } else { 150 };
    let mut last = 0;
    while case.calls.len() < most_calls && !run.order.is_empty() {
        let (kind, task) = next_call(rng, strategy, &run, last, any_percent);
        case.calls.push((kind, task));
        if call(&mut run, kind, task).is_ok() {
            last = task;
        }
    }
    if rng.percent(20) {
        case.calls.push(any_call(rng, &run));
    }
    case
}

/// The named cases, then `count` random ones.
pub fn stored_cases(seed: u64, count: usize) -> Vec<Case> {
    let mut rng = Rng::new(seed);
    let mut cases = named_cases();
    for _ in 0..count {
        cases.push(random_case(&mut rng));
    }
    cases
}
