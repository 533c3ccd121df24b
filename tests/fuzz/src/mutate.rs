//! Changes that know what a list and its calls are, so that most lists stay accepted, beside the fuzzer's own. The fuzzer makes
//! up to five changes on end, so that its own must be the fewer.

use second::cases::{bad_table, library_bytes, list_case, names_entry, next_call, random_library};
use second::cases::{random_list, random_table, table_bytes, STRATEGIES};
use second::coordinator::{call, open_files};
use second::list::{decode_records, task_count, Instruction, Line, TaskList};
use second::rng::Rng;
use second::{encode, TODAY};

use crate::fuzzer_mutation;
use crate::parts::{call_of, Parts};

/// Target `check`.
pub fn list_input(input: &[u8], most: usize, seed: u32) -> Vec<u8> {
    let mut rng = Rng::new(seed as u64);
    changed_list(&mut rng, input, most, 75)
}

/// Target `hand_run`.
pub fn hand_run_input(input: &[u8], most: usize, seed: u32) -> Vec<u8> {
    let mut rng = Rng::new(seed as u64);
    let mut parts = Parts::of(input, false);
    match rng.below(20) {
        0 => return fuzzer_mutation(input, most),
        1 | 2 => parts.lengths = rng.byte(),
        3..=5 => change_library(&mut rng, &mut parts),
        6 | 7 => change_table(&mut rng, &mut parts),
        _ => change_list(&mut rng, &mut parts, most),
    }
    parts.input(false)
}

/// Target `calls`.
pub fn calls_input(input: &[u8], most: usize, seed: u32) -> Vec<u8> {
    let mut rng = Rng::new(seed as u64);
    let mut parts = Parts::of(input, true);
    match rng.below(20) {
        0 => return fuzzer_mutation(input, most),
        1 => parts.lengths = rng.byte(),
        2 | 3 => change_library(&mut rng, &mut parts),
        4..=8 => change_list(&mut rng, &mut parts, most),
        _ => change_calls(&mut rng, &mut parts, most),
    }
    parts.input(true)
}

/// The room of one part when the others keep their lengths; the list's and the calls' lengths have two bytes each.
fn room(parts: &Parts, own: usize, most: usize) -> usize {
    let all = 5 + parts.list.len() + parts.calls.len() + parts.table.len() + parts.library.len();
    (most + own).saturating_sub(all).min(65_535)
}

fn change_list(rng: &mut Rng, parts: &mut Parts, most: usize) {
    let room = room(parts, parts.list.len(), most);
    parts.list = changed_list(rng, &parts.list, room, 92);
}

fn change_library(rng: &mut Rng, parts: &mut Parts) {
    if rng.percent(50) {
        parts.library = fuzzer_mutation(&parts.library, 264);
    } else {
        parts.library = library_bytes(&random_library(rng, parts.fitting() / 4));
    }
}

/// Mostly a table that is accepted, so that the list is run.
fn change_table(rng: &mut Rng, parts: &mut Parts) {
    parts.table = match rng.below(8) {
        0 => fuzzer_mutation(&parts.table, 64),
        1 => table_bytes(&bad_table(rng)),
        2 => {
            let mut table = table_bytes(&random_table(rng));
            table.resize(rng.pick(&[0, 1, 2, 24, 26, 28, 29, 31, 32, 34]), 1);
            table
        }
        3 | 4 => table_bytes(&TODAY),
        _ => table_bytes(&random_table(rng)),
    };
}

// ---------------------------------------------------------------------------------------------
// Lists

/// A changed list of at most `most` bytes: in `percent` of the cases by its fields, else by the fuzzer; rarely, and in half the
/// cases where it has no fields to change, another list; rarely no bytes.
fn changed_list(rng: &mut Rng, bytes: &[u8], most: usize, percent: usize) -> Vec<u8> {
    match rng.below(200) {
        0 => return Vec::new(),
        1 | 2 => return list_case(rng),
        _ => {}
    }
    if !rng.percent(percent) {
        return fuzzer_mutation(bytes, most);
    }
    let changed = match decode_records(bytes) {
        Ok(mut list) => {
            for _ in 0..rng.between(1, 4) {
                change(rng, &mut list);
            }
            repair(rng, &mut list);
            encode(&list)
        }
        Err(_) if rng.percent(50) => encode(&random_list(rng)),
        Err(_) => return fuzzer_mutation(bytes, most),
    };
    if changed.len() <= most {
        changed
    } else {
        fuzzer_mutation(bytes, most)
    }
}

/// One change; what it leaves wrong is repaired afterwards.
fn change(rng: &mut Rng, list: &mut TaskList) {
    let s = rng.below(list.bodies.len());
    let length = list.bodies[s].len();
    match rng.below(16) {
        0 => list.locations = rng.pick(&[1, 2, 3, 8, 63, 64, rng.clone().between(1, 64)]),
        // footprints and their lines
        1 if list.footprints.len() < 32 => {
            let lines = (0..rng.below(9))
                .map(|_| any_line(rng, list.locations))
                .collect();
            list.footprints.push(lines);
        }
        2 if !list.footprints.is_empty() => {
            let f = rng.below(list.footprints.len());
            list.footprints.remove(f);
        }
        3 | 4 if !list.footprints.is_empty() => {
            let f = rng.below(list.footprints.len());
            let line = any_line(rng, list.locations);
            let lines = &mut list.footprints[f];
            match rng.below(3) {
                0 if lines.len() < 8 => lines.insert(rng.below(lines.len() + 1), line),
                1 if !lines.is_empty() => {
                    lines.remove(rng.below(lines.len()));
                }
                _ if !lines.is_empty() => {
                    let i = rng.below(lines.len());
                    lines[i] = line;
                }
                _ => lines.push(line),
            }
        }
        // bodies
        5 if list.bodies.len() < 32 => {
            let body = list.bodies[s].clone();
            list.bodies.insert(rng.between(s, list.bodies.len()), body);
        }
        6 if list.bodies.len() > 1 => {
            list.bodies.remove(s);
        }
        7 => list.bodies.swap(s, 0),
        // instructions
        8..=10 if length < 32 => {
            let instruction = any_instruction(rng, list, s);
            let times = if rng.percent(10) {
                rng.between(1, 32 - length)
            } else {
                1
            };
            let pc = rng.below(length + 1);
            for _ in 0..times {
                list.bodies[s].insert(pc, instruction);
            }
        }
        11 if length > 0 => {
            let pc = rng.below(length);
            list.bodies[s].remove(pc);
        }
        12 if length > 1 => {
            let (pc, other) = (rng.below(length), rng.below(length));
            list.bodies[s].swap(pc, other);
        }
        13 if length > 0 => list.bodies[s].truncate(rng.below(length)),
        _ => {
            let instruction = any_instruction(rng, list, s);
            if length > 0 {
                let pc = rng.below(length);
                list.bodies[s][pc] = instruction;
            } else {
                list.bodies[s].push(instruction);
            }
        }
    }
}

fn any_line(rng: &mut Rng, locations: usize) -> Line {
    let mut line = Line {
        kind: rng.pick(&[0, 0, 0, 1, 1, 1, 4, 4, 4, 2, 3, 5]),
        value: 0,
    };
    let most = if names_entry(&line) { locations } else { 4 };
    line.value = rng.below(most) as u8;
    line
}

/// An instruction of any form; a constant is mostly an entry's number, sometimes one that makes halves in thousandths.
fn any_instruction(rng: &mut Rng, list: &TaskList, s: usize) -> Instruction {
    let (a, b, c) = (rng.below(4) as u8, rng.below(4) as u8, rng.below(4) as u8);
    match rng.below(18) {
        0 | 1 => {
            let value = match rng.below(9) {
                0 => rng.below(65_536),
                1 => list.locations,
                2 => rng.pick(&[1, 16, 500, 999, 1000, 1001, 2000, 65_535]),
                _ => rng.below(list.locations),
            };
            Instruction::Const {
                a,
                value: value as u16,
            }
        }
        2 => Instruction::Add { a, b, c },
        3 => Instruction::Sub { a, b, c },
        4 => Instruction::Less { a, b, c },
        5 | 6 => Instruction::Load { a, b },
        7 | 8 => Instruction::Store { a, b },
        9 => Instruction::Skip {
            a,
            b: rng.below(6) as u8,
        },
        10 if s + 1 < list.bodies.len() && !list.footprints.is_empty() => Instruction::Spawn {
            body: rng.between(s + 1, list.bodies.len() - 1) as u8,
            footprint: rng.below(list.footprints.len()) as u8,
        },
        11 if s + 1 < list.bodies.len() && !list.footprints.is_empty() => Instruction::Fan {
            body: rng.between(s + 1, list.bodies.len() - 1) as u8,
            footprint: rng.below(list.footprints.len()) as u8,
            children: rng.pick(&[1, 2, 3, 16, rng.clone().between(1, 16) as u8, 0, 17]),
        },
        12 | 13 => Instruction::Sum { a, b },
        14 | 15 => Instruction::Mul { a, b, c },
        16 => Instruction::Div { a, b, c },
        _ => Instruction::Wait { a },
    }
}

/// Makes the list one that is accepted; one in 16 keeps what is wrong with it, some keep more than 128 jobs.
fn repair(rng: &mut Rng, list: &mut TaskList) {
    if rng.below(16) == 0 {
        return;
    }
    for line in list.footprints.iter_mut().flatten() {
        if names_entry(line) {
            line.value %= list.locations as u8;
        }
    }
    let (footprints, bodies) = (list.footprints.len(), list.bodies.len());
    for s in 0..bodies {
        let length = list.bodies[s].len();
        for pc in 0..length {
            match &mut list.bodies[s][pc] {
                Instruction::Skip { b, .. } => *b = (*b).min((length - pc - 1) as u8),
                Instruction::Spawn { .. } | Instruction::Fan { .. }
                    if s + 1 == bodies || footprints == 0 =>
                {
                    list.bodies[s][pc] = Instruction::Wait { a: 0 };
                }
                Instruction::Spawn { body, footprint }
                | Instruction::Fan {
                    body, footprint, ..
                } => {
                    *footprint %= footprints as u8;
                    if (*body as usize) <= s || *body as usize >= bodies {
                        *body = (s + 1 + *body as usize % (bodies - s - 1)) as u8;
                    }
                }
                _ => {}
            }
            if let Instruction::Fan { children, .. } = &mut list.bodies[s][pc] {
                *children = (*children).clamp(1, 16);
            }
        }
    }
    if rng.below(16) == 0 {
        return;
    }
    // fewer jobs: fans become spawns, and those waits, from the last sheet that has one
    for s in (0..bodies).rev() {
        for pc in 0..list.bodies[s].len() {
            if task_count(list, 0) <= 128 {
                return;
            }
            if let Instruction::Fan {
                body, footprint, ..
            } = list.bodies[s][pc]
            {
                list.bodies[s][pc] = Instruction::Spawn { body, footprint };
                if task_count(list, 0) <= 128 {
                    return;
                }
            }
            if matches!(list.bodies[s][pc], Instruction::Spawn { .. }) {
                list.bodies[s][pc] = Instruction::Wait { a: 0 };
            }
        }
    }
}

// ---------------------------------------------------------------------------------------------
// Calls

/// Cuts the calls and goes on with others, mostly such as are accepted; or changes single ones.
fn change_calls(rng: &mut Rng, parts: &mut Parts, most: usize) {
    let room = room(parts, parts.calls.len(), most) / 2;
    let mut calls: Vec<[u8; 2]> = parts
        .calls
        .chunks_exact(2)
        .map(|pair| [pair[0], pair[1]])
        .collect();
    match rng.below(8) {
        0 => {
            parts.calls = fuzzer_mutation(&parts.calls, 2 * room);
            return;
        }
        1 => calls.insert(rng.below(calls.len() + 1), any_bytes(rng)),
        2 if !calls.is_empty() => {
            calls.remove(rng.below(calls.len()));
        }
        3 if calls.len() > 1 => {
            let (i, j) = (rng.below(calls.len()), rng.below(calls.len()));
            calls.swap(i, j);
        }
        4 if !calls.is_empty() => {
            let i = rng.below(calls.len());
            calls[i] = any_bytes(rng);
        }
        _ => go_on(rng, parts, &mut calls),
    }
    calls.truncate(room);
    parts.calls = calls.concat();
}

/// Any call; kinds and job numbers out of range are rare.
fn any_bytes(rng: &mut Rng) -> [u8; 2] {
    let kind = if rng.percent(5) {
        rng.byte()
    } else {
        rng.below(3) as u8
    };
    let task = if rng.percent(80) {
        rng.below(12)
    } else {
        rng.below(256)
    };
    [kind, task as u8]
}

fn go_on(rng: &mut Rng, parts: &Parts, calls: &mut Vec<[u8; 2]>) {
    let (library, _) = parts.lent_library();
    let Ok(mut run) = open_files(&parts.list, &library) else {
        return;
    };
    if rng.percent(50) {
        calls.truncate(rng.below(calls.len() + 1));
    }
    for bytes in calls.iter() {
        let (kind, task) = call_of(*bytes);
        let _ = call(&mut run, kind, task);
    }
    let strategy = rng.pick(&STRATEGIES);
    let any_percent = rng.pick(&[0, 10, 50]);
    let mut last = 0;
    for _ in 0..rng.pick(&[1, 4, 16, 64, 256]) {
        if run.order.is_empty() && rng.percent(80) {
            break;
        }
        let (kind, task) = next_call(rng, strategy, &run, last, any_percent);
        if task > 255 {
            continue;
        }
        calls.push([kind, task as u8]);
        if call(&mut run, kind, task).is_ok() {
            last = task;
        }
    }
}
