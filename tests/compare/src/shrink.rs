//! Smaller cases of one that differs.

use std::time::{Duration, Instant};

use second::list::decode_records;
use second::{encode, Instruction, TaskList};

/// A case from which no candidate still differs, or the smallest found within the time. Each candidate
/// must be smaller than its case in some measure.
pub fn shrink<C, I: Iterator<Item = C>>(
    mut case: C,
    time: Duration,
    candidates: impl Fn(&C) -> I,
    mut differs: impl FnMut(&C) -> bool,
) -> C {
    let begin = Instant::now();
    loop {
        let in_time = |_: &C| begin.elapsed() < time;
        let smaller = candidates(&case).take_while(in_time).find(&mut differs);
        match smaller {
            Some(smaller) => case = smaller,
            None => return case,
        }
    }
}

/// The bytes without a part, larger parts first, each part a multiple of `unit`; then with a byte 0.
pub fn smaller_bytes(bytes: &[u8], unit: usize) -> impl Iterator<Item = Vec<u8>> {
    let bytes = bytes.to_vec();
    let zeros = zeroed(&bytes);
    let mut parts = Vec::new();
    let mut size = bytes.len().div_ceil(unit);
    while size > 0 {
        for start in (0..bytes.len()).step_by(size * unit) {
            parts.push((start, (start + size * unit).min(bytes.len())));
        }
        size /= 2;
    }
    parts
        .into_iter()
        .map(move |(start, end)| [&bytes[..start], &bytes[end..]].concat())
        .chain(zeros)
}

/// The bytes with one that isn't 0 made 0.
fn zeroed(bytes: &[u8]) -> impl Iterator<Item = Vec<u8>> {
    let bytes = bytes.to_vec();
    (0..bytes.len())
        .filter(|place| bytes[*place] != 0)
        .collect::<Vec<usize>>()
        .into_iter()
        .map(move |place| {
            let mut zeroed = bytes.clone();
            zeroed[place] = 0;
            zeroed
        })
}

/// A list's bytes, made smaller: as a list where they are one, then as bytes.
pub fn smaller_lists(bytes: &[u8]) -> impl Iterator<Item = Vec<u8>> {
    let lists = match decode_records(bytes) {
        Ok(list) => smaller_records(&list),
        Err(_) => Vec::new(),
    };
    lists
        .into_iter()
        .map(|list| encode(&list))
        .chain(smaller_bytes(bytes, 1))
}

/// A list with one entry less; none when it has only one, or the bytes are no list.
pub fn less_entries(bytes: &[u8]) -> Option<Vec<u8>> {
    let mut list = decode_records(bytes).ok()?;
    if list.locations == 1 {
        return None;
    }
    list.locations -= 1;
    Some(encode(&list))
}

/// What stands where an instruction was: R0 := 0.
const NOTHING: Instruction = Instruction::Const { a: 0, value: 0 };

/// The list without a sheet, a footprint, an instruction or a line, or with a simpler instruction: a fan of
/// fewer children or a spawn, a store for a sum, a product for a quotient, a sum of registers for it, or
/// nothing.
fn smaller_records(list: &TaskList) -> Vec<TaskList> {
    let mut smaller = Vec::new();
    for s in 1..list.bodies.len() {
        smaller.push(without_body(list, s));
    }
    for f in 0..list.footprints.len() {
        smaller.push(without_footprint(list, f));
    }
    for s in 0..list.bodies.len() {
        for pc in 0..list.bodies[s].len() {
            smaller.push(without_instruction(list, s, pc));
        }
    }
    for f in 0..list.footprints.len() {
        for i in 0..list.footprints[f].len() {
            let mut copy = list.clone();
            copy.footprints[f].remove(i);
            smaller.push(copy);
        }
    }
    for s in 0..list.bodies.len() {
        for pc in 0..list.bodies[s].len() {
            for simpler in simpler_instructions(list.bodies[s][pc]) {
                let mut copy = list.clone();
                copy.bodies[s][pc] = simpler;
                smaller.push(copy);
            }
        }
    }
    smaller
}

fn simpler_instructions(instruction: Instruction) -> Vec<Instruction> {
    let mut simpler = Vec::new();
    if instruction != NOTHING {
        simpler.push(NOTHING);
    }
    if let Instruction::Fan {
        body,
        footprint,
        children,
    } = instruction
    {
        simpler.push(Instruction::Spawn { body, footprint });
        simpler.extend((1..children).map(|children| Instruction::Fan {
            body,
            footprint,
            children,
        }));
    }
    if let Instruction::Sum { a, b } = instruction {
        simpler.push(Instruction::Store { a, b });
    }
    if let Instruction::Div { a, b, c } = instruction {
        simpler.push(Instruction::Mul { a, b, c });
    }
    if let Instruction::Mul { a, b, c } = instruction {
        simpler.push(Instruction::Add { a, b, c });
    }
    simpler
}

/// The spawns and fans of the removed sheet become nothing.
fn without_body(list: &TaskList, s: usize) -> TaskList {
    let mut copy = list.clone();
    copy.bodies.remove(s);
    change_spawns(&mut copy, |body, footprint| {
        renumbered(body, s).map(|body| (body, footprint))
    });
    copy
}

/// The spawns and fans with the removed footprint become nothing.
fn without_footprint(list: &TaskList, f: usize) -> TaskList {
    let mut copy = list.clone();
    copy.footprints.remove(f);
    change_spawns(&mut copy, |body, footprint| {
        renumbered(footprint, f).map(|footprint| (body, footprint))
    });
    copy
}

/// The number after `removed` has gone; none for itself.
fn renumbered(number: u8, removed: usize) -> Option<u8> {
    match (number as usize).cmp(&removed) {
        std::cmp::Ordering::Less => Some(number),
        std::cmp::Ordering::Equal => None,
        std::cmp::Ordering::Greater => Some(number - 1),
    }
}

fn change_spawns(list: &mut TaskList, change: impl Fn(u8, u8) -> Option<(u8, u8)>) {
    for instruction in list.bodies.iter_mut().flatten() {
        let changed = match instruction {
            Instruction::Spawn { body, footprint }
            | Instruction::Fan {
                body, footprint, ..
            } => change(*body, *footprint).map(|to| (*body, *footprint) = to),
            _ => continue,
        };
        if changed.is_none() {
            *instruction = NOTHING;
        }
    }
}

/// Skips over the removed instruction become shorter.
fn without_instruction(list: &TaskList, s: usize, pc: usize) -> TaskList {
    let mut copy = list.clone();
    let body = &mut copy.bodies[s];
    body.remove(pc);
    for (i, instruction) in body[..pc].iter_mut().enumerate() {
        if let Instruction::Skip { b, .. } = instruction {
            if i + 1 + *b as usize > pc {
                *b -= 1;
            }
        }
    }
    copy
}

#[cfg(test)]
mod tests {
    use super::*;
    use second::cases::{damaged_list, random_list};
    use second::rng::Rng;

    #[test]
    fn smaller_lists_are_lists_and_smaller() {
        for seed in 0..60 {
            let list = random_list(&mut Rng::new(seed));
            let bytes = encode(&list);
            let sum = |bytes: &[u8]| bytes.iter().map(|byte| *byte as u64).sum::<u64>();
            for smaller in smaller_records(&list) {
                let smaller_bytes = encode(&smaller);
                assert_eq!(decode_records(&smaller_bytes), Ok(smaller));
                let shorter = smaller_bytes.len() < bytes.len();
                assert!(shorter || sum(&smaller_bytes) < sum(&bytes));
            }
        }
    }

    #[test]
    fn a_case_shrinks_to_the_smallest() {
        let time = Duration::from_secs(20);
        // A list of at least one wait.
        let mut found = 0;
        for seed in 0..20 {
            let bytes = encode(&random_list(&mut Rng::new(seed)));
            let has_wait = |bytes: &Vec<u8>| match decode_records(bytes) {
                Ok(list) => list
                    .bodies
                    .iter()
                    .flatten()
                    .any(|instruction| matches!(instruction, Instruction::Wait { .. })),
                Err(_) => false,
            };
            if has_wait(&bytes) {
                let smallest = shrink(bytes, time, |bytes| smaller_lists(bytes), has_wait);
                assert!(smallest.len() <= 15, "{smallest:?}");
                found += 1;
            }
        }
        assert!(found > 5);
        // Bytes that are no list.
        let bytes = damaged_list(&mut Rng::new(3), 5);
        let smallest = shrink(bytes, time, |bytes| smaller_lists(bytes), |b| b.len() > 3);
        assert_eq!(smallest, [0; 4]);
    }
}
