//! Random cases, the same for the same seed: job lists, damaged lists, libraries, orders of calls.

use crate::bill::wards;
use crate::coordinator::{call, hand_run_files, open_files};
use crate::list::{
    block, check, decode, encode, encode_instruction, task_count, task_counts, Instruction, Line,
    TaskList, COUNT_CAP,
};
use crate::rng::Rng;
use crate::rounds::{make, next_call_of, would_be_accepted};
use crate::run::{at_its_end, line_mode, product, quotient, Run};
use crate::run::{NONE, READ, SUM, TODAY, WEIGHTS, WRITE};

/// P of "Publishing examples", byte by byte.
pub const EXAMPLE_P: [u8; 54] = [
    0x4A, 0x48, 2, 2, 3, // head: C = 2, two footprints, three sheets
    0x4A, 0x46, 1, 1, 0, // footprint 0: write 0
    0x4A, 0x46, 2, 0, 0, 1, 1, // footprint 1: read 0, write 1
    0x4A, 0x42, 2, 7, 1, 0, 0, 7, 2, 1, 0, // sheet 0: spawn 1 with 0; spawn 2 with 1
    0x4A, 0x42, 2, 0, 1, 9, 0, 5, 0, 1, 0, // sheet 1: const R1 9; store R0 R1
    0x4A, 0x42, 3, 4, 1, 0, 0, 0, 2, 1, 0, 5, 2, 1, 0, // sheet 2: load, const, store
];

// ---------------------------------------------------------------------------------------------
// Job lists

/// What a random list looks like.
#[derive(Clone, Debug)]
pub struct Shape {
    pub locations: usize,
    pub footprints: usize,
    pub bodies: usize,
    /// Most lines of a footprint, most instructions of a body.
    pub lines: usize,
    pub instructions: usize,
    /// Every footprint and body has the most.
    pub full: bool,
    /// How often an instruction is a spawn or a fan, and how often it is then a fan.
    pub spawn_percent: usize,
    pub fan_percent: usize,
    /// How often a line sums (#107).
    pub sum_percent: usize,
    /// How often what is no spawn is a product or quotient in thousandths (#108).
    pub rate_percent: usize,
    /// How often fields are chosen so that the step should not fault.
    pub tame_percent: usize,
    /// The largest count(0), and the largest count of the other bodies.
    pub root_limit: u64,
    pub other_limit: u64,
    /// Body 0 spawns the largest that fit, and fans have the most children that fit.
    pub fill: bool,
}

/// One of the shapes, with its sizes drawn.
pub fn random_shape(rng: &mut Rng) -> Shape {
    let medium = Shape {
        locations: rng.between(2, 8),
        footprints: rng.between(2, 8),
        bodies: rng.between(3, 8),
        lines: 4,
        instructions: 12,
        full: false,
        spawn_percent: 40,
        fan_percent: rng.pick(&[0, 20, 40, 80]),
        sum_percent: rng.pick(&[0, 20, 40, 70]),
        rate_percent: rng.pick(&[0, 5, 15]),
        tame_percent: 98,
        root_limit: 128,
        other_limit: 30,
        fill: false,
    };
    match rng.below(17) {
        0 | 1 => Shape {
            locations: rng.between(1, 3),
            footprints: rng.between(1, 4),
            bodies: rng.between(1, 4),
            lines: 3,
            instructions: 6,
            ..medium
        },
        2 | 3 => medium,
        // Trees near 128 jobs.
        4 => Shape {
            locations: rng.between(1, 4),
            bodies: rng.between(5, 9),
            instructions: rng.between(4, 20),
            full: true,
            spawn_percent: 75,
            root_limit: rng.between(120, 128) as u64,
            other_limit: rng.between(2, 64) as u64,
            fill: true,
            ..medium
        },
        // The longest list.
        5 => Shape {
            locations: 64,
            footprints: 32,
            bodies: 32,
            lines: 8,
            instructions: 32,
            full: true,
            spawn_percent: 20,
            other_limit: rng.pick(&[6, 20, COUNT_CAP]),
            ..medium
        },
        // One entry, many readers, writers and sums.
        6 => Shape {
            locations: 1,
            lines: 1,
            spawn_percent: 60,
            ..medium
        },
        7 => Shape {
            locations: 64,
            lines: 8,
            ..medium
        },
        // Totals: few entries that most jobs sum, by fans too.
        13 | 14 => Shape {
            locations: rng.between(1, 3),
            lines: rng.between(1, 3),
            spawn_percent: 50,
            fan_percent: rng.pick(&[20, 60]),
            sum_percent: rng.pick(&[70, 90, 100]),
            ..medium
        },
        // Rates: few jobs that work with thousandths.
        15 | 16 => Shape {
            locations: rng.between(1, 4),
            bodies: rng.between(1, 4),
            instructions: rng.between(8, 32),
            spawn_percent: 15,
            rate_percent: rng.pick(&[40, 80]),
            ..medium
        },
        // Bodies that are mostly empty.
        8 => Shape {
            bodies: rng.between(1, 32),
            instructions: rng.below(3),
            ..medium
        },
        // Bodies that job 0 doesn't reach, with huge counts.
        9 => Shape {
            bodies: rng.between(16, 32),
            instructions: 32,
            full: rng.percent(50),
            spawn_percent: 50,
            other_limit: COUNT_CAP,
            ..medium
        },
        // Any fields: most jobs fault.
        10 | 11 => Shape {
            tame_percent: 30,
            ..medium
        },
        _ => Shape {
            footprints: 0,
            bodies: rng.between(1, 32),
            ..medium
        },
    }
}

/// An accepted list.
pub fn random_list(rng: &mut Rng) -> TaskList {
    let shape = random_shape(rng);
    list_of_shape(rng, &shape)
}

/// The bytes of an accepted list, in 2 of 100 cases none (#101).
pub fn accepted_file(rng: &mut Rng) -> Vec<u8> {
    if rng.percent(2) {
        return Vec::new();
    }
    encode(&random_list(rng))
}

/// The library that fits an accepted file, drawn at random.
pub fn fitting_library(rng: &mut Rng, file: &[u8]) -> Vec<u32> {
    let list = decode(file).expect("an accepted file");
    random_library(rng, list.locations)
}

/// A list of this shape. It is accepted when the shape's numbers are in range.
pub fn list_of_shape(rng: &mut Rng, shape: &Shape) -> TaskList {
    let mut list = TaskList {
        locations: shape.locations,
        footprints: Vec::new(),
        bodies: vec![Vec::new(); shape.bodies],
    };
    for _ in 0..shape.footprints {
        let footprint = random_footprint(rng, shape, &list.footprints);
        list.footprints.push(footprint);
    }
    let homes = choose_homes(rng, shape, &list);
    for s in (0..shape.bodies).rev() {
        list.bodies[s] = random_body(rng, shape, s, &list, &homes);
    }
    list
}

/// The line names the entry itself, not by a register.
pub fn names_entry(line: &Line) -> bool {
    matches!(line.kind, 0 | 1 | 4)
}

/// A line of this mode, by a register or not.
fn line_of(mode: u8, by_register: bool, value: u8) -> Line {
    let kind = match (mode, by_register) {
        (SUM, false) => 4,
        (SUM, true) => 5,
        (_, false) => mode - READ,
        (_, true) => mode - READ + 2,
    };
    Line { kind, value }
}

/// A job of this mode at an entry may give its child that one there without a fault.
fn allows(own: u8, wanted: u8) -> bool {
    own == WRITE || own != NONE && own == wanted
}

/// The mode of a line: mostly or rarely sum, else read or write.
fn random_mode(rng: &mut Rng, shape: &Shape) -> u8 {
    if rng.percent(shape.sum_percent) {
        SUM
    } else {
        rng.pick(&[READ, WRITE])
    }
}

/// Lines drawn at random, or a weaker copy of an earlier footprint, or mostly distinct entries.
fn random_footprint(rng: &mut Rng, shape: &Shape, earlier: &[Vec<Line>]) -> Vec<Line> {
    let count = if shape.full {
        shape.lines
    } else {
        rng.below(shape.lines + 1)
    };
    let mut footprint = Vec::new();
    if !rng.percent(shape.tame_percent) {
        for _ in 0..count {
            let by_register = rng.percent(50);
            let most = if by_register { 4 } else { shape.locations };
            let mode = rng.pick(&[READ, WRITE, SUM]);
            footprint.push(line_of(mode, by_register, rng.below(most) as u8));
        }
        return footprint;
    }
    if !earlier.is_empty() && !shape.full && rng.percent(50) {
        for line in &earlier[rng.below(earlier.len())] {
            if rng.percent(80) {
                // Write may become read or sum.
                let mut mode = line_mode(line);
                if mode == WRITE && rng.percent(50) {
                    mode = if rng.percent(shape.sum_percent) {
                        SUM
                    } else {
                        READ
                    };
                }
                footprint.push(line_of(mode, !names_entry(line), line.value));
            }
        }
        return footprint;
    }
    let mut locations: Vec<usize> = (0..shape.locations).collect();
    rng.shuffle(&mut locations);
    let mut registers = vec![0, 1, 2, 3];
    rng.shuffle(&mut registers);
    // The register that parts the children of a fan comes first more often.
    if rng.percent(shape.fan_percent) {
        registers.sort_by_key(|register| *register == 0);
    }
    for i in 0..count {
        let mode = random_mode(rng, shape);
        if rng.percent(15) && !registers.is_empty() {
            footprint.push(line_of(mode, true, registers.pop().unwrap()));
        } else {
            // #106: rarely the entry of an earlier line.
            let place = if rng.percent(10) { rng.below(i + 1) } else { i };
            let location = locations[place % locations.len()];
            footprint.push(line_of(mode, false, location as u8));
        }
    }
    footprint
}

/// The footprint that each body is mostly spawned with; none for body 0 (it has every entry).
fn choose_homes(rng: &mut Rng, shape: &Shape, list: &TaskList) -> Vec<Option<usize>> {
    let mut homes = vec![None];
    for s in 1..shape.bodies {
        let spawner = if rng.percent(40) { 0 } else { rng.below(s) };
        let own = likely_modes(list, &homes, spawner);
        let mut fitting = Vec::new();
        for f in 0..list.footprints.len() {
            if footprint_fits(&list.footprints[f], &own) {
                fitting.push(f);
            }
        }
        if fitting.is_empty() {
            homes.push(if shape.footprints > 0 {
                Some(rng.below(shape.footprints))
            } else {
                None
            });
        } else {
            homes.push(Some(rng.pick(&fitting)));
        }
    }
    homes
}

/// The modes that a job of body s most likely has, from the lines that name an entry.
fn likely_modes(list: &TaskList, homes: &[Option<usize>], s: usize) -> Vec<u8> {
    if s == 0 {
        return vec![WRITE; list.locations];
    }
    let mut modes = vec![NONE; list.locations];
    if let Some(f) = homes[s] {
        for line in list.footprints[f].iter().filter(|line| names_entry(line)) {
            let mode = &mut modes[line.value as usize];
            *mode = match *mode {
                NONE => line_mode(line),
                same if same == line_mode(line) => same,
                _ => WRITE,
            };
        }
    }
    modes
}

/// Whether a spawner with these modes likely spawns with this footprint without a fault.
fn footprint_fits(footprint: &[Line], own: &[u8]) -> bool {
    footprint.iter().all(|line| {
        let wanted = line_mode(line);
        if names_entry(line) {
            allows(own[line.value as usize], wanted)
        } else {
            own.iter().any(|mode| allows(*mode, wanted))
        }
    })
}

/// What the instructions of one body are drawn from.
struct Draft<'a> {
    shape: &'a Shape,
    /// The list so far: the bodies above s are already made.
    list: &'a TaskList,
    homes: &'a [Option<usize>],
    /// The body's number.
    s: usize,
    /// The modes that its jobs most likely have.
    own: Vec<u8>,
    /// The counts of the bodies above s.
    counts: Vec<u64>,
}

/// The instructions of body s; the bodies above s are already made.
fn random_body(
    rng: &mut Rng,
    shape: &Shape,
    s: usize,
    list: &TaskList,
    homes: &[Option<usize>],
) -> Vec<Instruction> {
    let length = if shape.full {
        shape.instructions
    } else {
        rng.below(shape.instructions + 1)
    };
    let limit = if s == 0 {
        shape.root_limit
    } else {
        shape.other_limit
    };
    let draft = Draft {
        shape,
        list,
        homes,
        s,
        own: likely_modes(list, homes, s),
        counts: task_counts(list),
    };
    let mut count = 1;
    let mut body = Vec::new();
    while body.len() < length {
        let mut group = Vec::new();
        if rng.percent(shape.spawn_percent) {
            let room = limit - count;
            group = spawn_group(rng, &draft, room);
        }
        if group.is_empty() && rng.percent(shape.rate_percent) {
            group = rate_group(rng, &draft, length - body.len());
        }
        if group.is_empty() {
            group = other_group(rng, &draft);
        }
        if body.len() + group.len() > length {
            // No room for the preparation: mostly a wait-free instruction, else the last one alone.
            let last = group[group.len() - 1];
            let free = Instruction::Less { a: 0, b: 1, c: 2 };
            group = vec![if rng.percent(shape.tame_percent) {
                free
            } else {
                last
            }];
        }
        for instruction in group {
            count += block(&instruction, &draft.counts);
            body.push(instruction);
        }
    }
    for pc in 0..length {
        if let Instruction::Skip { a, .. } = body[pc] {
            let most = length - pc - 1;
            let b = if rng.percent(70) {
                rng.below(most.min(3) + 1)
            } else {
                rng.below(most + 1)
            };
            body[pc] = Instruction::Skip { a, b: b as u8 };
        }
    }
    body
}

/// A spawn or fan that adds at most `room`, behind the constants for its register lines; empty when
/// there is none.
fn spawn_group(rng: &mut Rng, draft: &Draft, room: u64) -> Vec<Instruction> {
    let (shape, list, homes) = (draft.shape, draft.list, draft.homes);
    let mut group = Vec::new();
    let tame = rng.percent(shape.tame_percent);
    let mut targets = Vec::new();
    for a in draft.s + 1..shape.bodies {
        if draft.counts[a] <= room {
            targets.push(a);
        }
    }
    if targets.is_empty() || list.footprints.is_empty() {
        return group;
    }
    let fitting: Vec<usize> = targets
        .iter()
        .copied()
        .filter(|a| footprint_fits(&list.footprints[homes[*a].unwrap()], &draft.own))
        .collect();
    if tame {
        targets = fitting;
    }
    if targets.is_empty() {
        return group;
    }
    let mut a = rng.pick(&targets);
    if shape.fill && draft.s == 0 {
        for other in &targets {
            if draft.counts[*other] > draft.counts[a] {
                a = *other;
            }
        }
    }
    let mut footprint = homes[a].unwrap();
    if !tame {
        footprint = rng.below(list.footprints.len());
    }
    let mut children = None;
    if rng.percent(shape.fan_percent) {
        children = draw_children(rng, draft, footprint, room / draft.counts[a], tame);
    }
    if tame {
        // Two lines may share an entry (#106), or be kept apart.
        let apart = rng.percent(70);
        let mut used = Vec::new();
        for line in &list.footprints[footprint] {
            if apart && names_entry(line) {
                used.push(line.value as usize);
            }
            if apart && by_child(line) {
                used.extend(0..children.unwrap_or(0));
            }
        }
        for line in &list.footprints[footprint] {
            if !names_entry(line) && !(by_child(line) && children.is_some()) {
                let wanted = line_mode(line);
                let good = |location: &usize| allows(draft.own[*location], wanted);
                let free: Vec<usize> = (0..list.locations)
                    .filter(|location| good(location) && !used.contains(location))
                    .collect();
                if !free.is_empty() {
                    let location = rng.pick(&free);
                    if apart {
                        used.push(location);
                    }
                    group.push(Instruction::Const {
                        a: line.value,
                        value: location as u16,
                    });
                }
            }
        }
    }
    let (body, footprint) = (a as u8, footprint as u8);
    group.push(match children {
        Some(children) => Instruction::Fan {
            body,
            footprint,
            children: children as u8,
        },
        None => Instruction::Spawn { body, footprint },
    });
    group
}

/// The line names the entry by R0, which parts the children of a fan.
fn by_child(line: &Line) -> bool {
    !names_entry(line) && line.value == 0
}

/// How many children a fan with this footprint has, at most `room`: few, or the most; where it is tame,
/// only such whose entry by R0 is one that the spawner has. None where there is no such number.
fn draw_children(
    rng: &mut Rng,
    draft: &Draft,
    footprint: usize,
    room: u64,
    tame: bool,
) -> Option<usize> {
    let lines = &draft.list.footprints[footprint];
    let mut most = room.min(16) as usize;
    for line in lines.iter().filter(|line| tame && by_child(line)) {
        let wanted = line_mode(line);
        let good = |i: usize| i < draft.list.locations && allows(draft.own[i], wanted);
        most = (0..most).take_while(|i| good(*i)).count();
    }
    if most == 0 {
        return None;
    }
    Some(match rng.below(4) {
        _ if draft.shape.fill && draft.s == 0 => most,
        0 => most,
        1 => rng.between(1, most),
        _ => rng.between(1, most.min(4)),
    })
}

/// #108: a product or quotient, whose result is then mostly stored to an entry or added to it, so that it
/// shows there. Its operands are what the registers hold, or such as are set now; empty when these don't
/// fit into `room` instructions.
fn rate_group(rng: &mut Rng, draft: &Draft, room: usize) -> Vec<Instruction> {
    let tame = rng.percent(draft.shape.tame_percent);
    let divides = rng.percent(50);
    let mut registers = [0, 1, 2, 3];
    rng.shuffle(&mut registers);
    let [b, mut c, other, spare] = registers;
    let mut group = Vec::new();
    // What the registers hold is often 0: such a quotient is rare where it should not fault.
    if rng.percent(if tame && divides { 5 } else { 20 }) {
        c = rng.pick(&[b, c, c]);
    } else {
        let mut operands = random_operands(rng, divides);
        while tame && result_of(divides, operands).is_err() && rng.percent(50) {
            operands = random_operands(rng, divides);
        }
        group.extend(number_into(b, spare, operands.0));
        group.extend(number_into(c, spare, operands.1));
    }
    let a = rng.pick(&[other, other, b, c]);
    group.push(if divides {
        Instruction::Div { a, b, c }
    } else {
        Instruction::Mul { a, b, c }
    });
    if group.len() > room {
        return Vec::new();
    }
    let locations: Vec<usize> = (0..draft.list.locations)
        .filter(|e| allows(draft.own[*e], SUM) || allows(draft.own[*e], WRITE))
        .collect();
    if !locations.is_empty() && group.len() + 2 <= room {
        let location = rng.pick(&locations);
        let sums = draft.own[location] == SUM || rng.percent(25);
        group.push(Instruction::Const {
            a: spare,
            value: location as u16,
        });
        group.push(if sums {
            Instruction::Sum { a: spare, b: a }
        } else {
            Instruction::Store { a: spare, b: a }
        });
    }
    group
}

/// #108: the result of a quotient or of a product, or its fault.
pub fn result_of(divides: bool, (b, c): (u32, u32)) -> Result<u32, u8> {
    if divides {
        quotient(b, c)
    } else {
        product(b, c)
    }
}

/// #108: the operands of a quotient or of a product: mostly such whose exact result is a half, or beside one,
/// or next to where fault 4 begins; some divisors are 0.
pub fn random_operands(rng: &mut Rng, divides: bool) -> (u32, u32) {
    let odd = |rng: &mut Rng| 1 + 2 * rng.below(16) as u64;
    // Twice the least exact result that faults.
    let limit = 2 * u32::MAX as u64 + 1;
    let mut beside = rng.percent(50);
    let (b, c) = match (rng.below(10), divides) {
        // 1000 × b / c is an odd number times 62.5, 12.5, 2.5 or 0.5.
        (0..=3, true) => {
            let times = rng.between(1, 30) as u64;
            let unit = rng.pick(&[16, 80, 400, 2000]);
            (times * odd(rng), times * unit)
        }
        // b × c is an odd number times 500.
        (0..=3, false) => {
            let part = rng.pick(&[1, 4, 20, 100, 500]);
            (part * odd(rng), 500 / part * odd(rng))
        }
        // The largest b without a fault, or the next; their results are close where c is about 1000.
        (kind @ 4..=6, true) => {
            beside = false;
            let c = rng.between([1, 600, 900][kind - 4], 1000) as u64;
            (limit * c / 2000 + rng.below(2) as u64, c)
        }
        (kind @ 4..=6, false) => {
            beside = false;
            let c = rng.between(1000, [65535, 1500, 1100][kind - 4]) as u64;
            (limit * 500 / c + rng.below(2) as u64, c)
        }
        (7, true) if rng.percent(30) => (0, 0),
        (7, true) => (random_number(rng), 0),
        // A little above 2^63: its double is a little above 2^64.
        (7, false) => {
            let b = (1 << 31) + 1 + rng.below((1 << 31) - 1) as u64;
            (b, (1 << 63) / b + 1)
        }
        _ => (random_number(rng), random_number(rng)),
    };
    let mut operands = [b, c].map(|number| number.min(u32::MAX as u64) as u32);
    if beside {
        let operand = &mut operands[rng.below(2)];
        *operand = if rng.percent(50) {
            operand.saturating_sub(1)
        } else {
            operand.saturating_add(1)
        };
    }
    (operands[0], operands[1])
}

/// Small, or a large one of 16 or of 32 bits.
fn random_number(rng: &mut Rng) -> u64 {
    match rng.below(5) {
        0 => rng.below(4) as u64,
        1 => rng.below(5000) as u64,
        2 => rng.below(65536) as u64,
        3 => rng.next_u64() as u32 as u64,
        _ => u32::MAX as u64 - rng.below(2000) as u64,
    }
}

/// The instructions behind which this register holds the number; they may use the spare one.
fn number_into(register: u8, spare: u8, number: u32) -> Vec<Instruction> {
    let constant = |a, value: u32| Instruction::Const {
        a,
        value: value as u16,
    };
    if number <= 65535 {
        return vec![constant(register, number)];
    }
    let below = number.wrapping_neg();
    if below <= 65536 {
        // 0 - 1 - what is left
        return vec![
            constant(spare, 0),
            constant(register, 1),
            Instruction::Sub {
                a: spare,
                b: spare,
                c: register,
            },
            constant(register, below - 1),
            Instruction::Sub {
                a: register,
                b: spare,
                c: register,
            },
        ];
    }
    // (1000 × (number / 65535) / 1) × 65535 / 1000, and what is left
    vec![
        constant(register, number / 65535),
        constant(spare, 1),
        Instruction::Div {
            a: register,
            b: register,
            c: spare,
        },
        constant(spare, 65535),
        Instruction::Mul {
            a: register,
            b: register,
            c: spare,
        },
        constant(spare, number % 65535),
        Instruction::Add {
            a: register,
            b: register,
            c: spare,
        },
    ]
}

/// Any other instruction but a spawn; a load, store, wait or sum mostly behind the constant for its entry.
fn other_group(rng: &mut Rng, draft: &Draft) -> Vec<Instruction> {
    let shape = draft.shape;
    let a = rng.below(4) as u8;
    let b = rng.below(4) as u8;
    let c = rng.below(4) as u8;
    // A job with an entry that it sums mostly does so.
    let sums = draft.own.contains(&SUM) && rng.percent(50);
    match if sums { 12 } else { rng.below(13) } {
        0 => {
            let value = match rng.below(10) {
                0 => rng.below(65536),
                1 => 65535,
                2 => shape.locations,
                _ => rng.below(shape.locations + 1),
            };
            vec![Instruction::Const {
                a,
                value: value as u16,
            }]
        }
        1 => vec![Instruction::Add { a, b, c }],
        2 => vec![Instruction::Sub { a, b, c }],
        3 => vec![Instruction::Less { a, b, c }],
        4 => vec![Instruction::Skip { a, b: 0 }],
        kind => {
            let good = |own: u8| match kind {
                5..=7 => allows(own, READ),
                8..=10 => allows(own, WRITE),
                11 => own != NONE,
                _ => allows(own, SUM),
            };
            let mut group = Vec::new();
            let mut register = rng.below(4) as u8;
            if rng.percent(shape.tame_percent) {
                match prepare_location(rng, draft, good, &mut group) {
                    Some(prepared) => register = prepared,
                    None => return vec![Instruction::Const { a, value: b as u16 }],
                }
            }
            group.push(match kind {
                5..=7 => Instruction::Load { a, b: register },
                8..=10 => Instruction::Store { a: register, b },
                11 => Instruction::Wait { a: register },
                _ => Instruction::Sum { a: register, b },
            });
            group
        }
    }
}

/// A register that should hold an entry where the job's mode is good: one that a register line of its
/// footprint used, or one that a constant sets now; none when it has no such entry.
fn prepare_location(
    rng: &mut Rng,
    draft: &Draft,
    good: impl Fn(u8) -> bool,
    group: &mut Vec<Instruction>,
) -> Option<u8> {
    let mut inherited = Vec::new();
    if let Some(f) = draft.homes[draft.s] {
        for line in &draft.list.footprints[f] {
            if !names_entry(line) && good(line_mode(line)) {
                inherited.push(line.value);
            }
        }
    }
    if !inherited.is_empty() && rng.percent(50) {
        return Some(rng.pick(&inherited));
    }
    let fitting: Vec<usize> = (0..draft.list.locations)
        .filter(|e| good(draft.own[*e]))
        .collect();
    if fitting.is_empty() {
        return None;
    }
    let register = rng.below(4) as u8;
    group.push(Instruction::Const {
        a: register,
        value: rng.pick(&fitting) as u16,
    });
    Some(register)
}

/// The list of "Seven sheets, each but the last spawning the next twice", sheet 0 also spawning the
/// last `more` times: 127 + more jobs.
pub fn doubling_list(more: usize) -> TaskList {
    let mut list = TaskList {
        locations: 1,
        footprints: vec![Vec::new()],
        bodies: Vec::new(),
    };
    for s in 0..7u8 {
        let mut body = Vec::new();
        if s < 6 {
            body.push(Instruction::Spawn {
                body: s + 1,
                footprint: 0,
            });
            body.push(Instruction::Spawn {
                body: s + 1,
                footprint: 0,
            });
        }
        list.bodies.push(body);
    }
    for _ in 0..more {
        list.bodies[0].push(Instruction::Spawn {
            body: 6,
            footprint: 0,
        });
    }
    list
}

/// #104: sheet 0 has a fan of 16 jobs, each of which has one of six, and then single ones: up to 16 of
/// them by a fan, the others by another. 113 + `single` jobs, 1 to 32.
pub fn fan_tree(single: usize) -> TaskList {
    let fan = |body, children: usize| Instruction::Fan {
        body,
        footprint: 0,
        children: children as u8,
    };
    let mut root = vec![fan(1, 16), fan(2, single.min(16))];
    if single > 16 {
        root.push(fan(2, single - 16));
    }
    TaskList {
        locations: 1,
        footprints: vec![Vec::new()],
        bodies: vec![root, vec![fan(2, 6)], Vec::new()],
    }
}

// ---------------------------------------------------------------------------------------------
// Damaged lists

/// The fields of a list, "(mark, number, line, instruction)".
#[derive(Clone, Copy, Debug, PartialEq, Eq)]
pub enum Field {
    Tag,
    Locations,
    FootprintCount,
    BodyCount,
    LineCount,
    Line,
    InstructionCount,
    Instruction { body: usize, pc: usize },
}

/// Each field of the list's bytes with the place of its first byte.
pub fn fields(list: &TaskList) -> Vec<(Field, usize)> {
    let mut fields = vec![
        (Field::Tag, 0),
        (Field::Locations, 2),
        (Field::FootprintCount, 3),
        (Field::BodyCount, 4),
    ];
    let mut offset = 5;
    for footprint in &list.footprints {
        fields.push((Field::Tag, offset));
        fields.push((Field::LineCount, offset + 2));
        offset += 3;
        for _ in footprint {
            fields.push((Field::Line, offset));
            offset += 2;
        }
    }
    for (body, instructions) in list.bodies.iter().enumerate() {
        fields.push((Field::Tag, offset));
        fields.push((Field::InstructionCount, offset + 2));
        offset += 3;
        for pc in 0..instructions.len() {
            fields.push((Field::Instruction { body, pc }, offset));
            offset += 4;
        }
    }
    fields
}

/// The list cut at each length, from 0 to one byte short.
pub fn truncations(bytes: &[u8]) -> Vec<Vec<u8>> {
    (0..bytes.len())
        .map(|length| bytes[..length].to_vec())
        .collect()
}

/// The list with each byte altered in turn.
pub fn alterations(rng: &mut Rng, bytes: &[u8]) -> Vec<Vec<u8>> {
    (0..bytes.len())
        .map(|place| altered_at(rng, bytes, place))
        .collect()
}

/// The list with this byte altered: a near value, a small one or any other.
fn altered_at(rng: &mut Rng, bytes: &[u8], place: usize) -> Vec<u8> {
    let mut altered = bytes.to_vec();
    while altered[place] == bytes[place] {
        altered[place] = match rng.below(4) {
            0 => bytes[place].wrapping_add(1),
            1 => bytes[place].wrapping_sub(1),
            2 => rng.below(14) as u8,
            _ => rng.byte(),
        };
    }
    altered
}

/// A byte from `least` to 255, often the least.
fn byte_from(rng: &mut Rng, least: usize) -> u8 {
    if rng.percent(50) {
        least as u8
    } else {
        rng.between(least, 255) as u8
    }
}

/// A list that is refused with this number, 1 to 7; the first damaged field is the one named.
pub fn damaged_list(rng: &mut Rng, refusal: u32) -> Vec<u8> {
    match refusal {
        1 => {
            let bytes = encode(&random_list(rng));
            // At least one byte: the empty file is accepted.
            bytes[..rng.between(1, bytes.len() - 1)].to_vec()
        }
        6 => {
            // 6 comes before 7.
            let mut bytes = if rng.percent(80) {
                encode(&random_list(rng))
            } else {
                encode(&too_many_tasks(rng))
            };
            for _ in 0..rng.between(1, 5) {
                bytes.push(rng.byte());
            }
            bytes
        }
        7 => encode(&too_many_tasks(rng)),
        _ => loop {
            let list = random_list(rng);
            if let Some(bytes) = damaged_field(rng, &list, refusal) {
                return bytes;
            }
        },
    }
}

/// A list whose only fault is count(0), often by one, sometimes beyond any machine word.
pub fn too_many_tasks(rng: &mut Rng) -> TaskList {
    match rng.below(10) {
        0..=2 => return doubling_list(rng.between(2, 30)),
        3 => return fan_tree(rng.between(16, 32)),
        _ => {}
    }
    loop {
        let shape = Shape {
            bodies: rng.between(6, 32),
            footprints: rng.between(1, 8),
            instructions: rng.between(6, 32),
            full: true,
            spawn_percent: rng.between(40, 100),
            root_limit: rng.pick(&[129, 130, COUNT_CAP * 100]),
            other_limit: rng.pick(&[20, 60, COUNT_CAP * 100]),
            fill: true,
            ..random_shape(rng)
        };
        let list = list_of_shape(rng, &shape);
        if task_count(&list, 0) > 128 {
            return list;
        }
    }
}

/// The list with one field damaged so that it gives this refusal, 2 to 5, whatever follows it; none
/// when the list has no such field.
fn damaged_field(rng: &mut Rng, list: &TaskList, refusal: u32) -> Option<Vec<u8>> {
    let wanted: Vec<(Field, usize)> = fields(list)
        .into_iter()
        .filter(|(field, _)| refusal_of_field(field) == refusal)
        .collect();
    if wanted.is_empty() {
        return None;
    }
    let (field, offset) = rng.pick(&wanted);
    let mut bytes = encode(list);
    match field {
        Field::Tag => {
            let place = offset + rng.below(2);
            bytes = altered_at(rng, &bytes, place);
        }
        Field::Locations => {
            bytes[offset] = if rng.percent(30) {
                0
            } else {
                byte_from(rng, 65)
            };
        }
        Field::FootprintCount => bytes[offset] = byte_from(rng, 33),
        Field::BodyCount => {
            bytes[offset] = if rng.percent(30) {
                0
            } else {
                byte_from(rng, 33)
            };
        }
        Field::LineCount => bytes[offset] = byte_from(rng, 9),
        Field::Line => {
            let kind = rng.below(7) as u8;
            let (kind, value) = match kind {
                0 | 1 | 4 => (kind, byte_from(rng, list.locations)),
                2 | 3 | 5 => (kind, byte_from(rng, 4)),
                _ => (byte_from(rng, 6), 0),
            };
            bytes[offset] = kind;
            bytes[offset + 1] = value;
        }
        Field::InstructionCount => bytes[offset] = byte_from(rng, 33),
        Field::Instruction { body, pc } => {
            let bad = bad_instruction(rng, list, body, pc);
            bytes[offset..offset + 4].copy_from_slice(&bad);
        }
    }
    // What follows the damaged field doesn't matter, once the field is whole.
    if rng.percent(20) {
        let whole = match field {
            Field::Tag | Field::Line => 2,
            Field::Instruction { .. } => 4,
            _ => 1,
        };
        bytes.truncate(offset + whole);
    }
    Some(bytes)
}

fn refusal_of_field(field: &Field) -> u32 {
    match field {
        Field::Tag => 2,
        Field::Locations | Field::FootprintCount | Field::BodyCount => 3,
        Field::LineCount | Field::Line => 4,
        Field::InstructionCount | Field::Instruction { .. } => 5,
    }
}

/// Four bytes that are a bad instruction at this place.
fn bad_instruction(rng: &mut Rng, list: &TaskList, body: usize, pc: usize) -> [u8; 4] {
    let registers = [rng.below(4) as u8, rng.below(4) as u8, rng.below(4) as u8];
    let count = list.bodies[body].len();
    // A spawn, or a fan of some children.
    let (code, children) = rng.pick(&[(7, 0), (9, 1), (9, 16)]);
    match rng.below(7) {
        // Another code.
        0 => [byte_from(rng, 13), registers[0], 0, 0],
        // A register above 3.
        1 => {
            let (code, listed) = rng.pick(&[
                (0, 1),
                (1, 3),
                (2, 3),
                (3, 3),
                (4, 2),
                (5, 2),
                (6, 1),
                (8, 1),
                (10, 2),
                (11, 3),
                (12, 3),
            ]);
            let mut bad = [code, 0, 0, 0];
            for i in 0..listed {
                bad[1 + i] = registers[i];
            }
            bad[1 + rng.below(listed)] = byte_from(rng, 4);
            bad
        }
        // A field that isn't listed.
        2 => match list.bodies[body][pc] {
            Instruction::Load { .. }
            | Instruction::Store { .. }
            | Instruction::Skip { .. }
            | Instruction::Spawn { .. }
            | Instruction::Sum { .. } => {
                let mut bad = encode_instruction(&list.bodies[body][pc]);
                bad[3] = byte_from(rng, 1);
                bad
            }
            _ => {
                let mut bad = [8, registers[0], 0, 0];
                bad[2 + rng.below(2)] = byte_from(rng, 1);
                bad
            }
        },
        // A skip one or more places too far.
        3 => [6, registers[0], byte_from(rng, count - pc), 0],
        // A sheet that isn't higher, or not of the list.
        4 => {
            let target = if rng.percent(50) {
                rng.below(body + 1) as u8
            } else {
                byte_from(rng, list.bodies.len())
            };
            [code, target, 0, children]
        }
        // A footprint not of the list.
        5 => {
            let target = (body + 1).min(list.bodies.len() - 1);
            let footprint = byte_from(rng, list.footprints.len());
            [code, target as u8, footprint, children]
        }
        // A fan of no child, or of more than 16.
        _ => {
            let target = (body + 1).min(list.bodies.len() - 1);
            let children = if rng.percent(40) {
                0
            } else {
                byte_from(rng, 17)
            };
            let footprint = rng.below(list.footprints.len().max(1));
            [9, target as u8, footprint as u8, children]
        }
    }
}

/// The bytes of a list, accepted or not: every kind of case for the list layer.
pub fn list_case(rng: &mut Rng) -> Vec<u8> {
    match rng.below(20) {
        0..=5 => accepted_file(rng),
        6..=9 => {
            let bytes = encode(&random_list(rng));
            let place = rng.below(bytes.len());
            altered_at(rng, &bytes, place)
        }
        // Damaged twice: the first damaged field decides.
        10 | 11 => {
            let mut bytes = encode(&random_list(rng));
            for _ in 0..rng.between(2, 4) {
                let place = rng.below(bytes.len());
                bytes = altered_at(rng, &bytes, place);
            }
            if rng.percent(50) {
                bytes.truncate(rng.below(bytes.len() + 1));
            }
            bytes
        }
        12 => encode(&doubling_list(rng.below(4))),
        // A good head and bytes drawn from those that lists are made of.
        13 => {
            let mut bytes = vec![0x4A, 0x48, rng.between(1, 3) as u8, 0, 1, 0x4A, 0x42];
            let count = rng.below(4) as u8;
            bytes.push(count);
            for _ in 0..rng.below(20) {
                bytes.push(rng.below(14) as u8);
            }
            bytes
        }
        _ => {
            let refusal = rng.between(1, 7) as u32;
            damaged_list(rng, refusal)
        }
    }
}

/// One line of list-cases: the list in hexadecimal (nothing for the empty file), a space, the answer.
pub fn list_case_line(bytes: &[u8]) -> String {
    match check(bytes) {
        Ok(count) => format!("{} ok {count}", hex(bytes)),
        Err(refusal) => format!("{} refused {refusal}", hex(bytes)),
    }
}

pub fn hex(bytes: &[u8]) -> String {
    bytes.iter().map(|byte| format!("{byte:02x}")).collect()
}

// ---------------------------------------------------------------------------------------------
// Libraries and orders of calls

/// Numbers for `count` entries: mostly small, so that some are entry numbers; some about one in thousandths
/// (#108).
pub fn random_library(rng: &mut Rng, count: usize) -> Vec<u32> {
    let mut library = Vec::new();
    for _ in 0..count {
        library.push(match rng.below(9) {
            3 => rng.pick(&[499, 500, 999, 1000, 1001, 2000, 4_294_967, 4_294_968]),
            0 => rng.next_u64() as u32,
            1 => u32::MAX - rng.below(2) as u32,
            2 => 0,
            _ => rng.below(count + 2) as u32,
        });
    }
    library
}

/// #105: a table that is accepted: today's, or numbers from 1 to 1000, the limits among them.
pub fn random_table(rng: &mut Rng) -> [u16; WEIGHTS] {
    let mut table = TODAY;
    if rng.percent(20) {
        return table;
    }
    for number in &mut table {
        *number = match rng.below(6) {
            0 => rng.pick(&[1, 1000]),
            1 => rng.between(1, 10) as u16,
            _ => rng.between(1, 1000) as u16,
        };
    }
    table
}

/// #105: a table with one number or more that is not in 1 to 1000.
pub fn bad_table(rng: &mut Rng) -> [u16; WEIGHTS] {
    let mut table = random_table(rng);
    let count = rng.pick(&[1, 1, 1, 2, WEIGHTS]);
    for _ in 0..count {
        table[rng.below(WEIGHTS)] = match rng.below(4) {
            0 => 0,
            1 => 1001,
            2 => rng.pick(&[1002, 1024, 1256, 0x0401, 32768, 65535]),
            _ => rng.between(1001, 65535) as u16,
        };
    }
    table
}

/// The bytes of a table over the C boundary: "two per number, least first".
pub fn table_bytes(table: &[u16]) -> Vec<u8> {
    table
        .iter()
        .flat_map(|number| number.to_le_bytes())
        .collect()
}

/// The bytes of library.bin: "4 bytes per entry, least first".
pub fn library_bytes(library: &[u32]) -> Vec<u8> {
    library
        .iter()
        .flat_map(|number| number.to_le_bytes())
        .collect()
}

/// Which of the jobs in the order a sensible call prefers.
#[derive(Clone, Copy, Debug)]
pub enum Strategy {
    Any,
    Front,
    Back,
    /// Stays with the job called last.
    Same,
    /// Leaves the job called last.
    Other,
    /// Ends only when nothing else is accepted, so that the order grows long.
    LateEnds,
}

pub const STRATEGIES: [Strategy; 6] = [
    Strategy::Any,
    Strategy::Front,
    Strategy::Back,
    Strategy::Same,
    Strategy::Other,
    Strategy::LateEnds,
];

/// An accepted call, none when there is none: each job's only possible next call, in the order that
/// the strategy prefers.
pub fn sensible_call(rng: &mut Rng, strategy: Strategy, run: &Run, last: u32) -> Option<(u8, u32)> {
    let mut tasks = run.order.clone();
    match strategy {
        Strategy::Any => rng.shuffle(&mut tasks),
        Strategy::Front => {}
        Strategy::Back => tasks.reverse(),
        Strategy::Same => {
            rng.shuffle(&mut tasks);
            tasks.sort_by_key(|task| *task as u32 != last);
        }
        Strategy::Other => {
            rng.shuffle(&mut tasks);
            tasks.sort_by_key(|task| *task as u32 == last);
        }
        Strategy::LateEnds => {
            rng.shuffle(&mut tasks);
            tasks.sort_by_key(|task| at_its_end(run, *task));
        }
    }
    tasks
        .into_iter()
        .map(|task| next_call_of(run, task))
        .find(|call| would_be_accepted(run, *call))
}

/// Any call, mostly one that is refused.
pub fn any_call(rng: &mut Rng, run: &Run) -> (u8, u32) {
    if rng.percent(30) && !run.order.is_empty() {
        let task = rng.pick(&run.order);
        return next_call_of(run, task);
    }
    let kind = rng.below(3) as u8;
    let task = match rng.below(11) {
        0 => rng.between(128, 255) as u32,
        1 => rng.pick(&[127, 128, 129, 255, 256, u32::MAX]),
        10 => rng.next_u64() as u32,
        2 | 3 => rng.below(128) as u32,
        4 => rng.below(8) as u32,
        _ if !run.order.is_empty() => rng.pick(&run.order) as u32,
        _ => 0,
    };
    (kind, task)
}

/// The next call of a random order: sensible, or in `any_percent` of the cases any.
pub fn next_call(
    rng: &mut Rng,
    strategy: Strategy,
    run: &Run,
    last: u32,
    any_percent: usize,
) -> (u8, u32) {
    if rng.percent(any_percent) {
        return any_call(rng, run);
    }
    match sensible_call(rng, strategy, run, last) {
        Some(call) => call,
        None => any_call(rng, run),
    }
}

/// Standard input for the coordinator: two-byte calls, refused ones, other kinds and sometimes half a
/// call at the end; until no job is left, or cut before.
pub fn random_input(rng: &mut Rng, jobs: &[u8], library_bytes: &[u8]) -> Vec<u8> {
    let mut input = Vec::new();
    let mut run = match open_files(jobs, library_bytes) {
        Ok(run) => run,
        Err(_) => {
            for _ in 0..rng.below(10) {
                input.push(rng.byte());
            }
            return input;
        }
    };
    let strategy = rng.pick(&STRATEGIES);
    let any_percent = rng.pick(&[0, 10, 50]);
    let most_calls = if rng.percent(30) {
        rng.below(40)
    } else {
        usize::MAX
    };
    let mut last = 0;
    let mut calls = 0;
    while calls < most_calls && !run.order.is_empty() {
        let (mut kind, task) = next_call(rng, strategy, &run, last, any_percent);
        if task > 255 {
            continue;
        }
        if rng.percent(any_percent / 10) {
            kind = byte_from(rng, 3);
        }
        input.push(kind);
        input.push(task as u8);
        if call(&mut run, kind, task).is_ok() {
            last = task;
        }
        calls += 1;
    }
    // Some calls with no job left, some half a call.
    for _ in 0..rng.below(3) {
        input.push(rng.below(4) as u8);
        input.push(rng.byte());
    }
    if rng.percent(20) {
        input.push(rng.below(4) as u8);
    }
    input
}

/// The three inputs of a case for the coordinator: jobs.bin, library.bin, standard input.
pub fn run_case(rng: &mut Rng) -> (Vec<u8>, Vec<u8>, Vec<u8>) {
    let mut jobs = accepted_file(rng);
    let mut library = library_bytes(&fitting_library(rng, &jobs));
    if rng.percent(3) {
        jobs = list_case(rng);
    }
    if rng.percent(3) {
        spoil_library(rng, &mut library);
    }
    let input = random_input(rng, &jobs, &library);
    (jobs, library, input)
}

/// A shape of lists whose jobs work beside one another: few kinds of jobs, many of them, mostly of entries of
/// their own.
fn parallel_shape(rng: &mut Rng) -> Shape {
    Shape {
        locations: rng.pick(&[2, 4, 8, 16, 24]),
        footprints: rng.between(2, 6),
        bodies: rng.between(2, 5),
        lines: rng.between(1, 3),
        instructions: rng.between(3, 14),
        full: rng.percent(40),
        spawn_percent: rng.pick(&[20, 40, 60]),
        fan_percent: rng.pick(&[0, 30, 60, 90]),
        sum_percent: rng.pick(&[0, 20, 60]),
        rate_percent: rng.pick(&[0, 5]),
        tame_percent: rng.pick(&[85, 98, 100]),
        root_limit: rng.pick(&[8, 20, 40, 128]),
        other_limit: rng.pick(&[1, 4, 12]),
        fill: rng.percent(40),
    }
}

/// The two files of a case for the rounds: jobs.bin, library.bin. Mostly accepted, with several jobs that work
/// beside one another; some lists are of any shape, empty or damaged, some libraries don't fit.
pub fn rounds_case(rng: &mut Rng) -> (Vec<u8>, Vec<u8>) {
    let jobs = match rng.below(20) {
        0..=13 => encode(&parallel_list(rng)),
        14..=17 => accepted_file(rng),
        _ => list_case(rng),
    };
    let locations = decode(&jobs).map_or(1, |list| list.locations);
    let mut library = library_bytes(&random_library(rng, locations));
    if rng.percent(3) {
        spoil_library(rng, &mut library);
    }
    (jobs, library)
}

/// A list of such a shape, with at least four jobs.
fn parallel_list(rng: &mut Rng) -> TaskList {
    loop {
        let shape = parallel_shape(rng);
        let list = list_of_shape(rng, &shape);
        if task_count(&list, 0) >= 4 {
            return list;
        }
    }
}

/// A case for the bill (#114): jobs.bin, library.bin, the bill as it is typed, and files of calls with their names.
pub struct BillCase {
    pub jobs: Vec<u8>,
    pub library: Vec<u8>,
    pub bill: String,
    pub plays: Vec<(&'static str, Vec<u8>)>,
}

/// A case for the bill: mostly an accepted list with several wards, some lists of any shape, empty or damaged, some
/// libraries that don't fit. The calls: full plays, without and with junk, and often a play cut short or none.
pub fn bill_case(rng: &mut Rng) -> BillCase {
    let jobs = match rng.below(20) {
        0..=8 => encode(&ward_list(rng)),
        9..=14 => encode(&parallel_list(rng)),
        15..=18 => accepted_file(rng),
        _ => list_case(rng),
    };
    let locations = decode(&jobs).map_or(1, |list| list.locations);
    let mut library = library_bytes(&random_library(rng, locations));
    if rng.percent(3) {
        spoil_library(rng, &mut library);
    }
    let bill = random_bill(rng, hand_run_files(&jobs, &library).ok().as_ref());
    let zeros = if rng.percent(5) {
        rng.between(1, 12)
    } else {
        0
    };
    let mut case = BillCase {
        bill: format!("{}{bill}", "0".repeat(zeros)),
        plays: Vec::new(),
        jobs,
        library,
    };
    match open_files(&case.jobs, &case.library) {
        Ok(fresh) => {
            case.plays.push(("full", full_play(rng, &fresh)));
            case.plays.push(("junk", junk_play(rng, &fresh)));
            if rng.percent(60) {
                case.plays.push(("cut", cut_play(rng, &fresh)));
            }
        }
        Err(_) => {
            let length = rng.below(10);
            let any = (0..length).map(|_| rng.byte()).collect();
            case.plays.push(("junk", any));
        }
    }
    if rng.percent(10) {
        case.plays.push(("empty", Vec::new()));
    }
    case
}

/// A bill: one of the limits and a few others, any number, a small one, or about a multiple of the wards' weight,
/// where the exact shares are whole numbers.
pub fn random_bill(rng: &mut Rng, run: Option<&Run>) -> u32 {
    let weight: u64 = match run {
        Some(run) => wards(run).iter().map(|ward| ward.weight).sum(),
        None => 0,
    };
    match rng.below(10) {
        0..=3 => rng.pick(&[0, 1, 7, 100, u32::MAX]),
        4 | 5 => rng.next_u64() as u32,
        6 | 7 => rng.below(1000) as u32,
        _ => {
            let most = if rng.percent(50) {
                10
            } else {
                u32::MAX as usize / weight.max(1) as usize
            };
            let multiple = weight * rng.below(most) as u64 + rng.below(3) as u64;
            u32::try_from(multiple.saturating_sub(1)).unwrap_or(u32::MAX)
        }
    }
}

/// A list whose job 0 makes wards by spawns and fans. Some are passed over, and a few fault; so are jobs of the
/// wards' blocks.
pub fn ward_list(rng: &mut Rng) -> TaskList {
    let locations = rng.between(1, 6);
    let mut footprints = vec![Vec::new()];
    for mode in [READ, WRITE, SUM] {
        footprints.push(vec![line_of(mode, false, rng.below(locations) as u8)]);
    }
    // R3 is 200 in each job.
    footprints.push(vec![line_of(READ, true, 3)]);
    let mut list = TaskList {
        locations,
        footprints,
        bodies: vec![Vec::new(); rng.between(2, 6)],
    };
    for s in (0..list.bodies.len()).rev() {
        list.bodies[s] = ward_body(rng, &list, s);
    }
    list
}

/// Sheet s of such a list; the sheets above s are already made.
fn ward_body(rng: &mut Rng, list: &TaskList, s: usize) -> Vec<Instruction> {
    let counts = task_counts(list);
    let (least, most, mut room) = match s {
        0 => (2, 9, 127),
        _ => (0, 5, rng.pick(&[0, 4, 12])),
    };
    let mut body = Vec::new();
    if s == 0 {
        body.push(Instruction::Const { a: 1, value: 1 });
        body.push(Instruction::Const { a: 3, value: 200 });
    }
    for _ in 0..rng.between(least, most) {
        // In job 0 the first is passed over, the second isn't; of the children of a fan only the first has R0 = 0.
        if rng.percent(30) {
            let a = rng.pick(&[0, 0, 1]);
            body.push(Instruction::Skip { a, b: 1 });
        }
        let target = s + 1 + rng.below(list.bodies.len() - s);
        let footprint = match rng.below(100) {
            0..=5 => 4,
            6..=50 => 0,
            _ => rng.between(1, 3) as u8,
        };
        if target < list.bodies.len() && counts[target] <= room {
            let most_children = (room / counts[target]).min(6) as usize;
            let instruction = if rng.percent(50) {
                Instruction::Spawn {
                    body: target as u8,
                    footprint,
                }
            } else {
                Instruction::Fan {
                    body: target as u8,
                    footprint,
                    children: rng.between(1, most_children) as u8,
                }
            };
            room -= block(&instruction, &counts);
            body.push(instruction);
        } else {
            body.push(match rng.below(8) {
                0 => Instruction::Load { a: 2, b: 0 },
                1 => Instruction::Sum { a: 0, b: 1 },
                _ => Instruction::Less { a: 2, b: 0, c: 1 },
            });
        }
    }
    body
}

/// The bytes of calls that leave no job: all accepted, in a random order.
pub fn full_play(rng: &mut Rng, fresh: &Run) -> Vec<u8> {
    let mut run = fresh.clone();
    let strategy = rng.pick(&STRATEGIES);
    let mut bytes = Vec::new();
    let mut last = 0;
    while let Some((kind, task)) = sensible_call(rng, strategy, &run, last) {
        make(&mut run, (kind, task));
        bytes.extend([kind, task as u8]);
        last = task;
    }
    bytes
}

/// The same with junk: other kinds, refused calls between the others and behind them, mostly half a call at the end.
pub fn junk_play(rng: &mut Rng, fresh: &Run) -> Vec<u8> {
    let mut run = fresh.clone();
    let strategy = rng.pick(&STRATEGIES);
    let junk_percent = rng.pick(&[5, 20, 50]);
    let mut bytes = Vec::new();
    let mut last = 0;
    while !run.order.is_empty() {
        if rng.percent(junk_percent) {
            // Another kind, behind which what would be the next call is none.
            let task = rng.pick(&run.order) as u8;
            bytes.extend([byte_from(rng, 3), rng.pick(&[task, 0, 1, 2, 128, 255])]);
        }
        let (kind, task) = next_call(rng, strategy, &run, last, junk_percent);
        if task > 255 {
            continue;
        }
        bytes.extend([kind, task as u8]);
        if call(&mut run, kind, task).is_ok() {
            last = task;
        }
    }
    for _ in 0..rng.below(4) {
        bytes.extend([rng.below(4) as u8, rng.byte()]);
    }
    if rng.percent(80) {
        bytes.push(rng.below(4) as u8);
    }
    bytes
}

/// A play cut short, so that a job is left: anywhere, before its last call or within that.
pub fn cut_play(rng: &mut Rng, fresh: &Run) -> Vec<u8> {
    let mut bytes = full_play(rng, fresh);
    let less = match rng.below(4) {
        0 => 1,
        1 => 2,
        _ => 1 + rng.below(bytes.len()),
    };
    bytes.truncate(bytes.len() - less);
    bytes
}

/// A full play behind more than 100,000 bytes of calls that are none or refused, and half a call at its end.
pub fn long_play(rng: &mut Rng, fresh: &Run) -> Vec<u8> {
    let mut bytes = Vec::new();
    for _ in 0..25_000 {
        bytes.extend([byte_from(rng, 3), rng.byte()]);
        bytes.extend([rng.below(3) as u8, rng.between(128, 255) as u8]);
    }
    bytes.extend(full_play(rng, fresh));
    bytes.push(0);
    bytes
}

/// A library.bin of a length that doesn't fit.
fn spoil_library(rng: &mut Rng, library: &mut Vec<u8>) {
    match rng.below(3) {
        0 => library.push(0),
        1 => library.truncate(library.len() - 1),
        _ => library.clear(),
    }
}

/// One line of run-cases: jobs, library and input in hexadecimal and the transcript with `/` for each
/// line feed, parted by single spaces; the spaces inside the transcript are `,`.
pub fn run_case_line(jobs: &[u8], library: &[u8], input: &[u8]) -> String {
    let text = crate::coordinator::transcript(jobs, library, input);
    let text = text.replace(' ', ",").replace('\n', "/");
    format!("{} {} {} {text}", hex(jobs), hex(library), hex(input))
}
