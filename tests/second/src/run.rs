//! Jobs, order, queues, calls and the hand run.

use crate::list::{
    block, decode, encode_instruction, task_counts, Instruction, Line, TaskList, SLICE_TOO_SHORT,
};

/// "8, library length not C"
pub const LIBRARY_LENGTH: u32 = 8;
/// "9 number above 127"
pub const ABOVE_127: u32 = 9;
/// "10 not in the order"
pub const NOT_IN_ORDER: u32 = 10;
/// "11 already started"
pub const ALREADY_STARTED: u32 = 11;
/// "13 not started"
pub const NOT_STARTED: u32 = 13;
/// "14 at its end"
pub const AT_ITS_END: u32 = 14;
/// "15 not at its end"
pub const NOT_AT_ITS_END: u32 = 15;
/// "16 entry not below C"
pub const NO_SUCH_LOCATION: u32 = 16;
/// #102: "19 where a job of mode write is ahead in one of these queues"
pub const BEHIND_A_WRITER: u32 = 19;
/// #102: "20 for any other hold"
pub const OTHER_HOLD: u32 = 20;
/// #105: "21 wrong length"
pub const TABLE_LENGTH: u32 = 21;
/// #105: "22 a number not in 1 to 1000"
pub const TABLE_NUMBER: u32 = 22;

/// "128 records"
pub const RECORDS: usize = 128;
/// "a mode per entry (...; always 0 from C to 63)"
pub const MODES: usize = 64;

/// #105: "a lent table of 12 numbers of 16 bits: start, end, then codes 0 to 9, code 9's per child";
/// "Later codes lengthen it by one each.": #107's code 10, #108's codes 11 and 12.
pub const WEIGHTS: usize = 15;
/// Today's numbers: "start 5, end 2, codes 0 to 8: 1, 1, 1, 1, 3, 4, 1, 8, 1"; #104, of a fan: "The weight
/// is 8 × c."; #107, of code 10: "the coordinator's weight for it being 4"; #108: both "weigh 1 with the
/// coordinator".
pub const TODAY: [u16; WEIGHTS] = [5, 2, 1, 1, 1, 1, 3, 4, 1, 8, 1, 8, 4, 1, 1];

pub const NEVER_MADE: u8 = 0;
pub const WAITING: u8 = 1;
pub const STARTED: u8 = 2;
pub const ENDED: u8 = 3;

pub const NONE: u8 = 0;
pub const READ: u8 = 1;
pub const WRITE: u8 = 2;
/// #107: "Add mode 3, sum"
pub const SUM: u8 = 3;

/// #108: "Fault 4 is a result above 2^32 − 1"
pub const TOO_LARGE: u8 = 4;
/// #108: "fault 5 (...) is a zero Rc"
pub const ZERO_DIVISOR: u8 = 5;

/// "A record has: state (...), sheet, place, four registers, a mode per entry (...), instructions
/// done, fault, weight."
#[derive(Clone, Debug, PartialEq, Eq, Hash)]
pub struct Record {
    pub state: u8,
    pub body: usize,
    pub pc: usize,
    pub registers: [u32; 4],
    pub modes: [u8; MODES],
    pub steps: u64,
    pub fault: u8,
    pub weight: u64,
}

/// "An open run also has the accepted list, the entries, calls accepted, weight, and the order:
/// unended jobs, front to back". #105: and the table that it was opened with, which no call changes.
#[derive(Clone, Debug, PartialEq, Eq)]
pub struct Run {
    pub list: TaskList,
    pub memory: Vec<u32>,
    pub calls: u64,
    pub weight: u64,
    pub order: Vec<usize>,
    pub records: Vec<Record>,
    pub table: [u16; WEIGHTS],
}

/// "Never made: all zero."
pub fn never_made() -> Record {
    Record {
        state: NEVER_MADE,
        body: 0,
        pc: 0,
        registers: [0; 4],
        modes: [NONE; MODES],
        steps: 0,
        fault: 0,
        weight: 0,
    }
}

/// "Open and hand run: as check, then 8, library length not C." #105: "After 8: 21 wrong length, 22 a
/// number not in 1 to 1000."
pub fn open(bytes: &[u8], library: &[u32], table: &[u16]) -> Result<Run, u32> {
    let list = decode(bytes)?;
    if library.len() != list.locations {
        return Err(LIBRARY_LENGTH);
    }
    let table = checked_table(table)?;
    Ok(fresh_run(list, library, table))
}

/// #105: the table "is checked before use".
fn checked_table(table: &[u16]) -> Result<[u16; WEIGHTS], u32> {
    let numbers: [u16; WEIGHTS] = table.try_into().map_err(|_| TABLE_LENGTH)?;
    for number in numbers {
        if !(1..=1000).contains(&number) {
            return Err(TABLE_NUMBER);
        }
    }
    Ok(numbers)
}

/// "A fresh run is what open gives when it accepts: the library's numbers as the entries, job 0 alone
/// in the order, all other records zero, calls and weight 0."
fn fresh_run(list: TaskList, library: &[u32], table: [u16; WEIGHTS]) -> Run {
    let mut records = Vec::new();
    for _ in 0..RECORDS {
        records.push(never_made());
    }
    // "Job 0 runs sheet 0 with zero registers, every entry in mode write."
    records[0].state = WAITING;
    for location in 0..list.locations {
        records[0].modes[location] = WRITE;
    }
    Run {
        list,
        memory: library.to_vec(),
        calls: 0,
        weight: 0,
        order: vec![0],
        records,
        table,
    }
}

/// "The queue of an entry is the order with only the jobs whose mode there isn't 0."
pub fn queue_of(run: &Run, location: usize) -> Vec<usize> {
    let mut queue = Vec::new();
    for task in &run.order {
        if run.records[*task].modes[location] != NONE {
            queue.push(*task);
        }
    }
    queue
}

/// The jobs in the queue of an entry that are ahead of this one in the order.
fn ahead_of(run: &Run, task: usize, location: usize) -> Vec<usize> {
    let mut ahead = Vec::new();
    for other in &run.order {
        if *other == task {
            break;
        }
        if run.records[*other].modes[location] != NONE {
            ahead.push(*other);
        }
    }
    ahead
}

/// "A job may read an entry when all ahead of it in that queue have mode 1."
pub fn may_read(run: &Run, task: usize, location: usize) -> bool {
    for other in ahead_of(run, task, location) {
        if run.records[other].modes[location] != READ {
            return false;
        }
    }
    true
}

/// "It may write when none is ahead."
pub fn may_write(run: &Run, task: usize, location: usize) -> bool {
    ahead_of(run, task, location).is_empty()
}

/// #107: "A job of mode 3 may sum, and may start as far as that entry goes, when all ahead have mode 3".
fn may_sum_beside(run: &Run, task: usize, location: usize) -> bool {
    for other in ahead_of(run, task, location) {
        if run.records[other].modes[location] != SUM {
            return false;
        }
    }
    true
}

/// #107: "A job of mode 3 may sum (...) when all ahead have mode 3; a writer sums only when none is ahead."
/// Only asked in these two modes.
fn may_sum(run: &Run, task: usize, location: usize) -> bool {
    match run.records[task].modes[location] {
        SUM => may_sum_beside(run, task, location),
        _ => may_write(run, task, location),
    }
}

/// "What the job's own mode there allows": reading in mode 1, writing in mode 2. #107: "A wait on a sum
/// entry passes when all ahead have mode 3."
fn may_use_own_mode(run: &Run, task: usize, location: usize) -> bool {
    may_use(run, task, location, run.records[task].modes[location])
}

/// Whether the job may read, write or sum the entry, by the mode asked for.
fn may_use(run: &Run, task: usize, location: usize, asked: u8) -> bool {
    match asked {
        READ => may_read(run, task, location),
        SUM => may_sum_beside(run, task, location),
        _ => may_write(run, task, location),
    }
}

/// The job's mode at the entry of this number; "C and above included" have none.
fn mode_at(run: &Run, task: usize, number: u32) -> u8 {
    if number as usize >= run.list.locations {
        return NONE;
    }
    run.records[task].modes[number as usize]
}

fn in_order(run: &Run, task: usize) -> bool {
    run.order.contains(&task)
}

/// "at the end of its sheet or after a fault"
pub fn at_its_end(run: &Run, task: usize) -> bool {
    let record = &run.records[task];
    record.pc == run.list.bodies[record.body].len() || record.fault != 0
}

/// The instruction at the job's place; only asked when the job is not at its end.
pub fn instruction_at(run: &Run, task: usize) -> Instruction {
    let record = &run.records[task];
    run.list.bodies[record.body][record.pc]
}

/// "Each accepted call adds 1 to calls and its weight to record and run".
fn count_call(run: &mut Run, task: usize, weight: u64) {
    run.calls += 1;
    run.weight += weight;
    run.records[task].weight += weight;
}

/// #105: "start, end, then codes 0 to 9, code 9's per child"; then the later codes in turn.
fn start_weight(run: &Run) -> u64 {
    run.table[0] as u64
}

fn end_weight(run: &Run) -> u64 {
    run.table[1] as u64
}

fn step_weight(run: &Run, instruction: &Instruction) -> u64 {
    let code = encode_instruction(instruction)[0] as usize;
    let number = run.table[2 + code] as u64;
    match instruction {
        Instruction::Fan { children, .. } => number * *children as u64,
        _ => number,
    }
}

/// "9 number above 127; 10 not in the order": what each call tests first. Else the job.
fn test_number(run: &Run, number: u32) -> Result<usize, u32> {
    if number > 127 {
        return Err(ABOVE_127);
    }
    let task = number as usize;
    if !in_order(run, task) {
        return Err(NOT_IN_ORDER);
    }
    Ok(task)
}

/// "9; 10; 13 not started": what step and end test first. Else the job.
fn test_started(run: &Run, number: u32) -> Result<usize, u32> {
    let task = test_number(run, number)?;
    if run.records[task].state != STARTED {
        return Err(NOT_STARTED);
    }
    Ok(task)
}

/// "Start: 9 number above 127; 10 not in the order; 11 already started; 12 held back." #102: 19 and 20,
/// "both at 12's place". Else the job.
pub fn test_start(run: &Run, number: u32) -> Result<usize, u32> {
    let task = test_number(run, number)?;
    if run.records[task].state == STARTED {
        return Err(ALREADY_STARTED);
    }
    let footprint = footprint_of(run, task);
    if !start_may_go(run, task, &footprint) {
        return Err(kind_of_hold(run, task, &footprint));
    }
    Ok(task)
}

/// #102: "For a start, all entries of the footprint count".
pub fn footprint_of(run: &Run, task: usize) -> Vec<usize> {
    let mut footprint = Vec::new();
    for location in 0..run.list.locations {
        if run.records[task].modes[location] != NONE {
            footprint.push(location);
        }
    }
    footprint
}

/// "Start: the job may read each entry of mode 1 and write each of mode 2"; #107, of one of mode 3: it "may
/// start as far as that entry goes, when all ahead have mode 3".
fn start_may_go(run: &Run, task: usize, footprint: &[usize]) -> bool {
    for location in footprint {
        if !may_use_own_mode(run, task, *location) {
            return false;
        }
    }
    true
}

/// #102: "19 where a job of mode write is ahead in one of these queues, 20 for any other hold". Only
/// asked when the job is held back.
fn kind_of_hold(run: &Run, task: usize, locations: &[usize]) -> u32 {
    let (writer_ahead, _) = search(run, task, locations);
    if writer_ahead {
        BEHIND_A_WRITER
    } else {
        OTHER_HOLD
    }
}

/// #103: "the search for what holds a job back shall go from the front and stop at the first job of mode
/// write on one of #102's entries, or at the job itself. It also tells how many jobs it looked at:
/// exactly the place in the order where it stopped, counted from 1." Whether it stopped at a writer, and
/// that number; only asked of a job in the order.
pub fn search(run: &Run, task: usize, locations: &[usize]) -> (bool, usize) {
    let mut looked = 0;
    for other in &run.order {
        looked += 1;
        if *other == task {
            return (false, looked);
        }
        for location in locations {
            if run.records[*other].modes[*location] == WRITE {
                return (true, looked);
            }
        }
    }
    panic!("job {task} is not in the order")
}

/// #103, of entries each with the mode asked for: what the search finds, and where it stopped. 0 where nothing
/// holds the job back, else #102's "19 where a job of mode write is ahead in one of these queues, 20 for any
/// other hold". First 9 and 10, as each call tests.
pub fn search_modes(run: &Run, number: u32, asked: &[(usize, u8)]) -> Result<(u32, usize), u32> {
    let task = test_number(run, number)?;
    let locations: Vec<usize> = asked.iter().map(|(location, _)| *location).collect();
    let (writer_ahead, looked) = search(run, task, &locations);
    let free = |(location, mode): &(usize, u8)| may_use(run, task, *location, *mode);
    let found = if writer_ahead {
        BEHIND_A_WRITER
    } else if asked.iter().all(free) {
        0
    } else {
        OTHER_HOLD
    };
    Ok((found, looked))
}

/// "Start: ...; its state becomes 2."
pub fn start(run: &mut Run, number: u32) -> Result<(), u32> {
    let task = test_start(run, number)?;
    run.records[task].state = STARTED;
    count_call(run, task, start_weight(run));
    Ok(())
}

/// "Step: 9; 10; 13 not started; 14 at its end; 12." #102: 19 and 20, "both at 12's place". "Faults
/// come before waiting." Else the job.
pub fn test_step(run: &Run, number: u32) -> Result<usize, u32> {
    let task = test_started(run, number)?;
    if at_its_end(run, task) {
        return Err(AT_ITS_END);
    }
    let instruction = instruction_at(run, task);
    if fault_of(run, task, &instruction) == 0 && !step_may_go(run, task, &instruction) {
        let concerned = entry_concerned(run, task, &instruction);
        return Err(kind_of_hold(run, task, &concerned));
    }
    Ok(task)
}

/// #102: "for a step, the one entry concerned"; none where the instruction never waits. Only asked when
/// the step has no fault.
pub fn entry_concerned(run: &Run, task: usize, instruction: &Instruction) -> Vec<usize> {
    let registers = run.records[task].registers;
    match instruction {
        Instruction::Load { b, .. } => vec![registers[*b as usize] as usize],
        Instruction::Store { a, .. } => vec![registers[*a as usize] as usize],
        Instruction::Wait { a } => vec![registers[*a as usize] as usize],
        Instruction::Sum { a, .. } => vec![registers[*a as usize] as usize],
        _ => Vec::new(),
    }
}

/// "Load needs reading, store needs writing, wait needs what the job's own mode there allows. Const,
/// add, sub, less, skip and spawn never wait." #104, of a fan: "in one step that never waits". #107 says
/// when a sum may go; #108's codes have no entry to wait for. Only asked when the step has no fault.
fn step_may_go(run: &Run, task: usize, instruction: &Instruction) -> bool {
    let registers = run.records[task].registers;
    match instruction {
        Instruction::Load { b, .. } => may_read(run, task, registers[*b as usize] as usize),
        Instruction::Store { a, .. } => may_write(run, task, registers[*a as usize] as usize),
        Instruction::Wait { a } => may_use_own_mode(run, task, registers[*a as usize] as usize),
        Instruction::Sum { a, .. } => may_sum(run, task, registers[*a as usize] as usize),
        _ => true,
    }
}

/// What is done to an entry, or what a line gives the child leave to do.
#[derive(Clone, Copy)]
enum Use {
    Read,
    Write,
    Sum,
    Wait,
}

/// The fault of a step, 0 if it has none. "1: entry not in the job's footprint (C and above
/// included). 2: store, or a write line, where its own mode is read." #106: "Fault 3 no longer occurs".
/// #107 adds faults of sums, #108 faults 4 and 5.
fn fault_of(run: &Run, task: usize, instruction: &Instruction) -> u8 {
    let registers = run.records[task].registers;
    match instruction {
        Instruction::Load { b, .. } => fault_of_use(run, task, registers[*b as usize], Use::Read),
        Instruction::Store { a, .. } => fault_of_use(run, task, registers[*a as usize], Use::Write),
        Instruction::Wait { a } => fault_of_use(run, task, registers[*a as usize], Use::Wait),
        Instruction::Sum { a, .. } => fault_of_use(run, task, registers[*a as usize], Use::Sum),
        Instruction::Spawn { footprint, .. } => {
            fault_of_child(run, task, *footprint as usize, &registers)
        }
        Instruction::Fan {
            footprint,
            children,
            ..
        } => fault_of_fan(run, task, *footprint as usize, *children),
        Instruction::Mul { b, c, .. } => {
            let result = product(registers[*b as usize], registers[*c as usize]);
            result.err().unwrap_or(0)
        }
        Instruction::Div { b, c, .. } => {
            let result = quotient(registers[*b as usize], registers[*c as usize]);
            result.err().unwrap_or(0)
        }
        _ => 0,
    }
}

/// #108: "Code 11: Ra := Rb × Rc / 1000." The result, or its fault.
pub fn product(b: u32, c: u32) -> Result<u32, u8> {
    rounded(b as u128 * c as u128, 1000)
}

/// #108: "Code 12: Ra := 1000 × Rb / Rc."; "fault 5, tested first and in code 12 only, is a zero Rc". The
/// result, or its fault.
pub fn quotient(b: u32, c: u32) -> Result<u32, u8> {
    if c == 0 {
        return Err(ZERO_DIVISOR);
    }
    rounded(1000 * b as u128, c as u128)
}

/// #108: "Both round to the nearest whole number, halves upward, on the exact value"; "Fault 4 is a result
/// above 2^32 − 1". The exact value is the whole number `below` and `rest` of `divisor` parts of one.
fn rounded(dividend: u128, divisor: u128) -> Result<u32, u8> {
    let below = dividend / divisor;
    let rest = dividend % divisor;
    let nearest = if rest < divisor - rest {
        below
    } else {
        below + 1
    };
    u32::try_from(nearest).map_err(|_| TOO_LARGE)
}

/// Faults 1 and 2, in this order, for one entry.
fn fault_of_use(run: &Run, task: usize, number: u32, wanted: Use) -> u8 {
    let own = mode_at(run, task, number);
    if own == NONE {
        return 1;
    }
    let allowed = match wanted {
        // #107: "load and store fault 2 on a sum entry"; "a read or write line faults 2 where it is sum"
        Use::Read => own != SUM,
        Use::Write => own != READ && own != SUM,
        // "On a read entry it faults 2"; "A sum line faults 2 unless the spawner's mode is sum or write"
        Use::Sum => own == SUM || own == WRITE,
        // A wait has no fault 2.
        Use::Wait => true,
    };
    if allowed {
        0
    } else {
        2
    }
}

/// #104: "If any child would fault, in order of children and lines, none is made."
fn fault_of_fan(run: &Run, task: usize, footprint: usize, children: u8) -> u8 {
    for i in 0..children {
        let registers = registers_of_child(run, task, i);
        let fault = fault_of_child(run, task, footprint, &registers);
        if fault != 0 {
            return fault;
        }
    }
    0
}

/// #104: "Child i has R0 = i, and its footprint is found with that R0." The others are copied from the
/// spawner, as a spawn's.
fn registers_of_child(run: &Run, task: usize, i: u8) -> [u32; 4] {
    let mut registers = run.records[task].registers;
    registers[0] = i as u32;
    registers
}

/// A child with these registers. #106: "Lines are still tested for faults 1 and 2 in turn", each by the
/// spawner's own mode.
fn fault_of_child(run: &Run, task: usize, footprint: usize, registers: &[u32; 4]) -> u8 {
    for line in &run.list.footprints[footprint] {
        let number = line_location(line, registers);
        let wanted = match line_mode(line) {
            READ => Use::Read,
            WRITE => Use::Write,
            _ => Use::Sum,
        };
        let fault = fault_of_use(run, task, number, wanted);
        if fault != 0 {
            return fault;
        }
    }
    0
}

/// "Kind 0 reads and 1 writes entry `value`; 2 reads and 3 writes the entry whose number is in
/// register `value`." #107: "line kind 4 sums a fixed entry, 5 one named by a register".
pub fn line_location(line: &Line, registers: &[u32; 4]) -> u32 {
    match line.kind {
        0 | 1 | 4 => line.value as u32,
        _ => registers[line.value as usize],
    }
}

pub fn line_mode(line: &Line) -> u8 {
    match line.kind {
        0 | 2 => READ,
        1 | 3 => WRITE,
        _ => SUM,
    }
}

/// "its footprint's modes", none where no line names the entry. Only asked when no line faults.
fn footprint_modes(lines: &[Line], registers: &[u32; 4]) -> [u8; MODES] {
    let mut modes = [NONE; MODES];
    for (location, mode) in modes.iter_mut().enumerate() {
        let named: Vec<u8> = lines
            .iter()
            .filter(|line| line_location(line, registers) as usize == location)
            .map(line_mode)
            .collect();
        *mode = mode_of_lines(&named);
    }
    modes
}

/// #106: "An entry named twice now counts once: with the common mode, or with write where the modes
/// differ."
fn mode_of_lines(named: &[u8]) -> u8 {
    match named {
        [] => NONE,
        [first, others @ ..] if others.iter().all(|other| other == first) => *first,
        _ => WRITE,
    }
}

/// "Step: one instruction; place rises by 1 plus what a skip passes over, instructions done by 1."
pub fn step(run: &mut Run, number: u32) -> Result<(), u32> {
    let task = test_step(run, number)?;
    let instruction = instruction_at(run, task);
    let fault = fault_of(run, task, &instruction);
    // "A faulting step is accepted, counts and weighs; done rises"
    count_call(run, task, step_weight(run, &instruction));
    run.records[task].steps += 1;
    if fault != 0 {
        // "but no place, register, entry or other job changes, and the job is then at its end"
        run.records[task].fault = fault;
        return Ok(());
    }
    let registers = run.records[task].registers;
    let value_of = |register: u8| registers[register as usize];
    let mut passed_over = 0;
    match instruction {
        Instruction::Const { a, value } => {
            run.records[task].registers[a as usize] = value as u32;
        }
        // "sums and differences are modulo 2^32"
        Instruction::Add { a, b, c } => {
            run.records[task].registers[a as usize] = value_of(b).wrapping_add(value_of(c));
        }
        Instruction::Sub { a, b, c } => {
            run.records[task].registers[a as usize] = value_of(b).wrapping_sub(value_of(c));
        }
        Instruction::Less { a, b, c } => {
            let less = if value_of(b) < value_of(c) { 1 } else { 0 };
            run.records[task].registers[a as usize] = less;
        }
        Instruction::Load { a, b } => {
            run.records[task].registers[a as usize] = run.memory[value_of(b) as usize];
        }
        Instruction::Store { a, b } => {
            run.memory[value_of(a) as usize] = value_of(b);
        }
        Instruction::Skip { a, b } => {
            if value_of(a) == 0 {
                passed_over = b as usize;
            }
        }
        Instruction::Spawn { body, footprint } => {
            spawn(run, task, body as usize, footprint as usize);
        }
        Instruction::Wait { .. } => {}
        Instruction::Fan {
            body,
            footprint,
            children,
        } => {
            fan(run, task, body as usize, footprint as usize, children);
        }
        // #107: "entry number Ra := entry + Rb modulo 2^32"
        Instruction::Sum { a, b } => {
            let entry = &mut run.memory[value_of(a) as usize];
            *entry = entry.wrapping_add(value_of(b));
        }
        Instruction::Mul { a, b, c } => {
            let result = product(value_of(b), value_of(c));
            run.records[task].registers[a as usize] = result.expect("a step without a fault");
        }
        Instruction::Div { a, b, c } => {
            let result = quotient(value_of(b), value_of(c));
            run.records[task].registers[a as usize] = result.expect("a step without a fault");
        }
    }
    run.records[task].pc += 1 + passed_over;
    Ok(())
}

/// "Job n's spawn at place i makes job n + 1 + the counts of all spawns before i in that sheet." #104:
/// "Later spawns and fans of the sheet number on after the block." The number of the spawn's child, and
/// of the fan's child 0.
fn child_number(run: &Run, task: usize, pc: usize) -> usize {
    let counts = task_counts(&run.list);
    let mut number = task as u64 + 1;
    for instruction in &run.list.bodies[run.records[task].body][..pc] {
        number += block(instruction, &counts);
    }
    number as usize
}

/// The numbers of the children that the instruction at this place makes, in order; none where it is
/// neither a spawn nor a fan. #104: "child i starts at i × count(a) within that block".
fn child_numbers(run: &Run, task: usize, pc: usize) -> Vec<usize> {
    let first = child_number(run, task, pc);
    match run.list.bodies[run.records[task].body][pc] {
        Instruction::Spawn { .. } => vec![first],
        Instruction::Fan { body, children, .. } => {
            let count = task_counts(&run.list)[body as usize] as usize;
            (0..children as usize).map(|i| first + i * count).collect()
        }
        _ => Vec::new(),
    }
}

/// Called at the spawn's own place.
fn spawn(run: &mut Run, task: usize, body: usize, footprint: usize) {
    let child = child_number(run, task, run.records[task].pc);
    let registers = run.records[task].registers;
    make_child(run, task, child, body, footprint, registers);
}

/// #104: "Child 0 is foremost; all stand directly ahead of the spawner". So each in turn is placed
/// directly ahead of it. Called at the fan's own place.
fn fan(run: &mut Run, task: usize, body: usize, footprint: usize, children: u8) {
    let numbers = child_numbers(run, task, run.records[task].pc);
    for i in 0..children {
        let registers = registers_of_child(run, task, i);
        make_child(run, task, numbers[i as usize], body, footprint, registers);
    }
}

/// "A spawn makes the new job waiting, at place 0, with its sheet, its footprint's modes and a copy of
/// the registers, directly ahead of its spawner in the order."
fn make_child(
    run: &mut Run,
    task: usize,
    child: usize,
    body: usize,
    footprint: usize,
    registers: [u32; 4],
) {
    let mut record = never_made();
    record.state = WAITING;
    record.body = body;
    record.registers = registers;
    record.modes = footprint_modes(&run.list.footprints[footprint], &registers);
    run.records[child] = record;
    let place_in_order = run.order.iter().position(|other| *other == task).unwrap();
    run.order.insert(place_in_order, child);
}

/// "End: 9; 10; 13; 15 not at its end." Else the job.
pub fn test_end(run: &Run, number: u32) -> Result<usize, u32> {
    let task = test_started(run, number)?;
    if !at_its_end(run, task) {
        return Err(NOT_AT_ITS_END);
    }
    Ok(task)
}

/// "End: at the end of its sheet or after a fault, the job leaves the order and its state becomes 3.
/// Its children keep their places."
pub fn end(run: &mut Run, number: u32) -> Result<(), u32> {
    let task = test_end(run, number)?;
    run.order.retain(|other| *other != task);
    run.records[task].state = ENDED;
    count_call(run, task, end_weight(run));
    Ok(())
}

/// "Record gives one job's record." "Record: 9."
pub fn record(run: &Run, number: u32) -> Result<Record, u32> {
    if number > 127 {
        return Err(ABOVE_127);
    }
    Ok(run.records[number as usize].clone())
}

/// "Queue writes, per job from the front, number + 256 × mode into 16-bit places."
/// "Queue: 16 entry not below C; 17 lent slice too short."
pub fn queue(run: &Run, location: u32, places: &mut [u16]) -> Result<usize, u32> {
    if location as usize >= run.list.locations {
        return Err(NO_SUCH_LOCATION);
    }
    let queue = queue_of(run, location as usize);
    if places.len() < queue.len() {
        return Err(SLICE_TOO_SHORT);
    }
    for (i, task) in queue.iter().enumerate() {
        let mode = run.records[*task].modes[location as usize];
        places[i] = *task as u16 + 256 * mode as u16;
    }
    Ok(queue.len())
}

/// "The hand run takes what open takes and makes the same calls from a fresh run in one order: job 0
/// is run whole. The hand run gives the run with no job left."
pub fn hand_run(bytes: &[u8], library: &[u32], table: &[u16]) -> Result<Run, u32> {
    let mut run = open(bytes, library, table)?;
    run_whole(&mut run, 0);
    Ok(run)
}

/// "A job is run whole thus: its start, its steps until it is at its end, and at each spawn the child
/// is run whole before the next step; last its end call. A spawn that faults has no child." #104, of a
/// fan's children: "the hand run completes them from child 0 on".
fn run_whole(run: &mut Run, task: usize) {
    start(run, task as u32).expect("the hand run's start is accepted");
    while !at_its_end(run, task) {
        let children = child_numbers(run, task, run.records[task].pc);
        step(run, task as u32).expect("the hand run's step is accepted");
        let faulted = run.records[task].fault != 0;
        if !faulted {
            for child in children {
                run_whole(run, child);
            }
        }
    }
    end(run, task as u32).expect("the hand run's end is accepted");
}
