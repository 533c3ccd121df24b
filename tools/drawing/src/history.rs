//! The calls of a publication, one after the other, and what each did.

use second::coordinator::{call, open_files};
use second::list::Instruction;
use second::run::{queue_of, Run, BEHIND_A_WRITER, NONE, OTHER_HOLD, READ, RECORDS, SUM, WRITE};

/// Who holds a call back, at which entry and by which mode there.
#[derive(Clone, Copy, Debug, PartialEq, Eq)]
pub struct Held {
    pub job: usize,
    pub entry: usize,
    pub mode: u8,
}

/// One call: its words, the coordinator's answer, and the jobs' states behind it.
pub struct Event {
    pub job: usize,
    pub word: &'static str,
    pub answer: u32,
    pub fault: u8,
    /// The jobs that the call made, front to back.
    pub children: Vec<usize>,
    pub held: Option<Held>,
    pub states: Vec<u8>,
}

pub struct History {
    pub events: Vec<Event>,
    pub before: Vec<u32>,
    pub run: Run,
}

/// Opens a run and makes the calls on it.
pub fn follow(jobs: &[u8], library: &[u8], calls: &[u8]) -> Result<History, u32> {
    let mut run = open_files(jobs, library)?;
    let before = run.memory.clone();
    let mut events = Vec::new();
    for bytes in calls.chunks(2) {
        events.push(make_call(&mut run, bytes));
    }
    Ok(History {
        events,
        before,
        run,
    })
}

fn make_call(run: &mut Run, bytes: &[u8]) -> Event {
    let kind = bytes[0];
    let job = bytes.get(1).copied().unwrap_or(0) as usize;
    let instruction = if kind == 1 {
        next_instruction(run, job)
    } else {
        None
    };
    let order = run.order.clone();
    let held = held_back(run, kind, job, instruction);
    let answer = match bytes.len() {
        2 => call(run, kind, job as u32).err().unwrap_or(0),
        _ => second::coordinator::BAD_CALL,
    };
    let stepped = kind == 1 && answer == 0;
    Event {
        job,
        word: word_of(kind, answer, instruction),
        answer,
        fault: if stepped { run.records[job].fault } else { 0 },
        children: run
            .order
            .iter()
            .copied()
            .filter(|other| !order.contains(other))
            .collect(),
        held: held.filter(|_| is_hold(answer)),
        states: run.records.iter().map(|record| record.state).collect(),
    }
}

/// The call is held back.
fn is_hold(answer: u32) -> bool {
    answer == BEHIND_A_WRITER || answer == OTHER_HOLD
}

/// A call's word: of a step the instruction's name, if it came to that.
fn word_of(kind: u8, answer: u32, instruction: Option<Instruction>) -> &'static str {
    match (kind, instruction) {
        (0, _) => "start",
        (1, Some(instruction)) if answer == 0 || is_hold(answer) => name(&instruction),
        (1, _) => "step",
        (2, _) => "end",
        _ => "?",
    }
}

/// The instruction at a job's place.
fn next_instruction(run: &Run, job: usize) -> Option<Instruction> {
    let record = run.records.get(job)?;
    if record.state == 0 {
        return None;
    }
    run.list.bodies[record.body].get(record.pc).copied()
}

fn name(instruction: &Instruction) -> &'static str {
    match instruction {
        Instruction::Const { .. } => "const",
        Instruction::Add { .. } => "add",
        Instruction::Sub { .. } => "sub",
        Instruction::Less { .. } => "less",
        Instruction::Load { .. } => "load",
        Instruction::Store { .. } => "store",
        Instruction::Skip { .. } => "skip",
        Instruction::Spawn { .. } => "spawn",
        Instruction::Wait { .. } => "wait",
        Instruction::Fan { .. } => "fan",
        Instruction::Sum { .. } => "sum",
        Instruction::Mul { .. } => "mul",
        Instruction::Div { .. } => "div",
    }
}

/// The first entry at which a job of mode write is ahead, and that job; where there is none, the first entry at which a job
/// is ahead whose mode doesn't go with what the call needs there, and that job.
fn held_back(run: &Run, kind: u8, job: usize, instruction: Option<Instruction>) -> Option<Held> {
    if job >= RECORDS || !run.order.contains(&job) {
        return None;
    }
    let needs = if kind == 0 {
        start_needs(run, job)
    } else {
        step_needs(run, job, instruction?)
    };
    let writer = needs
        .iter()
        .find_map(|(entry, _)| first_ahead(run, job, *entry, |mode| mode == WRITE));
    let mut others = needs.iter();
    let holds = |need: u8, mode: u8| need == WRITE || mode != need;
    writer.or_else(|| {
        others.find_map(|(entry, need)| first_ahead(run, job, *entry, |mode| holds(*need, mode)))
    })
}

fn start_needs(run: &Run, job: usize) -> Vec<(usize, u8)> {
    let modes = &run.records[job].modes;
    (0..run.list.locations)
        .map(|entry| (entry, modes[entry]))
        .filter(|need| need.1 != NONE)
        .collect()
}

fn step_needs(run: &Run, job: usize, instruction: Instruction) -> Vec<(usize, u8)> {
    let record = &run.records[job];
    let entry_in = |register: u8| record.registers[register as usize] as usize;
    // A wait and a sum need what the own mode allows.
    let need = match instruction {
        Instruction::Load { b, .. } => (entry_in(b), READ),
        Instruction::Store { a, .. } => (entry_in(a), WRITE),
        Instruction::Wait { a } | Instruction::Sum { a, .. }
            if entry_in(a) < run.list.locations =>
        {
            (entry_in(a), record.modes[entry_in(a)])
        }
        _ => return Vec::new(),
    };
    if need.0 < run.list.locations {
        vec![need]
    } else {
        Vec::new()
    }
}

/// The first job ahead in an entry's queue with such a mode there.
fn first_ahead(run: &Run, job: usize, entry: usize, such: impl Fn(u8) -> bool) -> Option<Held> {
    queue_of(run, entry)
        .into_iter()
        .take_while(|other| *other != job)
        .map(|job| (job, run.records[job].modes[entry]))
        .find(|(_, mode)| such(*mode))
        .map(|(job, mode)| Held { job, entry, mode })
}

/// What a job of this mode does to the entry.
pub fn verb(mode: u8) -> &'static str {
    match mode {
        READ => "reads",
        WRITE => "writes",
        SUM => "sums",
        _ => "has no",
    }
}

#[cfg(test)]
mod tests {
    use super::*;

    /// Which calls of an example are held back, by their numbers from 1 on; the answers, and who holds them.
    fn held_in(jobs: &[u8], library: &[u8], calls: &[u8]) -> Vec<(usize, u32, Held)> {
        let events = follow(jobs, library, calls).unwrap().events;
        let numbered = events.iter().enumerate();
        numbered
            .filter_map(|(i, event)| event.held.map(|held| (i + 1, event.answer, held)))
            .collect()
    }

    fn held(job: usize, entry: usize, mode: u8) -> Held {
        Held { job, entry, mode }
    }

    macro_rules! example {
        ($name:literal) => {
            (
                &include_bytes!(concat!("../../../examples/", $name, "/jobs.bin"))[..],
                &include_bytes!(concat!("../../../examples/", $name, "/library.bin"))[..],
                &include_bytes!(concat!("../../../examples/", $name, "/calls.bin"))[..],
            )
        };
    }

    #[test]
    fn the_copy_waits_for_the_job_that_sets() {
        let (jobs, library, calls) = example!("p");
        assert_eq!(held_in(jobs, library, calls), [(4, 19, held(1, 0, WRITE))]);
    }

    #[test]
    fn the_store_waits_for_each_reader() {
        let (jobs, library, calls) = example!("readers");
        let first = (9, 20, held(1, 0, READ));
        let second = (16, 20, held(2, 0, READ));
        assert_eq!(held_in(jobs, library, calls), [first, second]);
    }

    /// Behind readers and a writer, at different entries: the writer is shown.
    #[test]
    fn a_writer_is_shown_before_readers() {
        let jobs = second::named::starts_behind_reader_and_writer();
        let calls = [
            0, 0, 1, 0, 1, 0, 1, 0, 1, 0, 1, 0, 1, 0, 0, 3, 0, 4, 0, 5, 0, 6,
        ];
        assert_eq!(
            held_in(&jobs, &[0; 16], &calls),
            [
                (8, 20, held(1, 2, READ)),
                (9, 19, held(2, 1, WRITE)),
                (10, 19, held(2, 1, WRITE)),
            ]
        );
    }

    /// Sums go side by side; what holds a reader, a writer and a sum behind a reader is shown.
    #[test]
    fn sums_hold_others() {
        let starts = [0, 0, 1, 0, 1, 0, 1, 0, 0, 3, 0, 2];
        for (kinds, expected) in [
            ([4, 4, 4], vec![]),
            ([4, 4, 0], vec![(5, 20, held(1, 0, SUM))]),
            (
                [0, 4, 0],
                vec![(5, 20, held(2, 0, SUM)), (6, 20, held(1, 0, READ))],
            ),
            (
                [4, 1, 4],
                vec![(5, 19, held(2, 0, WRITE)), (6, 20, held(1, 0, SUM))],
            ),
        ] {
            let jobs = second::named::three_modes(kinds);
            assert_eq!(held_in(&jobs, &[0; 4], &starts), expected, "{kinds:?}");
        }
        // The sum of a writer, behind the two that sum; its word is the instruction's.
        let jobs = second::named::two_that_sum(second::named::sum(0, 1));
        let calls = [0, 0, 1, 0, 1, 0, 1, 0, 1, 0, 1, 0];
        assert_eq!(held_in(&jobs, &[0; 4], &calls), [(6, 20, held(1, 0, SUM))]);
        let events = follow(&jobs, &[0; 4], &calls).unwrap().events;
        assert_eq!(events[5].word, "sum");
    }

    /// Either job of the totals' example is held by no other that sums; the parent's loads wait for all of them.
    #[test]
    fn the_parent_waits_for_all_totals() {
        let (jobs, library, calls) = example!("totals");
        let holds = held_in(jobs, library, calls);
        assert!(!holds.is_empty());
        assert!(holds
            .iter()
            .all(|(_, answer, held)| (*answer, held.mode) == (20, SUM)));
        let events = follow(jobs, library, calls).unwrap().events;
        let sums: Vec<usize> = events
            .iter()
            .filter(|event| event.word == "sum" && event.answer == 0)
            .map(|event| event.job)
            .collect();
        // The last job adds before the first.
        assert!(sums.first() > sums.last());
    }

    #[test]
    fn faults_in_turn() {
        let (jobs, library, calls) = example!("faults");
        let events = follow(jobs, library, calls).unwrap().events;
        let faults: Vec<u8> = events
            .iter()
            .map(|event| event.fault)
            .filter(|fault| *fault != 0)
            .collect();
        assert_eq!(faults, [1, 2]);
        let refused: Vec<(&str, u32)> = events
            .iter()
            .filter(|event| event.answer != 0)
            .map(|event| (event.word, event.answer))
            .collect();
        assert_eq!(refused, [("step", 14), ("start", 10)]);
    }

    /// One rate is too large, one has no divisor yet; the others are worked out.
    #[test]
    fn faults_of_rates() {
        let (jobs, library, calls) = example!("rates");
        let history = follow(jobs, library, calls).unwrap();
        let words = |word: &str| -> Vec<(usize, u8)> {
            history
                .events
                .iter()
                .filter(|event| event.word == word && event.answer == 0)
                .map(|event| (event.job, event.fault))
                .collect()
        };
        assert_eq!(words("div"), [(3, 4), (4, 5), (2, 0), (1, 0)]);
        assert_eq!(words("mul"), [(2, 0), (1, 0)]);
        assert_eq!(history.run.memory[..3], [638, 340, 4_000_000_000]);
        let events = history.events.iter();
        let holds: Vec<Held> = events.filter_map(|event| event.held).collect();
        assert_eq!(holds, [held(1, 5, SUM); 2]);
    }

    /// A fan makes several jobs at one call; one that faults makes none.
    #[test]
    fn a_fan_makes_its_jobs_at_once() {
        let jobs = second::named::fan_of_strengths();
        let events = |calls: &[u8]| follow(&jobs, &[0; 16], calls).unwrap().events;
        let events = events(&[0, 0, 1, 0, 1, 0, 1, 0, 1, 0]);
        let made: Vec<(&str, Vec<usize>)> = events
            .into_iter()
            .map(|event| (event.word, event.children))
            .collect();
        assert_eq!(made[3], ("const", vec![]));
        assert_eq!(made[4], ("fan", vec![1, 2, 3]));
        let (jobs, library, calls) = example!("fan");
        let events = follow(jobs, library, calls).unwrap().events;
        let fans: Vec<&Event> = events.iter().filter(|event| event.word == "fan").collect();
        assert_eq!(fans.len(), 1);
        assert_eq!(fans[0].children, [1, 2, 3, 4]);
    }

    /// A jobs.bin of no bytes is one empty sheet.
    #[test]
    fn the_empty_list() {
        let (jobs, library, calls) = example!("empty");
        assert!(jobs.is_empty());
        let history = follow(jobs, library, calls).unwrap();
        let answers: Vec<(&str, u32)> = history
            .events
            .iter()
            .map(|event| (event.word, event.answer))
            .collect();
        assert_eq!(answers, [("start", 0), ("end", 0)]);
        assert_eq!((history.run.calls, history.run.weight), (2, 7));
        assert_eq!(follow(jobs, &[], calls).err(), Some(8));
    }

    #[test]
    fn half_a_call_and_another_kind() {
        let (jobs, library, _) = example!("p");
        let answers = |calls: &[u8]| -> Vec<u32> {
            follow(jobs, library, calls)
                .unwrap()
                .events
                .iter()
                .map(|event| event.answer)
                .collect()
        };
        assert_eq!(answers(&[0, 0, 3, 0, 0]), [0, 18, 18]);
        assert_eq!(answers(&[0, 200]), [9]);
    }
}
