//! #111: rounds with so many workers. #112: the foremost job's move.

use crate::coordinator::{call, open_files, refused_line};
use crate::list::NOT_WHOLE;
use crate::run::{at_its_end, open, test_end, test_start, test_step, Run, WAITING};

/// #111: "24 for P outside 1 to 16"
pub const BAD_WORKERS: u32 = 24;
/// #112: "25 where no job is left"
pub const NO_JOB_LEFT: u32 = 25;

/// #111: "P workers, 1 to 16"
pub const MOST_WORKERS: u32 = 16;
/// #111: "the span, which is the rounds with 128 workers"
pub const SPAN_WORKERS: u32 = 128;

/// A call: its kind (0 start, 1 step, 2 end), then the job.
pub type Call = (u8, u32);

/// The kind of an unended job's next call: its start while it waits, then its steps, at its end its end.
pub fn next_kind(run: &Run, task: usize) -> u8 {
    if run.records[task].state == WAITING {
        0
    } else if at_its_end(run, task) {
        2
    } else {
        1
    }
}

/// An unended job's "next call"; it may be held back.
pub fn next_call_of(run: &Run, task: usize) -> Call {
    (next_kind(run, task), task as u32)
}

/// #111: whether a call "would be accepted": what it tests finds nothing to refuse.
pub fn would_be_accepted(run: &Run, (kind, task): Call) -> bool {
    let answer = match kind {
        0 => test_start(run, task),
        1 => test_step(run, task),
        _ => test_end(run, task),
    };
    answer.is_ok()
}

/// Makes a call that would be accepted.
pub fn make(run: &mut Run, (kind, task): Call) {
    call(run, kind, task).expect("a call that would be accepted");
}

/// #111: "the first P jobs in the order whose next call would be accepted at the round's start", by that call.
pub fn calls_of_round(run: &Run, workers: u32) -> Vec<Call> {
    run.order
        .iter()
        .map(|task| next_call_of(run, *task))
        .filter(|call| would_be_accepted(run, *call))
        .take(workers as usize)
        .collect()
}

/// #111: the calls of each round, until no job is left. In a round these jobs "make that call", front to
/// back; "All reported calls are accepted."
pub fn all_rounds(fresh: &Run, workers: u32) -> Vec<Vec<Call>> {
    let mut run = fresh.clone();
    let mut rounds = Vec::new();
    while !run.order.is_empty() {
        let round = calls_of_round(&run, workers);
        assert!(!round.is_empty(), "a job is left, and no call is accepted");
        for call in &round {
            make(&mut run, *call);
        }
        rounds.push(round);
    }
    rounds
}

/// #111: "report the rounds, the calls, and the span".
#[derive(Clone, Copy, Debug, PartialEq, Eq)]
pub struct Report {
    pub rounds: u64,
    pub calls: u64,
    pub span: u64,
}

/// #111: "Take P and what open takes, and from a fresh run report". "24 for P outside 1 to 16, before all
/// else."
pub fn rounds(workers: u32, bytes: &[u8], library: &[u32], table: &[u16]) -> Result<Report, u32> {
    if !(1..=MOST_WORKERS).contains(&workers) {
        return Err(BAD_WORKERS);
    }
    let fresh = open(bytes, library, table)?;
    Ok(report(&fresh, workers))
}

/// The report on a fresh run, with any number of workers.
pub fn report(fresh: &Run, workers: u32) -> Report {
    let rounds = all_rounds(fresh, workers);
    Report {
        rounds: rounds.len() as u64,
        calls: rounds.iter().map(|round| round.len() as u64).sum(),
        span: all_rounds(fresh, SPAN_WORKERS).len() as u64,
    }
}

/// #112: "make the next call of the foremost job"; "25 where no job is left, the only refusal of that move".
pub fn foremost_move(run: &mut Run) -> Result<(), u32> {
    let foremost = *run.order.first().ok_or(NO_JOB_LEFT)?;
    let call = next_call_of(run, foremost);
    make(run, call);
    Ok(())
}

/// What the program rounds prints for the bytes of the two files: `refused` and the refusal, or the calls, the
/// span, a line for each number of workers, and how many are enough.
pub fn rounds_text(jobs: &[u8], library_bytes: &[u8]) -> String {
    match open_files(jobs, library_bytes) {
        Ok(fresh) => table_text(&fresh),
        Err(refusal) => refused_line(refusal),
    }
}

/// The same of files, `None` where one can't be read: as the coordinator, `refused 1` without jobs.bin, and a
/// library.bin that counts as empty.
pub fn files_rounds(jobs: Option<&[u8]>, library: Option<&[u8]>) -> String {
    match jobs {
        Some(jobs) => rounds_text(jobs, library.unwrap_or(&[])),
        None => refused_line(NOT_WHOLE),
    }
}

/// The lines for a fresh run.
fn table_text(fresh: &Run) -> String {
    let Report { calls, span, .. } = report(fresh, 1);
    let rounds: Vec<(u64, u64)> = (1..=MOST_WORKERS)
        .map(|workers| (workers as u64, all_rounds(fresh, workers).len() as u64))
        .collect();
    let mut text = format!("calls {calls}\nspan {span}\n");
    for (workers, rounds) in &rounds {
        let used = 100 * calls / (workers * rounds);
        text.push_str(&format!("{workers} {rounds} {used}%\n"));
    }
    // The least number of workers whose rounds are the span.
    match rounds.iter().find(|(_, rounds)| *rounds == span) {
        Some((workers, _)) => text.push_str(&format!("enough {workers}\n")),
        None => text.push_str("enough none\n"),
    }
    text
}
