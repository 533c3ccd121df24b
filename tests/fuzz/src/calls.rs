//! Target `calls`: a list, a library and calls; every answer and the whole run after the last call are compared.

use measured::coordinator::call;
use measured::run::{open, Run, TODAY};
use second::cases::hex;

use crate::lent::{differ, hash, Lent};
use crate::parts::{call_of, Parts};
use crate::tally;

extern "C" {
    /// Opens a run, under today's numbers, and makes the calls: 0 start, 1 step, 2 end. Gives 0, or 128 plus the refusal of open. Writes each call's
    /// answer (0, its refusal, 18 for another kind), then the run, as `put_run` below does.
    fn fuzz_replay(
        list: *const u8,
        list_len: usize,
        memory: *const u32,
        memory_len: usize,
        kinds: *const u8,
        kinds_len: usize,
        tasks: *const u32,
        tasks_len: usize,
        out: *mut u32,
        out_len: usize,
    ) -> u32;
}

/// What the output holds before, and around it.
const FILLING: u32 = 0x5A5A_5A5A;
const AROUND: usize = 8;

/// Entries in 64 places, calls, weight, jobs left, the order in 128 places (255 behind it), and 128 records.
fn put_run(out: &mut Vec<u32>, run: &Run) {
    let end = out.len() + 64;
    out.extend(&run.memory);
    out.resize(end, 0);
    out.extend([run.calls as u32, run.weight as u32, run.order.len() as u32]);
    let end = out.len() + 128;
    out.extend(run.order.iter().map(|task| *task as u32));
    out.resize(end, 255);
    for record in &run.records {
        out.extend([record.state as u32, record.body as u32, record.pc as u32]);
        out.extend([
            record.fault as u32,
            record.steps as u32,
            record.weight as u32,
        ]);
        out.extend(record.registers);
        out.extend(record.modes.map(u32::from));
    }
}

/// What the second implementation gives and writes.
fn second_replay(list: &[u8], memory: &[u32], calls: &[(u8, u32)]) -> (u32, Vec<u32>) {
    let mut run = match open(list, memory, &TODAY) {
        Ok(run) => run,
        Err(refusal) => return (128 + refusal, Vec::new()),
    };
    let mut out = Vec::with_capacity(calls.len() + 9667);
    for (kind, task) in calls {
        let answer = call(&mut run, *kind, *task).map_or_else(|refusal| refusal, |()| 0);
        tally::call(answer);
        out.push(answer);
    }
    put_run(&mut out, &run);
    (0, out)
}

/// The places where two outputs differ, at most 20.
fn places(first: &[u32], second: &[u32]) -> String {
    let both = first.iter().zip(second).enumerate();
    let lines = both.filter(|(_, (first, second))| first != second).take(20);
    lines
        .map(|(place, (first, second))| format!(" {place}: {first}, {second};"))
        .collect()
}

pub fn compare(input: &[u8]) {
    let parts = Parts::of(input, true);
    let shift = hash(input) % 8;
    let (library, _) = parts.lent_library();
    let number = |bytes: &[u8]| u32::from_le_bytes([bytes[0], bytes[1], bytes[2], bytes[3]]);
    let memory: Vec<u32> = library.chunks_exact(4).map(number).collect();
    let calls: Vec<(u8, u32)> = parts
        .calls
        .chunks_exact(2)
        .map(|pair| call_of([pair[0], pair[1]]))
        .collect();
    let kinds: Vec<u8> = calls.iter().map(|call| call.0).collect();
    let tasks: Vec<u32> = calls.iter().map(|call| call.1).collect();
    let (second, written) = second_replay(&parts.list, &memory, &calls);
    tally::list(second);
    let mut expected = vec![FILLING; AROUND];
    expected.extend(written);
    // one place more than is written
    expected.resize(expected.len() + 1 + AROUND, FILLING);
    let mut out = vec![FILLING; expected.len()];
    let mut lent_list = Lent::new(&parts.list, &[], shift);
    let mut lent_kinds = Lent::new(&kinds, &[], shift);
    let (memory_before, tasks_before) = (memory.clone(), tasks.clone());
    let given = unsafe {
        fuzz_replay(
            lent_list.pointer(),
            lent_list.len(),
            memory.as_ptr(),
            memory.len(),
            lent_kinds.pointer(),
            lent_kinds.len(),
            tasks.as_ptr(),
            tasks.len(),
            out[AROUND..].as_mut_ptr(),
            out.len() - 2 * AROUND,
        )
    };
    let same = lent_list.unchanged()
        && lent_kinds.unchanged()
        && memory == memory_before
        && tasks == tasks_before;
    if given != second || !same || out != expected {
        differ(&[
            format!("list {}", hex(&parts.list)),
            format!("library {memory:?}"),
            format!("calls (kind, job) {calls:?}"),
            format!("{shift} bytes from an even place"),
            format!("replay: first {given}, second {second}"),
            format!("list, library and calls unchanged: {same}"),
            format!(
                "places behind {AROUND} of filling, first and second:{}",
                places(&out, &expected)
            ),
        ])
    }
}

pub use crate::mutate::calls_input as mutate;
