//! The file of cases: its bytes, and what is printed for it.

use crate::bill::{shares, wards};
use crate::cases::hex;
use crate::coordinator::call;
use crate::list::write;
use crate::rounds::{foremost_move, rounds};
use crate::run::{
    footprint_of, hand_run, open, queue, record, search_modes, Run, NEVER_MADE, RECORDS, TODAY,
};

/// "at most 65,536 bytes in all"
pub const MOST_BYTES: usize = 65_536;

/// What the lent places hold before each call.
const QUEUE_FILL: u16 = 43690;
const WRITER_FILL: u8 = 170;
const SHARES_FILL: u32 = 2_863_311_530;
/// "The longest list has 4,805 bytes."
const LONGEST: usize = 4805;
/// The numbers of workers that are asked for; where open refuses, only one of those that rounds takes.
const WORKERS: [u32; 6] = [0, 1, 2, 3, 16, 17];
const WORKERS_REFUSED: [u32; 3] = [0, 1, 17];
/// The bills that are shared, and the one that is shared into a slice that is too short.
const BILLS: [u32; 5] = [0, 1, 7, 100, u32::MAX];
const SHORT_BILL: u32 = 100;

/// One case: what open takes, then calls (kind, job).
#[derive(Clone, Debug, PartialEq, Eq)]
pub struct Case {
    pub list: Vec<u8>,
    pub library: Vec<u32>,
    pub calls: Vec<(u8, u32)>,
}

/// The bytes of a file of these cases.
pub fn encode_cases(cases: &[Case]) -> Vec<u8> {
    let mut bytes = Vec::new();
    for case in cases {
        push_length(&mut bytes, case.list.len());
        bytes.extend(&case.list);
        push_length(&mut bytes, case.library.len());
        for number in &case.library {
            bytes.extend(number.to_le_bytes());
        }
        push_length(&mut bytes, case.calls.len());
        for (kind, task) in &case.calls {
            bytes.push(*kind);
            bytes.extend(task.to_le_bytes());
        }
    }
    bytes
}

fn push_length(bytes: &mut Vec<u8>, length: usize) {
    let length = u16::try_from(length).expect("a length of two bytes");
    bytes.extend(length.to_le_bytes());
}

/// The cases of a file; none when the bytes are not a file of cases.
pub fn decode_cases(bytes: &[u8]) -> Option<Vec<Case>> {
    if bytes.len() > MOST_BYTES {
        return None;
    }
    let mut rest = bytes;
    let mut cases = Vec::new();
    while !rest.is_empty() {
        let length = take_length(&mut rest)?;
        let list = take(&mut rest, length)?.to_vec();
        let mut library = Vec::new();
        for _ in 0..take_length(&mut rest)? {
            library.push(take_number(&mut rest)?);
        }
        let mut calls = Vec::new();
        for _ in 0..take_length(&mut rest)? {
            let kind = take(&mut rest, 1)?[0];
            if kind > 2 {
                return None;
            }
            calls.push((kind, take_number(&mut rest)?));
        }
        cases.push(Case {
            list,
            library,
            calls,
        });
    }
    Some(cases)
}

fn take<'a>(rest: &mut &'a [u8], length: usize) -> Option<&'a [u8]> {
    let (taken, left) = rest.split_at_checked(length)?;
    *rest = left;
    Some(taken)
}

fn take_length(rest: &mut &[u8]) -> Option<usize> {
    let bytes = take(rest, 2)?;
    Some(u16::from_le_bytes([bytes[0], bytes[1]]) as usize)
}

fn take_number(rest: &mut &[u8]) -> Option<u32> {
    let bytes = take(rest, 4)?;
    Some(u32::from_le_bytes([bytes[0], bytes[1], bytes[2], bytes[3]]))
}

/// What is printed for the cases, under today's numbers.
pub fn cases_output(cases: &[Case]) -> String {
    let mut text = String::new();
    for (i, case) in cases.iter().enumerate() {
        text.push_str(&format!("case {i}\n"));
        let mut run = match open(&case.list, &case.library, &TODAY) {
            Ok(run) => run,
            Err(refusal) => {
                text.push_str(&format!("open {refusal}\n"));
                rounds_lines(&mut text, case, &WORKERS_REFUSED);
                continue;
            }
        };
        text.push_str("open 0\n");
        let mut answers = Vec::new();
        for (kind, task) in &case.calls {
            answers.push(match call(&mut run, *kind, *task) {
                Ok(()) => 0,
                Err(refusal) => refusal,
            });
        }
        text.push_str(&format!("calls{}\n", words(&answers)));
        text.push_str(&format!("entries{}\n", words(&run.memory)));
        text.push_str(&format!("total {}\n", totals(&run)));
        queue_lines(&mut text, &run);
        record_lines(&mut text, "record", &run);
        match record(&run, 128) {
            Ok(_) => text.push_str("record 128\n"),
            Err(refusal) => text.push_str(&format!("record 128 refused {refusal}\n")),
        }
        let written = writer_line(&mut text, "write", &run, LONGEST);
        writer_line(&mut text, "short", &run, written - 1);
        search_lines(&mut text, &run);
        move_lines(&mut text, &run);
        bill_lines(&mut text, "", &run);
        let hand = hand_run(&case.list, &case.library, &TODAY);
        let hand = hand.expect("open has accepted the same");
        text.push_str(&format!("hand {}\n", totals(&hand)));
        text.push_str(&format!("hand entries{}\n", words(&hand.memory)));
        record_lines(&mut text, "hand record", &hand);
        bill_lines(&mut text, "hand ", &hand);
        rounds_lines(&mut text, case, &WORKERS);
    }
    text
}

/// Each number behind a space.
fn words<T: std::fmt::Display>(numbers: &[T]) -> String {
    numbers.iter().map(|number| format!(" {number}")).collect()
}

/// Calls, weight, jobs left.
fn totals(run: &Run) -> String {
    format!("{} {} {}", run.calls, run.weight, run.order.len())
}

/// Every entry's queue, then the number C, then every queue that has a place into one place less.
fn queue_lines(text: &mut String, run: &Run) {
    let mut lengths = Vec::new();
    for location in 0..run.list.locations {
        lengths.push(queue_line(text, "queue", run, location, RECORDS));
    }
    queue_line(text, "queue", run, run.list.locations, RECORDS);
    for (location, length) in lengths.into_iter().enumerate() {
        if length > 0 {
            queue_line(text, "short", run, location, length - 1);
        }
    }
}

/// One queue call into a slice of `room` places; how many it wrote.
fn queue_line(text: &mut String, word: &str, run: &Run, location: usize, room: usize) -> usize {
    let mut places = vec![QUEUE_FILL; room];
    let answer = queue(run, location as u32, &mut places);
    let written = answer.unwrap_or(0);
    match answer {
        Ok(_) => text.push_str(&format!("{word} {location}{}\n", words(&places[..written]))),
        Err(refusal) => text.push_str(&format!("{word} {location} refused {refusal}\n")),
    }
    spoiled_line(text, &places[written..], QUEUE_FILL);
    written
}

/// One call of the writer into a slice of `room` places; how many it wrote.
fn writer_line(text: &mut String, word: &str, run: &Run, room: usize) -> usize {
    let mut places = vec![WRITER_FILL; room];
    let answer = write(&run.list, &mut places);
    let written = answer.unwrap_or(0);
    match answer {
        Ok(_) => text.push_str(&format!("{word} {written} {}\n", hex(&places[..written]))),
        Err(refusal) => text.push_str(&format!("{word} refused {refusal}\n")),
    }
    spoiled_line(text, &places[written..], WRITER_FILL);
    written
}

/// The line `spoiled`, where a place that was not to be written no longer holds its filling.
fn spoiled_line<T: PartialEq>(text: &mut String, kept: &[T], fill: T) {
    if kept.iter().any(|place| *place != fill) {
        text.push_str("spoiled\n");
    }
}

/// A line for each job that was made.
fn record_lines(text: &mut String, word: &str, run: &Run) {
    for task in 0..RECORDS {
        if run.records[task].state != NEVER_MADE {
            record_line(text, word, run, task);
        }
    }
}

fn record_line(text: &mut String, word: &str, run: &Run, task: usize) {
    let record = record(run, task as u32).expect("a number up to 127");
    let modes: String = record.modes.iter().map(u8::to_string).collect();
    text.push_str(&format!(
        "{word} {task} {} {} {}{} {} {} {} {modes}\n",
        record.state,
        record.body,
        record.pc,
        words(&record.registers),
        record.steps,
        record.fault,
        record.weight,
    ));
}

/// #103: the searches of each job in the order, then those of two that are refused.
fn search_lines(text: &mut String, run: &Run) {
    for task in &run.order {
        search_line(text, run, *task as u32, &own_searches(run, *task));
    }
    let absent = (0..RECORDS).find(|task| !run.order.contains(task));
    if let Some(task) = absent {
        search_line(text, run, task as u32, &[Vec::new()]);
    }
    search_line(text, run, 128, &[Vec::new()]);
}

/// What a job's searches ask for: all entries of its footprint, then each by itself, in its own modes.
fn own_searches(run: &Run, task: usize) -> Vec<Vec<(usize, u8)>> {
    let modes = run.records[task].modes;
    let footprint = footprint_of(run, task);
    let own: Vec<(usize, u8)> = footprint.iter().map(|e| (*e, modes[*e])).collect();
    let alone = own.iter().map(|asked| vec![*asked]);
    std::iter::once(own.clone()).chain(alone).collect()
}

/// What each search finds and where it stops, or the refusal of all.
fn search_line(text: &mut String, run: &Run, task: u32, searches: &[Vec<(usize, u8)>]) {
    let found: Result<Vec<(u32, usize)>, u32> = searches
        .iter()
        .map(|asked| search_modes(run, task, asked))
        .collect();
    text.push_str(&format!("search {task}"));
    match found {
        Ok(found) => {
            for (hold, looked) in found {
                text.push_str(&format!(" {hold} {looked}"));
            }
        }
        Err(refusal) => text.push_str(&format!(" refused {refusal}")),
    }
    text.push('\n');
}

/// #112: the foremost job's move on a copy of the run, then on another copy until it is refused.
fn move_lines(text: &mut String, run: &Run) {
    let mut moved = run.clone();
    let answer = foremost_move(&mut moved).err().unwrap_or(0);
    text.push_str(&format!("move {answer} {}\n", totals(&moved)));
    text.push_str(&format!("move entries{}\n", words(&moved.memory)));
    if let Some(foremost) = run.order.first() {
        record_line(text, "move record", &moved, *foremost);
    }
    let mut moved = run.clone();
    let mut count = 0;
    while foremost_move(&mut moved).is_ok() {
        count += 1;
    }
    text.push_str(&format!("moves {count} {}\n", totals(&moved)));
    text.push_str(&format!("moves entries{}\n", words(&moved.memory)));
}

/// #114: the wards of the run, then each bill, shared into a slice of 128 places, then one of them into one place
/// less than there are wards.
fn bill_lines(text: &mut String, word: &str, run: &Run) {
    let wards = wards(run);
    text.push_str(&format!("{word}wards {}", wards.len()));
    for ward in &wards {
        text.push_str(&format!(" {} {}", ward.number, ward.weight));
    }
    text.push('\n');
    for bill in BILLS {
        shares_line(text, &format!("{word}shares {bill}"), run, bill, RECORDS);
    }
    if shares(run, SHORT_BILL, &mut [SHARES_FILL; RECORDS]).is_ok() {
        let room = wards.len() - 1;
        shares_line(text, &format!("{word}short shares"), run, SHORT_BILL, room);
    }
}

/// One bill shared into a slice of `room` places.
fn shares_line(text: &mut String, word: &str, run: &Run, bill: u32, room: usize) {
    let mut places = vec![SHARES_FILL; room];
    let answer = shares(run, bill, &mut places);
    let written = answer.unwrap_or(0);
    match answer {
        Ok(_) => text.push_str(&format!("{word} {written}{}\n", words(&places[..written]))),
        Err(refusal) => text.push_str(&format!("{word} refused {refusal}\n")),
    }
    spoiled_line(text, &places[written..], SHARES_FILL);
}

/// #111: the report for each of these numbers of workers: rounds, calls, span.
fn rounds_lines(text: &mut String, case: &Case, workers: &[u32]) {
    for workers in workers {
        match rounds(*workers, &case.list, &case.library, &TODAY) {
            Ok(report) => text.push_str(&format!(
                "rounds {workers} {} {} {}\n",
                report.rounds, report.calls, report.span
            )),
            Err(refusal) => text.push_str(&format!("rounds {workers} refused {refusal}\n")),
        }
    }
}
