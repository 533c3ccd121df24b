//! What the coordinator prints, and the two functions that the editor's preview uses.

use crate::list::{check, decode, NOT_WHOLE, SLICE_TOO_SHORT};
use crate::run::{end, hand_run, open, start, step, Run};
use crate::run::{LIBRARY_LENGTH, TABLE_LENGTH, TODAY, WEIGHTS};

/// "another kind, or half a call: 18"
pub const BAD_CALL: u32 = 18;

/// "library.bin (4 bytes per entry, least first; a length other than 4 × C gives 8 ...)"
fn library_numbers(jobs: &[u8], library_bytes: &[u8]) -> Result<Vec<u32>, u32> {
    let list = decode(jobs)?;
    if library_bytes.len() != 4 * list.locations {
        return Err(LIBRARY_LENGTH);
    }
    let mut numbers = Vec::new();
    for bytes in library_bytes.chunks(4) {
        numbers.push(u32::from_le_bytes([bytes[0], bytes[1], bytes[2], bytes[3]]));
    }
    Ok(numbers)
}

/// Open on the two files' bytes. #105: "Coordinator and preview pass today's numbers".
pub fn open_files(jobs: &[u8], library_bytes: &[u8]) -> Result<Run, u32> {
    let library = library_numbers(jobs, library_bytes)?;
    open(jobs, &library, &TODAY)
}

/// The hand run on the two files' bytes.
pub fn hand_run_files(jobs: &[u8], library_bytes: &[u8]) -> Result<Run, u32> {
    let library = library_numbers(jobs, library_bytes)?;
    hand_run(jobs, &library, &TODAY)
}

/// "two-byte calls from standard input: 0 start, 1 step, 2 end, then the job"; "another kind: 18"
pub fn call(run: &mut Run, kind: u8, task: u32) -> Result<(), u32> {
    match kind {
        0 => start(run, task),
        1 => step(run, task),
        2 => end(run, task),
        _ => Err(BAD_CALL),
    }
}

/// "A failed open prints one line, as `refused 1`. Else one line per call, 0 or the refusal (another
/// kind, or half a call: 18); each entry on a line; last calls, weight and jobs left." On files that
/// are read.
pub fn transcript(jobs: &[u8], library_bytes: &[u8], input: &[u8]) -> String {
    let mut run = match open_files(jobs, library_bytes) {
        Ok(run) => run,
        Err(refusal) => return refused_line(refusal),
    };
    let mut text = String::new();
    for bytes in input.chunks(2) {
        let answer = match bytes {
            [kind, task] => call(&mut run, *kind, *task as u32),
            _ => Err(BAD_CALL),
        };
        let number = match answer {
            Ok(()) => 0,
            Err(refusal) => refusal,
        };
        text.push_str(&format!("{number}\n"));
    }
    for number in &run.memory {
        text.push_str(&format!("{number}\n"));
    }
    text.push_str(&format!(
        "{} {} {}\n",
        run.calls,
        run.weight,
        run.order.len()
    ));
    text
}

/// The transcript of the two files, `None` where one can't be read. #101: "The coordinator still
/// prints `refused 1` where jobs.bin can't be read." Of library.bin: "an unreadable file counts as
/// empty".
pub fn files_transcript(jobs: Option<&[u8]>, library: Option<&[u8]>, input: &[u8]) -> String {
    match jobs {
        Some(jobs) => transcript(jobs, library.unwrap_or(&[]), input),
        None => refused_line(NOT_WHOLE),
    }
}

/// "A failed open prints one line, as `refused 1`."
pub fn refused_line(refusal: u32) -> String {
    format!("refused {refusal}\n")
}

/// "Over that C boundary check still gives count(0), ... and a refusal is 128 plus its number."
pub fn preview_check(list: &[u8]) -> u32 {
    match check(list) {
        Ok(count) => count,
        Err(refusal) => 128 + refusal,
    }
}

/// "its hand run takes the library as in library.bin below and writes the final entries likewise
/// (slice too short: 17, last)"; "a successful hand run gives 0". #105: "over the C boundary the table is
/// bytes, two per number, least first".
pub fn preview_hand_run(list: &[u8], library: &[u8], table: &[u8], result: &mut [u8]) -> u32 {
    match hand_run_into(list, library, table, result) {
        Ok(()) => 0,
        Err(refusal) => 128 + refusal,
    }
}

/// The table's numbers; 21 where it hasn't two bytes for each.
fn table_numbers(table_bytes: &[u8]) -> Result<Vec<u16>, u32> {
    if table_bytes.len() != 2 * WEIGHTS {
        return Err(TABLE_LENGTH);
    }
    let mut numbers = Vec::new();
    for bytes in table_bytes.chunks(2) {
        numbers.push(u16::from_le_bytes([bytes[0], bytes[1]]));
    }
    Ok(numbers)
}

fn hand_run_into(
    list: &[u8],
    library_bytes: &[u8],
    table_bytes: &[u8],
    result: &mut [u8],
) -> Result<(), u32> {
    let library = library_numbers(list, library_bytes)?;
    let table = table_numbers(table_bytes)?;
    let run = hand_run(list, &library, &table)?;
    if result.len() < 4 * run.memory.len() {
        return Err(SLICE_TOO_SHORT);
    }
    for (i, number) in run.memory.iter().enumerate() {
        result[4 * i..4 * i + 4].copy_from_slice(&number.to_le_bytes());
    }
    Ok(())
}
