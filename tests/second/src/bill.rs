//! #114: the server's bill, shared among the wards.

use crate::coordinator::{call, hand_run_files, open_files, refused_line};
use crate::list::{task_counts, Instruction, NOT_WHOLE, SLICE_TOO_SHORT};
use crate::run::{Run, NEVER_MADE, RECORDS};

/// #114: "28 jobs left in the run"
pub const JOBS_LEFT: u32 = 28;
/// #114: "29 no ward"
pub const NO_WARD: u32 = 29;

/// A ward: the job's number, and the weight of its block.
#[derive(Clone, Copy, Debug, PartialEq, Eq)]
pub struct Ward {
    pub number: usize,
    pub weight: u64,
}

/// #114: "A ward is a job that job 0's spawn or fan made; its weight is the sum over its block of numbers"; "by
/// rising job number". Document 01 numbers the blocks of job 0's spawns and fans from 1 on, one behind the
/// other, passed over or not, and nobody else makes a block's first job: so it is a ward where it was made.
pub fn wards(run: &Run) -> Vec<Ward> {
    let mut wards = Vec::new();
    for (number, count) in blocks_of_job_0(run) {
        if run.records[number].state != NEVER_MADE {
            let block = &run.records[number..number + count];
            let weight = block.iter().map(|record| record.weight).sum();
            wards.push(Ward { number, weight });
        }
    }
    wards
}

/// The first number and the length of each block that job 0's spawns and fans have. #104: "child i starts at
/// i × count(a) within that block".
fn blocks_of_job_0(run: &Run) -> Vec<(usize, usize)> {
    let counts = task_counts(&run.list);
    let mut blocks = Vec::new();
    let mut number = 1;
    for instruction in &run.list.bodies[0] {
        let (body, children) = match *instruction {
            Instruction::Spawn { body, .. } => (body, 1),
            Instruction::Fan { body, children, .. } => (body, children),
            _ => continue,
        };
        for _ in 0..children {
            let count = counts[body as usize] as usize;
            blocks.push((number, count));
            number += count;
        }
    }
    blocks
}

/// #114: "The shares go into a lent slice of 32-bit places, by rising job number." "Success gives the number of
/// wards." "28 jobs left in the run; 29 no ward; then 17 for a short slice." Document 01: "Success writes the
/// named places only"; of a refusal: "run and buffers keep their contents".
pub fn shares(run: &Run, bill: u32, places: &mut [u32]) -> Result<usize, u32> {
    if !run.order.is_empty() {
        return Err(JOBS_LEFT);
    }
    let wards = wards(run);
    if wards.is_empty() {
        return Err(NO_WARD);
    }
    if places.len() < wards.len() {
        return Err(SLICE_TOO_SHORT);
    }
    let weights: Vec<u64> = wards.iter().map(|ward| ward.weight).collect();
    for (place, share) in places.iter_mut().zip(shared(bill, &weights)) {
        *place = share;
    }
    Ok(wards.len())
}

/// #114: the bill "is shared in proportion, rounded down; remaining pence go one each to the largest remainders,
/// the lower number first among equals". The exact share is bill × weight / the sum of the weights, which is
/// not 0.
pub fn shared(bill: u32, weights: &[u64]) -> Vec<u32> {
    let sum: u128 = weights.iter().map(|weight| *weight as u128).sum();
    let exact = |weight: &u64| bill as u128 * *weight as u128;
    let mut shares: Vec<u128> = weights.iter().map(|weight| exact(weight) / sum).collect();
    let remainders: Vec<u128> = weights.iter().map(|weight| exact(weight) % sum).collect();
    let remaining = bill as u128 - shares.iter().sum::<u128>();
    let mut places: Vec<usize> = (0..weights.len()).collect();
    // The sort keeps equals as they stand, by rising number.
    places.sort_by(|one, other| remainders[*other].cmp(&remainders[*one]));
    for place in places.into_iter().take(remaining as usize) {
        shares[place] += 1;
    }
    shares
        .into_iter()
        .map(|share| u32::try_from(share).expect("a share is at most the bill"))
        .collect()
}

/// What the program bill prints where its words aren't a bill and at most one name.
pub const USAGE: &str = "usage: bill PENCE [CALLS]\n";

/// A bill: digits only, at least one, below 2^32; leading zeros don't count.
pub fn pence(word: &[u8]) -> Option<u32> {
    if word.is_empty() {
        return None;
    }
    let mut number: u64 = 0;
    for byte in word {
        if !byte.is_ascii_digit() {
            return None;
        }
        number = 10 * number + (byte - b'0') as u64;
        if number >= 1 << 32 {
            return None;
        }
    }
    Some(number as u32)
}

/// What the program bill prints for its words, with what reads a file, `None` where it can't be read. A file of
/// calls that can't be read counts as empty, as library.bin does.
pub fn program_text(words: &[&[u8]], read: impl Fn(&[u8]) -> Option<Vec<u8>>) -> String {
    let (bill, calls) = match words {
        [bill] => (pence(bill), None),
        [bill, calls] => (pence(bill), Some(calls)),
        _ => (None, None),
    };
    let Some(bill) = bill else {
        return USAGE.to_string();
    };
    let jobs = read(b"jobs.bin");
    let library = read(b"library.bin");
    let calls = calls.map(|name| read(name).unwrap_or_default());
    files_bill(bill, jobs.as_deref(), library.as_deref(), calls.as_deref())
}

/// The same for a bill and the bytes of files: as the coordinator, `refused 1` without jobs.bin, and a
/// library.bin that counts as empty. Without calls the hand run is billed.
pub fn files_bill(
    bill: u32,
    jobs: Option<&[u8]>,
    library: Option<&[u8]>,
    calls: Option<&[u8]>,
) -> String {
    match jobs {
        Some(jobs) => bill_text(bill, jobs, library.unwrap_or(&[]), calls),
        None => refused_line(NOT_WHOLE),
    }
}

/// The same on files that are read: `refused` and the refusal, or a line for each ward, and one of the sums.
pub fn bill_text(bill: u32, jobs: &[u8], library: &[u8], calls: Option<&[u8]>) -> String {
    match billed(bill, jobs, library, calls) {
        Ok(text) => text,
        Err(refusal) => refused_line(refusal),
    }
}

fn billed(bill: u32, jobs: &[u8], library: &[u8], calls: Option<&[u8]>) -> Result<String, u32> {
    let run = match calls {
        Some(calls) => run_after(open_files(jobs, library)?, calls),
        None => hand_run_files(jobs, library)?,
    };
    let mut places = [0; RECORDS];
    let count = shares(&run, bill, &mut places)?;
    let wards = wards(&run);
    let mut text = String::new();
    for (ward, share) in wards.iter().zip(places) {
        let Ward { number, weight } = ward;
        text.push_str(&format!("job {number} weight {weight} pence {share}\n"));
    }
    let weight: u64 = wards.iter().map(|ward| ward.weight).sum();
    let pence: u64 = places[..count].iter().map(|share| *share as u64).sum();
    text.push_str(&format!("wards {count} weight {weight} pence {pence}\n"));
    Ok(text)
}

/// The run after calls of two bytes each: kind, then job. Another kind and half a call are no call.
pub fn run_after(mut run: Run, calls: &[u8]) -> Run {
    for bytes in calls.chunks_exact(2) {
        // A refused call leaves the run as it was.
        let _ = call(&mut run, bytes[0], bytes[1] as u32);
    }
    run
}
