//! What libFuzzer calls. The target is chosen when this is compiled: `--cfg check`, `--cfg hand_run` or `--cfg calls`.

#![allow(dead_code)]

mod lent;
mod mutate;
mod parts;
mod tally;

#[cfg(calls)]
#[path = "calls.rs"]
mod target;
#[cfg(check)]
#[path = "check.rs"]
mod target;
#[cfg(hand_run)]
#[path = "hand_run.rs"]
mod target;

extern "C" {
    fn LLVMFuzzerMutate(data: *mut u8, size: usize, max_size: usize) -> usize;
}

/// The fuzzer's own changes to bytes: of flips, insertions, dictionary words, values that were compared, other inputs.
fn fuzzer_mutation(bytes: &[u8], most: usize) -> Vec<u8> {
    let most = most.max(1);
    let mut buffer = bytes[..bytes.len().min(most)].to_vec();
    let size = buffer.len();
    buffer.resize(most, 0);
    let size = unsafe { LLVMFuzzerMutate(buffer.as_mut_ptr(), size, most) };
    buffer.truncate(size);
    buffer
}

#[no_mangle]
pub unsafe extern "C" fn LLVMFuzzerTestOneInput(data: *const u8, size: usize) -> i32 {
    let input = if size == 0 {
        &[][..]
    } else {
        std::slice::from_raw_parts(data, size)
    };
    target::compare(input);
    0
}

#[no_mangle]
pub unsafe extern "C" fn LLVMFuzzerCustomMutator(
    data: *mut u8,
    size: usize,
    max_size: usize,
    seed: u32,
) -> usize {
    // while a case is made smaller, the size is above the largest that is asked for
    let given = std::slice::from_raw_parts(data, size).to_vec();
    let mut input = target::mutate(&given, max_size, seed);
    input.truncate(max_size);
    std::slice::from_raw_parts_mut(data, input.len()).copy_from_slice(&input);
    input.len()
}
