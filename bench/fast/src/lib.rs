//! Check and hand run in plain Rust, written for speed: one pass over the bytes, no allocation, the run changed in place.
//! The benchmark measures the proved functions against these. Quoted words are document 01's and 02's.

mod check;
mod run;

use run::Run;

/// A slice that the benchmark lends.
///
/// # Safety
/// `at` is valid for `len` values and is not null.
unsafe fn lent<'a, T>(at: *const T, len: usize) -> &'a [T] {
    std::slice::from_raw_parts(at, len)
}

/// count(0), or 128 plus the refusal's number.
///
/// # Safety
/// The pointer is valid for the length beside it and is not null.
#[no_mangle]
pub unsafe extern "C" fn fast_check(list: *const u8, list_len: usize) -> u32 {
    check::check(lent(list, list_len))
}

/// The bytes of a run, for the benchmark to lend as many.
#[no_mangle]
pub extern "C" fn fast_run_size() -> usize {
    std::mem::size_of::<Run>()
}

/// Runs a list by hand in the lent run: 0, or 128 plus the refusal's number.
///
/// # Safety
/// The pointers are valid for the lengths beside them and not null; `run` for `fast_run_size` bytes, all of them set, and
/// is aligned to 8.
#[no_mangle]
pub unsafe extern "C" fn fast_hand_run(
    list: *const u8,
    list_len: usize,
    memory: *const u32,
    memory_len: usize,
    table: *const u16,
    table_len: usize,
    run: *mut Run,
) -> u32 {
    let (list, memory) = (lent(list, list_len), lent(memory, memory_len));
    run::hand_run(list, memory, lent(table, table_len), &mut *run)
}

/// The calls of a run.
///
/// # Safety
/// As for `fast_hand_run`.
#[no_mangle]
pub unsafe extern "C" fn fast_calls(run: *const Run) -> u32 {
    (*run).calls
}

/// One entry of a run.
///
/// # Safety
/// As for `fast_hand_run`; `entry` is below 64.
#[no_mangle]
pub unsafe extern "C" fn fast_entry(run: *const Run, entry: usize) -> u32 {
    (*run).memory[entry]
}
