//! How often each answer was given, printed at the end.

use std::sync::atomic::{AtomicBool, AtomicU64, Ordering::Relaxed};

/// By refusal, acceptance at 0: of lists, and of calls.
static LISTS: [AtomicU64; 32] = [const { AtomicU64::new(0) }; 32];
static CALLS: [AtomicU64; 32] = [const { AtomicU64::new(0) }; 32];
static ASKED: AtomicBool = AtomicBool::new(false);

extern "C" {
    fn atexit(function: extern "C" fn()) -> i32;
}

fn words(name: &str, counts: &[AtomicU64]) {
    let numbers: Vec<u64> = counts.iter().map(|count| count.load(Relaxed)).collect();
    let refused = numbers
        .iter()
        .enumerate()
        .skip(1)
        .filter(|(_, count)| **count > 0);
    let refused: Vec<String> = refused
        .map(|(refusal, count)| format!("{refusal} x {count}"))
        .collect();
    if numbers.iter().sum::<u64>() > 0 {
        eprintln!(
            "ANSWERS {name}: accepted {}; refused {}",
            numbers[0],
            refused.join(", ")
        );
    }
}

extern "C" fn print() {
    words("lists", &LISTS);
    words("calls", &CALLS);
}

/// An answer over the C boundary: up to 128 it accepts, above that it is 128 plus a refusal.
pub fn list(answer: u32) {
    if !ASKED.swap(true, Relaxed) {
        unsafe { atexit(print) };
    }
    LISTS[answer.saturating_sub(128) as usize % 32].fetch_add(1, Relaxed);
}

/// 0 or a refusal.
pub fn call(answer: u32) {
    CALLS[answer as usize % 32].fetch_add(1, Relaxed);
}
