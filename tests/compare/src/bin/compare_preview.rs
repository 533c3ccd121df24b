//! Compares the preview's library with the second implementation: check and hand run.
//! compare_preview [--count N] [--seed S]

use compare::options::{fail, of_command_line};
use compare::preview::{compare, describe, Functions};

#[link(name = "preview", kind = "static")]
extern "C" {
    fn preview_check(list: *const u8, list_len: usize) -> u32;
    fn preview_hand_run(
        list: *const u8,
        list_len: usize,
        library: *const u8,
        library_len: usize,
        table: *const u8,
        table_len: usize,
        result: *mut u8,
        result_len: usize,
    ) -> u32;
}

const FUNCTIONS: Functions = Functions {
    check: preview_check,
    hand_run: preview_hand_run,
};

/// The hand run needs up to 2 MB.
const STACK: usize = 8 << 20;

fn main() {
    let usage = "compare_preview [--count N] [--seed S]";
    let options = of_command_line(100_000, usage);
    if !options.others.is_empty() {
        fail(usage, 2)
    }
    let (count, seed) = (options.count, options.seed);
    let thread = std::thread::Builder::new().stack_size(STACK);
    let status = thread
        .spawn(move || report(count, seed))
        .expect("a thread")
        .join()
        .unwrap_or(1);
    std::process::exit(status)
}

/// Compares, prints, and gives the exit status.
fn report(count: usize, seed: u64) -> i32 {
    let met = compare(&FUNCTIONS, count, seed);
    if let Some(case) = met.smallest {
        print!(
            "{} of {count} lists of seed {seed} differ; the smallest case found:\n{}",
            met.different,
            describe(&FUNCTIONS, &case)
        );
        return 1;
    }
    let missing = met.missing();
    if !missing.is_empty() {
        println!("{count} lists of seed {seed}: refusals never reached: {missing:?}");
        return 1;
    }
    println!("{count} lists of seed {seed}: {}; agree", met.words());
    0
}
