//! Compares what the coordinator prints with the second implementation's transcripts.
//! compare_coordinator [--count N] [--seed S] [PROGRAM [ARGUMENT..]]

use std::path::PathBuf;
use std::time::Duration;

use compare::coordinator::{compare, describe, Case, Program};
use compare::options::{fail, of_command_line};

/// How long smaller cases are looked for.
const SHRINK_TIME: Duration = Duration::from_secs(20);

fn main() {
    let options = of_command_line(
        2000,
        "compare_coordinator [--count N] [--seed S] [PROGRAM [ARGUMENT..]]",
    );
    let (path, arguments) = match &options.others[..] {
        [path, arguments @ ..] => (PathBuf::from(path), arguments),
        [] => {
            let manifest = PathBuf::from(env!("CARGO_MANIFEST_DIR"));
            (manifest.join("../../target/bin/coordinator"), &[][..])
        }
    };
    let program = match Program::new(&path, arguments) {
        Ok(program) => program,
        Err(error) => fail(&format!("{}: {error}", path.display()), 2),
    };
    let status = report(&program, options.count, options.seed);
    drop(program);
    std::process::exit(status)
}

/// Compares, prints, and gives the exit status.
fn report(program: &Program, count: usize, seed: u64) -> i32 {
    let prints = |case: &Case| match program.run(case) {
        Ok((output, None)) => Ok(output),
        Ok((_, Some(wrong))) => Err(wrong),
        Err(error) => Err(error.to_string()),
    };
    let met = compare(&prints, count, seed, SHRINK_TIME);
    match met.smallest {
        Some(case) => {
            print!(
                "{} of the first {} transcripts of seed {seed} differ; the smallest case found:\n{}",
                met.different,
                met.transcripts,
                describe(&prints, &case)
            );
            1
        }
        None => {
            println!("{count} transcripts of seed {seed}: {}; agree", met.words());
            0
        }
    }
}
