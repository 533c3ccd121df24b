//! assemble IN OUT: the text form in IN to the job list in OUT. Exit status 1 where the text is wrong, and then nothing is
//! written; 2 where a file can't be read or written.

use std::process::exit;

fn main() {
    let arguments: Vec<String> = std::env::args().skip(1).collect();
    let [input, output] = &arguments[..] else {
        eprintln!("usage: assemble IN OUT");
        exit(2)
    };
    let text = match std::fs::read(input) {
        Ok(bytes) => String::from_utf8_lossy(&bytes).into_owned(),
        Err(error) => {
            eprintln!("{input}: {error}");
            exit(2)
        }
    };
    match assembler::assemble(&text) {
        Ok(bytes) => {
            if let Err(error) = std::fs::write(output, bytes) {
                eprintln!("{output}: {error}");
                exit(2)
            }
        }
        Err(problems) => {
            for problem in problems {
                eprintln!("{input}:{}: {}", problem.line, problem.message);
            }
            exit(1)
        }
    }
}
