//! The second implementation on the command line.
//! second check                      a list from standard input: count(0), or `refused K`; 1 too
//!                                   where it can't be read
//! second transcript JOBS LIBRARY    what the coordinator prints; calls from standard input
//! second rounds JOBS LIBRARY        what the program rounds prints
//! second bill [PENCE [CALLS]]       what the program bill prints in this folder with these words
//! second list-cases SEED N          N lines: list in hexadecimal, `ok COUNT` or `refused K`
//! second list-files SEED N DIR      N lists as files of DIR, and a line for each, as check prints it
//! second run-cases SEED N           N lines: jobs, library, input in hexadecimal, transcript
//! second rounds-files SEED N DIR    N folders of DIR with jobs.bin and library.bin; for each a line
//!                                   `# ` and its name, and what rounds prints for it
//! second bill-files SEED N DIR      N folders of DIR with jobs.bin, library.bin and files of calls; for each
//!                                   of their bills a line `# `, the folder's name and bill's words, and
//!                                   what bill prints
//! second bill-plays SEED JOBS LIBRARY DIR
//!                                   files of calls for the list, in DIR: full, junk, cut, long, empty
//! second cases-file SEED N OUT      a file of cases: the named ones, then N random ones
//! second cases-output FILE          what is to be printed for a file of cases

use std::ffi::OsStr;
use std::io::{Read, Write};
use std::os::unix::ffi::OsStrExt;

use second::bill::{bill_text, pence, program_text};
use second::case_file::{cases_output, decode_cases, encode_cases, MOST_BYTES};
use second::coordinator::open_files;
use second::list::NOT_WHOLE;
use second::rng::Rng;
use second::rounds::{files_rounds, rounds_text};
use second::{cases, named};

fn main() {
    if let Some(text) = bill_of_words() {
        let _ = std::io::stdout().write_all(text.as_bytes());
        return;
    }
    let arguments: Vec<String> = std::env::args().skip(1).collect();
    let words: Vec<&str> = arguments.iter().map(String::as_str).collect();
    let text = match words[..] {
        ["check"] => match standard_input() {
            Some(list) => answer(&list),
            None => format!("refused {NOT_WHOLE}\n"),
        },
        ["transcript", jobs, library] => {
            let jobs = std::fs::read(jobs).ok();
            let library = std::fs::read(library).ok();
            let (jobs, library) = (jobs.as_deref(), library.as_deref());
            // After a failed open standard input is not used.
            let input = match jobs.map(|jobs| open_files(jobs, library.unwrap_or(&[]))) {
                Some(Ok(_)) => standard_input().unwrap_or_default(),
                _ => Vec::new(),
            };
            second::files_transcript(jobs, library, &input)
        }
        ["rounds", jobs, library] => {
            let jobs = std::fs::read(jobs).ok();
            let library = std::fs::read(library).ok();
            files_rounds(jobs.as_deref(), library.as_deref())
        }
        ["list-cases", seed, n] => {
            let mut rng = Rng::new(number(seed));
            let mut text = String::new();
            for _ in 0..number(n) {
                text.push_str(&cases::list_case_line(&cases::list_case(&mut rng)));
                text.push('\n');
            }
            text
        }
        ["list-files", seed, n, folder] => {
            let mut rng = Rng::new(number(seed));
            let mut text = String::new();
            for i in 0..number(n) {
                let bytes = cases::list_case(&mut rng);
                let path = format!("{folder}/{i:06}.bin");
                write_file(&path, &bytes);
                text.push_str(&answer(&bytes));
            }
            text
        }
        ["run-cases", seed, n] => {
            let mut rng = Rng::new(number(seed));
            let mut text = String::new();
            for _ in 0..number(n) {
                let (jobs, library, input) = cases::run_case(&mut rng);
                text.push_str(&cases::run_case_line(&jobs, &library, &input));
                text.push('\n');
            }
            text
        }
        ["rounds-files", seed, n, folder] => {
            let mut rng = Rng::new(number(seed));
            let mut text = String::new();
            for i in 0..number(n) {
                let (jobs, library) = cases::rounds_case(&mut rng);
                let path = format!("{folder}/{i:06}");
                make_folder(&path);
                write_file(&format!("{path}/jobs.bin"), &jobs);
                write_file(&format!("{path}/library.bin"), &library);
                text.push_str(&format!("# {i:06}\n{}", rounds_text(&jobs, &library)));
            }
            text
        }
        ["bill-files", seed, n, folder] => {
            let mut rng = Rng::new(number(seed));
            let mut text = String::new();
            for i in 0..number(n) {
                let case = cases::bill_case(&mut rng);
                let path = format!("{folder}/{i:06}");
                make_folder(&path);
                write_file(&format!("{path}/jobs.bin"), &case.jobs);
                write_file(&format!("{path}/library.bin"), &case.library);
                let bill = pence(case.bill.as_bytes()).expect("a bill");
                let printed = |calls| bill_text(bill, &case.jobs, &case.library, calls);
                text.push_str(&format!("# {i:06} {}\n{}", case.bill, printed(None)));
                for (name, calls) in &case.plays {
                    write_file(&format!("{path}/{name}"), calls);
                    let lines = printed(Some(calls));
                    text.push_str(&format!("# {i:06} {} {name}\n{lines}", case.bill));
                }
            }
            text
        }
        ["bill-plays", seed, jobs, library, folder] => {
            let mut rng = Rng::new(number(seed));
            let read = |path| std::fs::read(path).unwrap_or_default();
            let Ok(fresh) = open_files(&read(jobs), &read(library)) else {
                fail(&format!("{jobs}, {library}: refused"))
            };
            for (name, calls) in [
                ("full", cases::full_play(&mut rng, &fresh)),
                ("junk", cases::junk_play(&mut rng, &fresh)),
                ("cut", cases::cut_play(&mut rng, &fresh)),
                ("long", cases::long_play(&mut rng, &fresh)),
                ("empty", Vec::new()),
            ] {
                write_file(&format!("{folder}/{name}"), &calls);
            }
            String::new()
        }
        ["cases-file", seed, n, out] => {
            let cases = named::stored_cases(number(seed), number(n) as usize);
            let bytes = encode_cases(&cases);
            if bytes.len() > MOST_BYTES {
                fail(&format!(
                    "{} bytes; a file of cases has at most {MOST_BYTES}",
                    bytes.len()
                ))
            }
            write_file(out, &bytes);
            format!("{} cases, {} bytes\n", cases.len(), bytes.len())
        }
        ["cases-output", path] => match std::fs::read(path) {
            Ok(bytes) => match decode_cases(&bytes) {
                Some(cases) => cases_output(&cases),
                None => fail(&format!("{path}: not a file of cases")),
            },
            Err(error) => fail(&format!("{path}: {error}")),
        },
        _ => usage(),
    };
    let _ = std::io::stdout().write_all(text.as_bytes());
}

/// The text where the first word is `bill`; the others may be any bytes.
fn bill_of_words() -> Option<String> {
    let arguments: Vec<_> = std::env::args_os().skip(1).collect();
    let words: Vec<&[u8]> = arguments.iter().map(|word| word.as_bytes()).collect();
    match words.split_first() {
        Some((first, words)) if *first == b"bill" => Some(program_text(words, |name| {
            std::fs::read(OsStr::from_bytes(name)).ok()
        })),
        _ => None,
    }
}

fn answer(list: &[u8]) -> String {
    match second::check(list) {
        Ok(count) => format!("{count}\n"),
        Err(refusal) => format!("refused {refusal}\n"),
    }
}

fn make_folder(path: &str) {
    if let Err(error) = std::fs::create_dir_all(path) {
        fail(&format!("{path}: {error}"))
    }
}

fn write_file(path: &str, bytes: &[u8]) {
    if let Err(error) = std::fs::write(path, bytes) {
        fail(&format!("{path}: {error}"))
    }
}

fn fail(text: &str) -> ! {
    eprintln!("{text}");
    std::process::exit(1)
}

/// None where it can't be read.
fn standard_input() -> Option<Vec<u8>> {
    let mut bytes = Vec::new();
    match std::io::stdin().read_to_end(&mut bytes) {
        Ok(_) => Some(bytes),
        Err(_) => None,
    }
}

fn number(word: &str) -> u64 {
    match word.parse() {
        Ok(number) => number,
        Err(_) => usage(),
    }
}

fn usage() -> ! {
    eprintln!(
        "second check | transcript JOBS LIBRARY | rounds JOBS LIBRARY | bill [PENCE [CALLS]] \
         | list-cases SEED N | list-files SEED N DIR | run-cases SEED N | rounds-files SEED N DIR \
         | bill-files SEED N DIR | bill-plays SEED JOBS LIBRARY DIR | cases-file SEED N OUT \
         | cases-output FILE"
    );
    std::process::exit(2)
}
