//! Writes the first inputs of the targets: make_seeds FOLDER EXAMPLES. From the lists of `second list-files 1 300`, the named cases,
//! random runs with their calls, and the examples. A short list is worth more to a fuzzer than a long one: most are short.

use std::fs;
use std::path::Path;

use second::cases::{library_bytes, list_case, run_case, table_bytes};
use second::named::{longest_list, named_cases};
use second::rng::Rng;
use second::TODAY;

#[allow(dead_code)]
mod parts;

use parts::Parts;

/// Most bytes of a seed.
const MOST: usize = 1200;
/// Library and result of the fitting lengths.
const FITTING: u8 = 0xFF;

fn write(folder: &Path, target: &str, number: usize, bytes: &[u8]) {
    let folder = folder.join(target);
    fs::create_dir_all(&folder).expect("a folder");
    fs::write(folder.join(format!("{number:04}")), bytes).expect("a file");
}

fn main() {
    let words: Vec<String> = std::env::args().collect();
    let [_, folder, examples] = &words[..] else {
        eprintln!("make_seeds FOLDER EXAMPLES");
        std::process::exit(2)
    };
    let folder = Path::new(folder);
    let mut cases: Vec<Parts> = Vec::new();
    let mut rng = Rng::new(1);
    for _ in 0..300 {
        let list = list_case(&mut rng);
        cases.push(Parts {
            list,
            ..Parts::default()
        });
    }
    for case in named_cases() {
        let calls = case
            .calls
            .iter()
            .flat_map(|(kind, task)| [*kind, *task as u8])
            .collect();
        let library = library_bytes(&case.library);
        cases.push(Parts {
            list: case.list,
            calls,
            library,
            ..Parts::default()
        });
    }
    for _ in 0..200 {
        let (list, library, calls) = run_case(&mut rng);
        cases.push(Parts {
            list,
            calls,
            library,
            ..Parts::default()
        });
    }
    let mut names: Vec<_> = fs::read_dir(examples)
        .expect("the examples")
        .map(|entry| entry.unwrap().path())
        .collect();
    names.sort();
    for name in names {
        let file = |file| fs::read(name.join(file)).unwrap_or_default();
        cases.push(Parts {
            list: file("jobs.bin"),
            library: file("library.bin"),
            ..Parts::default()
        });
    }
    cases.retain(|case| case.list.len() <= MOST);
    cases.push(Parts {
        list: longest_list(),
        ..Parts::default()
    });
    for (number, case) in cases.iter_mut().enumerate() {
        case.calls.truncate(MOST);
        case.table = table_bytes(&TODAY);
        case.lengths = if number % 8 == 0 {
            number as u8
        } else {
            FITTING
        };
        write(folder, "check", number, &case.list);
        write(folder, "hand_run", number, &case.input(false));
        write(folder, "calls", number, &case.input(true));
    }
    println!("{} first inputs for each target", cases.len());
}
