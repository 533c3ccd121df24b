//! draw LIST LIBRARY CALLS: a picture of a publication on standard output, as SVG. The files are the coordinator's:
//! jobs.bin, library.bin and the calls of its standard input. What each call does is the second implementation's word.

use std::process::exit;

use drawing::{history, picture};

fn main() {
    let arguments: Vec<String> = std::env::args().skip(1).collect();
    let [list, library, calls] = &arguments[..] else {
        eprintln!("usage: draw LIST LIBRARY CALLS > OUT.svg");
        exit(2)
    };
    match history::follow(&file(list), &file(library), &file(calls)) {
        Ok(history) => print!("{}", picture::draw(&name_of(list), &history)),
        Err(refusal) => {
            eprintln!("{list}, {library}: refused {refusal}");
            exit(1)
        }
    }
}

fn file(path: &str) -> Vec<u8> {
    match std::fs::read(path) {
        Ok(bytes) => bytes,
        Err(error) => {
            eprintln!("{path}: {error}");
            exit(2)
        }
    }
}

/// A list is known by its folder: the last two parts of its path.
fn name_of(path: &str) -> String {
    let parts: Vec<&str> = path.split('/').filter(|part| !part.is_empty()).collect();
    parts[parts.len().saturating_sub(2)..].join("/")
}
