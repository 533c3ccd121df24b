//! What draw-rounds and draw-bill do: a picture of the lines on standard input, for the name that is their only word.

use std::io::{Read, Write};
use std::process::exit;

use crate::lines::Failure;

/// Prints what `draw` makes of the name and the lines. What is refused is told in the line that refuses it.
pub fn run(program: &str, draw: impl FnOnce(&str, &str) -> Result<String, Failure>) {
    let arguments: Vec<_> = std::env::args_os().skip(1).collect();
    let [name] = &arguments[..] else {
        eprintln!("usage: {program} NAME < LINES > OUT.svg");
        exit(2)
    };
    let mut bytes = Vec::new();
    if let Err(error) = std::io::stdin().read_to_end(&mut bytes) {
        fail(&format!("{program}: standard input: {error}"))
    }
    let text = match draw(&name.to_string_lossy(), &String::from_utf8_lossy(&bytes)) {
        Ok(text) => text,
        Err(refused @ Failure::Refused(_)) => fail(&refused.to_string()),
        Err(failure) => fail(&format!("{program}: {failure}")),
    };
    let mut out = std::io::stdout();
    if let Err(error) = out.write_all(text.as_bytes()).and_then(|()| out.flush()) {
        fail(&format!("{program}: standard output: {error}"))
    }
}

fn fail(text: &str) -> ! {
    eprintln!("{text}");
    exit(1)
}
