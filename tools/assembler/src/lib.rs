//! Job lists from their text form, docs/text-form.md: `assemble` gives document 01's bytes, or all that is wrong with
//! the text, each with its line. What it gives is always a list that check accepts.

mod check;
mod parse;
mod words;

/// What is wrong, and on which line, counted from 1.
#[derive(Clone, Debug, PartialEq, Eq, PartialOrd, Ord)]
pub struct Problem {
    pub line: usize,
    pub message: String,
}

/// A line of a footprint: kind and value, as in the bytes.
#[derive(Clone, Copy, Debug, PartialEq, Eq)]
pub struct Access {
    pub kind: u8,
    pub value: u8,
}

/// The four bytes of an instruction: code, a, b, c.
pub type Instruction = [u8; 4];

pub const SKIP: u8 = 6;
pub const SPAWN: u8 = 7;
pub const FAN: u8 = 9;

/// A footprint or sheet of the text: where its first line is, and its items with theirs; `None` where an item is wrong.
#[derive(Clone, Debug)]
pub struct Part<T> {
    pub line: usize,
    pub items: Vec<(usize, Option<T>)>,
}

/// What a text says. `entries` is `None` where its line is missing or wrong.
#[derive(Clone, Debug, Default)]
pub struct Text {
    pub entries: Option<u8>,
    pub footprints: Vec<Part<Access>>,
    pub sheets: Vec<Part<Instruction>>,
    pub last_line: usize,
}

/// The bytes of the list that a text says, or its problems in the order of their lines.
pub fn assemble(text: &str) -> Result<Vec<u8>, Vec<Problem>> {
    let (said, mut problems) = parse::parse(text);
    problems.extend(check::check(&said));
    if problems.is_empty() {
        return Ok(bytes(&said));
    }
    problems.sort();
    Err(problems)
}

/// "Head: 4A 48 ..; each footprint: 4A 46 ..; each sheet: 4A 42 .."
fn bytes(said: &Text) -> Vec<u8> {
    let mut bytes = vec![0x4A, 0x48, said.entries.unwrap_or(0)];
    bytes.push(said.footprints.len() as u8);
    bytes.push(said.sheets.len() as u8);
    for footprint in &said.footprints {
        bytes.extend([0x4A, 0x46, footprint.items.len() as u8]);
        for (_, access) in &footprint.items {
            bytes.extend(access.iter().flat_map(|access| [access.kind, access.value]));
        }
    }
    for sheet in &said.sheets {
        bytes.extend([0x4A, 0x42, sheet.items.len() as u8]);
        for (_, instruction) in &sheet.items {
            bytes.extend(instruction.iter().flatten());
        }
    }
    bytes
}
