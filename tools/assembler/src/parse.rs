//! A text line by line: the head, footprints, sheets and their instructions. A wrong line is noted and stands as an
//! item, so that it shifts no place behind it.

use crate::words::{split, Words};
use crate::{Access, Instruction, Part, Problem, Text, FAN, SKIP, SPAWN};

/// What the text says, and what is wrong with single lines.
pub fn parse(text: &str) -> (Text, Vec<Problem>) {
    let mut said = Text::default();
    let mut problems = Vec::new();
    let mut head_seen = false;
    for (i, line) in text.lines().enumerate() {
        let number = i + 1;
        said.last_line = number;
        let words = split(line);
        if words.is_empty() {
            continue;
        }
        if let Err(message) = take_line(&mut said, &mut head_seen, number, &words) {
            problems.push(Problem {
                line: number,
                message,
            });
        }
    }
    if !head_seen {
        let line = said.last_line.max(1);
        let message = "no line `entries C` stands in this text".to_string();
        problems.push(Problem { line, message });
    }
    (said, problems)
}

fn take_line(
    said: &mut Text,
    head_seen: &mut bool,
    line: usize,
    words: &[String],
) -> Result<(), String> {
    let mut left = Words::new(words);
    match left.peek(0) {
        "entries" => {
            let twice = *head_seen;
            *head_seen = true;
            left.next();
            let entries = left.number("entries", 1, 64)?;
            if twice {
                return Err("a second line `entries`".to_string());
            }
            said.entries = Some(entries as u8);
            if !said.footprints.is_empty() || !said.sheets.is_empty() {
                return Err("`entries` stands ahead of all footprints and sheets".to_string());
            }
            left.finish()
        }
        "footprint" => take_footprint(said, line, &mut left),
        "sheet" => {
            said.sheets.push(Part {
                line,
                items: Vec::new(),
            });
            left.next();
            let most = said.sheets.len() as u64 - 1;
            take_heading(&mut left, "sheet", most)?;
            left.finish()
        }
        _ => take_placed(said, line, &mut left),
    }
}

/// The number of a footprint or sheet, which is the next one, and a colon.
fn take_heading(left: &mut Words, what: &str, next: u64) -> Result<(), String> {
    let number = left.number(what, 0, 9999)?;
    if number != next {
        return Err(format!("{what} {number}: the next {what} is {next}"));
    }
    left.expect(":")
}

fn take_footprint(said: &mut Text, line: usize, left: &mut Words) -> Result<(), String> {
    let late = !said.sheets.is_empty();
    let entries = said.entries.unwrap_or(64);
    said.footprints.push(Part {
        line,
        items: Vec::new(),
    });
    left.next();
    let next = said.footprints.len() as u64 - 1;
    take_heading(left, "footprint", next)?;
    if late {
        return Err("a footprint stands ahead of all sheets".to_string());
    }
    if left.peek(0) == "none" {
        left.next();
        return left.finish();
    }
    loop {
        let access = take_access(left, entries)?;
        if let Some(footprint) = said.footprints.last_mut() {
            footprint.items.push((line, Some(access)));
        }
        if left.peek(0).is_empty() {
            return Ok(());
        }
        left.expect(",")?;
    }
}

/// "Kind 0 reads and 1 writes entry `value`; 2 reads and 3 writes the entry whose number is in register `value`." Request
/// 107: "line kind 4 sums a fixed entry, 5 one named by a register".
fn take_access(left: &mut Words, entries: u8) -> Result<Access, String> {
    let (kind, by_register) = match left.next() {
        "read" => (0, 2),
        "write" => (1, 3),
        "sum" => (4, 5),
        "" => {
            return Err(
                "the line ends where `read`, `write`, `sum` or `none` is wanted".to_string(),
            )
        }
        word => {
            return Err(format!(
                "`{word}` stands where `read`, `write` or `sum` is wanted"
            ))
        }
    };
    left.expect("entry")?;
    if left.peek(0).starts_with('R') {
        let value = left.register()?;
        return Ok(Access {
            kind: by_register,
            value,
        });
    }
    let value = left.number("entry", 0, entries as u64 - 1)? as u8;
    Ok(Access { kind, value })
}

/// An instruction behind its place, which may be left out.
fn take_placed(said: &mut Text, line: usize, left: &mut Words) -> Result<(), String> {
    let Some(sheet) = said.sheets.last_mut() else {
        let word = left.peek(0);
        return Err(format!(
            "`{word}` is no line of this form: an instruction stands in a sheet"
        ));
    };
    let place = sheet.items.len();
    sheet.items.push((line, None));
    if left.peek(1) == ":" {
        let number = left.number("place", 0, 31)?;
        if number as usize != place {
            return Err(format!(
                "place {number}: the next place of this sheet is {place}"
            ));
        }
        left.next();
    }
    let instruction = take_instruction(left)?;
    left.finish()?;
    sheet.items[place] = (line, Some(instruction));
    Ok(())
}

/// "An instruction is one of nine forms, each with its own fields; fields not listed are 0." Request 104 adds the fan,
/// request 107 the sum, request 108 products and quotients in thousandths.
fn take_instruction(left: &mut Words) -> Result<Instruction, String> {
    match left.next() {
        "const" => {
            let target = left.register()?;
            left.expect(":=")?;
            let value = left.number("constant", 0, 65535)?;
            Ok([0, target, (value % 256) as u8, (value / 256) as u8])
        }
        "add" => take_three(left, 1, "+"),
        "sub" => take_three(left, 2, "-"),
        "less" => take_three(left, 3, "<"),
        "load" => {
            let target = left.register()?;
            left.expect(":=")?;
            left.expect("entry")?;
            Ok([4, target, left.register()?, 0])
        }
        "store" => {
            left.expect("entry")?;
            let place = left.register()?;
            left.expect(":=")?;
            Ok([5, place, left.register()?, 0])
        }
        "skip" => {
            let length = left.number("skip", 0, 31)? as u8;
            left.expect("if")?;
            let test = left.register()?;
            left.expect("=")?;
            left.expect("0")?;
            Ok([SKIP, test, length, 0])
        }
        "spawn" => {
            let (sheet, footprint) = take_target(left)?;
            Ok([SPAWN, sheet, footprint, 0])
        }
        "fan" => {
            let (sheet, footprint) = take_target(left)?;
            left.expect(",")?;
            let children = left.number("children", 1, 16)? as u8;
            left.expect("children")?;
            Ok([FAN, sheet, footprint, children])
        }
        "wait" => {
            left.expect("entry")?;
            Ok([8, left.register()?, 0, 0])
        }
        "sum" => {
            left.expect("entry")?;
            let place = left.register()?;
            left.expect("+")?;
            Ok([10, place, left.register()?, 0])
        }
        "mul" => {
            let product = take_three(left, 11, "*")?;
            left.expect("/")?;
            left.expect("1000")?;
            Ok(product)
        }
        "div" => {
            let target = left.register()?;
            left.expect(":=")?;
            left.expect("1000")?;
            left.expect("*")?;
            let first = left.register()?;
            left.expect("/")?;
            Ok([12, target, first, left.register()?])
        }
        "" => Err("the line ends where an instruction is wanted".to_string()),
        word => Err(format!("`{word}` is no instruction")),
    }
}

/// The sheet and footprint of a spawn or fan.
fn take_target(left: &mut Words) -> Result<(u8, u8), String> {
    left.expect("sheet")?;
    let sheet = left.number("sheet", 0, 31)? as u8;
    left.expect("with")?;
    left.expect("footprint")?;
    Ok((sheet, left.number("footprint", 0, 31)? as u8))
}

/// R1 := R2 + R3, with the sign between the two.
fn take_three(left: &mut Words, code: u8, sign: &str) -> Result<Instruction, String> {
    let target = left.register()?;
    left.expect(":=")?;
    let first = left.register()?;
    left.expect(sign)?;
    Ok([code, target, first, left.register()?])
}
