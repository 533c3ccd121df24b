//! What is wrong with a text as a whole: counts, where skips end, what spawns and fans name, and how many jobs there are.

use crate::{Instruction, Part, Problem, Text, FAN, SKIP, SPAWN};

pub fn check(said: &Text) -> Vec<Problem> {
    let mut problems = Vec::new();
    too_many(&said.footprints, "footprint", 32, &mut problems);
    too_many(&said.sheets, "sheet", 32, &mut problems);
    for footprint in &said.footprints {
        crowded(
            footprint,
            "a footprint has at most 8 lines",
            8,
            &mut problems,
        );
    }
    for (number, sheet) in said.sheets.iter().enumerate() {
        crowded(
            sheet,
            "a sheet has at most 32 instructions",
            32,
            &mut problems,
        );
        check_sheet(said, number, sheet, &mut problems);
    }
    if said.sheets.is_empty() {
        let line = said.last_line.max(1);
        problems.push(Problem {
            line,
            message: "a list has 1 to 32 sheets, this text has none".to_string(),
        });
    }
    if problems.is_empty() {
        problems.extend(too_many_jobs(said));
    }
    problems
}

fn too_many<T>(parts: &[Part<T>], what: &str, most: usize, problems: &mut Vec<Problem>) {
    if let Some(part) = parts.get(most) {
        let message = format!("a list has at most {most} {what}s");
        problems.push(Problem {
            line: part.line,
            message,
        });
    }
}

fn crowded<T>(part: &Part<T>, message: &str, most: usize, problems: &mut Vec<Problem>) {
    if let Some((line, _)) = part.items.get(most) {
        problems.push(Problem {
            line: *line,
            message: message.to_string(),
        });
    }
}

/// "A skip from place i with b ends at i + 1 + b, at most the sheet's count. A spawn names a footprint of the list and a
/// sheet of the list, higher than its own." So does a fan.
fn check_sheet(said: &Text, number: usize, sheet: &Part<Instruction>, problems: &mut Vec<Problem>) {
    let count = sheet.items.len();
    for (place, (line, instruction)) in sheet.items.iter().enumerate() {
        let message = match instruction {
            Some([SKIP, _, length, _]) => skip_problem(place, *length as usize, count),
            Some([SPAWN, child, footprint, _]) => {
                spawn_problem(said, "spawn", number, *child as usize, *footprint as usize)
            }
            Some([FAN, child, footprint, _]) => {
                spawn_problem(said, "fan", number, *child as usize, *footprint as usize)
            }
            _ => None,
        };
        problems.extend(message.map(|message| Problem {
            line: *line,
            message,
        }));
    }
}

fn skip_problem(place: usize, length: usize, count: usize) -> Option<String> {
    let end = place + 1 + length;
    (end > count).then(|| format!("skip {length}: from place {place} it ends at {end}, and the sheet has {count} instructions"))
}

fn spawn_problem(
    said: &Text,
    form: &str,
    own: usize,
    child: usize,
    footprint: usize,
) -> Option<String> {
    if child >= said.sheets.len() {
        return Some(format!("sheet {child}: this text has no such sheet"));
    }
    if child <= own {
        return Some(format!(
            "sheet {child}: a {form} in sheet {own} names a higher sheet"
        ));
    }
    if footprint >= said.footprints.len() {
        return Some(format!(
            "footprint {footprint}: this text has no such footprint"
        ));
    }
    None
}

/// "count(s) is 1 plus count(a) for each spawn in sheet s, passed over or not. count(0) is at most 128." Request 104: "The
/// fan adds c × count(a) to its sheet's count".
fn too_many_jobs(said: &Text) -> Option<Problem> {
    let mut counts = vec![0u64; said.sheets.len()];
    for (number, sheet) in said.sheets.iter().enumerate().rev() {
        let mut count = 1u64;
        for (_, instruction) in &sheet.items {
            let (child, times) = match instruction {
                Some([SPAWN, child, _, _]) => (*child, 1),
                Some([FAN, child, _, children]) => (*child, *children as u64),
                _ => continue,
            };
            count = count.saturating_add(counts[child as usize].saturating_mul(times));
        }
        counts[number] = count;
    }
    let first = said.sheets.first()?;
    let most = *counts.first()?;
    (most > 128).then(|| {
        let how_many = if most > 1_000_000 {
            "more than a million".to_string()
        } else {
            most.to_string()
        };
        Problem {
            line: first.line,
            message: format!("the list can make {how_many} jobs, and at most 128 are allowed"),
        }
    })
}
