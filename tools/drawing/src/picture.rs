//! The picture: bands of calls from left to right, a row for each job, and below them what was held back and the entries.

use crate::history::{verb, Event, History};
use crate::svg::{Anchor, Svg};
use second::run::{Record, BEHIND_A_WRITER, OTHER_HOLD, READ, SUM as MODE_SUM, WRITE};

/// Calls to a band, and the sizes of its parts.
const BAND: usize = 20;
const LEFT: i64 = 96;
const PITCH: i64 = 44;
const CELL: i64 = 40;
const ROW: i64 = 38;
const CELL_HEIGHT: i64 = 32;
const WIDTH: i64 = LEFT + BAND as i64 * PITCH + 16;
const MOST_NOTES: usize = 16;

const DARK: &str = "fill=\"#222222\"";
const GREY: &str = "fill=\"#666666\"";
const BOLD: &str = "fill=\"#222222\" font-weight=\"bold\"";
const WHITE: &str = "fill=\"#ffffff\"";
const WAITING: &str = "fill=\"#f1eee4\"";
const STARTED: &str = "fill=\"#dfeaf3\"";
const HELD_LINE: &str = "stroke=\"#c77700\" stroke-width=\"2\"";

/// How a cell looks: its box, and its text.
struct Look {
    cell: &'static str,
    text: &'static str,
}

const START: Look = Look {
    cell: "fill=\"#007a5a\"",
    text: WHITE,
};
const STEP: Look = Look {
    cell: "fill=\"#8ecbf0\"",
    text: DARK,
};
const SUM: Look = Look {
    cell: "fill=\"#6f4a8e\"",
    text: WHITE,
};
const SPAWN: Look = Look {
    cell: "fill=\"#005b96\"",
    text: WHITE,
};
const END: Look = Look {
    cell: "fill=\"#4d4d4d\"",
    text: WHITE,
};
const FAULT: Look = Look {
    cell: "fill=\"#c8102e\"",
    text: WHITE,
};
const WRITER: Look = Look {
    cell: "fill=\"#ffb84d\" stroke=\"#c77700\" stroke-width=\"2\"",
    text: DARK,
};
const OTHER: Look = Look {
    cell: "fill=\"#fff2d9\" stroke=\"#c77700\" stroke-width=\"2\"",
    text: DARK,
};
const REFUSED: Look = Look {
    cell: "fill=\"#ffffff\" stroke=\"#222222\" stroke-width=\"1.5\" stroke-dasharray=\"4 3\"",
    text: DARK,
};

pub fn draw(name: &str, history: &History) -> String {
    let mut svg = Svg::new();
    let mut y = draw_title(&mut svg, name, history);
    for (band, events) in history.events.chunks(BAND).enumerate() {
        y = draw_band(&mut svg, history, band * BAND, events, y);
    }
    y = draw_legend(&mut svg, y + 6);
    y = draw_notes(&mut svg, history, y);
    y = draw_entries(&mut svg, history, y);
    svg.finish(WIDTH, y + 6)
}

fn draw_title(svg: &mut Svg, name: &str, history: &History) -> i64 {
    let run = &history.run;
    svg.text(
        16,
        30,
        18,
        Anchor::Start,
        BOLD,
        &format!("Publication {name}"),
    );
    let accepted = format!(
        "{} calls from left to right, {} accepted; weight {}; jobs left: {}",
        history.events.len(),
        run.calls,
        run.weight,
        run.order.len()
    );
    svg.text(16, 50, 13, Anchor::Start, GREY, &accepted);
    62
}

/// The jobs of a band: those that are there at some time in it, and those that its calls name.
fn rows_of(history: &History, first: usize, events: &[Event]) -> Vec<usize> {
    let there = |state: &u8| *state == 1 || *state == 2;
    let mut rows: Vec<usize> = events.iter().map(|event| event.job).collect();
    for event in events {
        rows.extend((0..event.states.len()).filter(|job| there(&event.states[*job])));
    }
    match first
        .checked_sub(1)
        .map(|before| &history.events[before].states)
    {
        Some(states) => rows.extend((0..states.len()).filter(|job| there(&states[*job]))),
        None => rows.push(0),
    }
    rows.sort();
    rows.dedup();
    rows
}

fn draw_band(svg: &mut Svg, history: &History, first: usize, events: &[Event], y: i64) -> i64 {
    let rows = rows_of(history, first, events);
    let top = y + 20;
    for (row, job) in rows.iter().enumerate() {
        draw_row(svg, history, first, events, *job, top + row as i64 * ROW);
    }
    for (i, event) in events.iter().enumerate() {
        let x = LEFT + i as i64 * PITCH;
        svg.text(
            x + CELL / 2,
            y + 14,
            10,
            Anchor::Middle,
            GREY,
            &(first + i + 1).to_string(),
        );
        let row_of = |job: usize| rows.iter().position(|other| *other == job).unwrap_or(0) as i64;
        let cell_y = top + row_of(event.job) * ROW;
        svg.open(&said(first + i, event));
        if let Some(held) = event.held {
            draw_held(svg, x, cell_y, top + row_of(held.job) * ROW, held.entry);
        }
        draw_cell(svg, x, cell_y, event);
        svg.close();
    }
    top + rows.len() as i64 * ROW + 4
}

/// A job's name, and behind its cells when it waits and when it is started.
fn draw_row(svg: &mut Svg, history: &History, first: usize, events: &[Event], job: usize, y: i64) {
    let record = history.run.records.get(job);
    let (sheet, footprint) = match record {
        Some(record) if record.state != 0 => (format!("sheet {}", record.body), modes_of(record)),
        _ => ("never made".to_string(), String::new()),
    };
    svg.open(&format!("job {job}: {sheet}{footprint}"));
    svg.text(16, y + 15, 13, Anchor::Start, BOLD, &format!("job {job}"));
    svg.text(16, y + 28, 10, Anchor::Start, GREY, &sheet);
    svg.close();
    for (i, event) in events.iter().enumerate() {
        let before = match (first + i).checked_sub(1) {
            Some(before) => history.events[before].states.get(job).copied().unwrap_or(0),
            None => u8::from(job == 0),
        };
        let after = event.states.get(job).copied().unwrap_or(0);
        let style = match before.max(if before == 0 { after } else { 0 }) {
            1 if after != 2 => WAITING,
            1 | 2 => STARTED,
            _ => continue,
        };
        svg.rect(LEFT + i as i64 * PITCH - 2, y, PITCH, CELL_HEIGHT, style);
    }
}

/// A job's modes in words, as `; reads entries 0, 1; sums entry 4`.
fn modes_of(record: &Record) -> String {
    let mut words = String::new();
    for mode in [READ, WRITE, MODE_SUM] {
        let entries: Vec<usize> = (0..record.modes.len())
            .filter(|entry| record.modes[*entry] == mode)
            .collect();
        let noun = if entries.len() == 1 {
            "entry"
        } else {
            "entries"
        };
        if !entries.is_empty() {
            words.push_str(&format!("; {} {noun} {}", verb(mode), listed(&entries)));
        }
    }
    words
}

/// The line from a call that is held back to the job that holds it.
fn draw_held(svg: &mut Svg, x: i64, cell_y: i64, holder_y: i64, entry: usize) {
    let middle = x + CELL / 2;
    let end = holder_y + 10;
    svg.line(middle, cell_y + CELL_HEIGHT / 2, middle, end, HELD_LINE);
    svg.dot(middle, end, 5, "fill=\"#c77700\"");
    svg.text(
        middle,
        holder_y + 28,
        9,
        Anchor::Middle,
        DARK,
        &format!("entry {entry}"),
    );
}

fn look_of(event: &Event) -> &'static Look {
    match event {
        Event {
            answer: BEHIND_A_WRITER,
            ..
        } => &WRITER,
        Event {
            answer: OTHER_HOLD, ..
        } => &OTHER,
        Event { answer: 1.., .. } => &REFUSED,
        Event { fault: 1.., .. } => &FAULT,
        Event { word: "start", .. } => &START,
        Event { word: "end", .. } => &END,
        Event {
            word: "spawn" | "fan",
            ..
        } => &SPAWN,
        Event { word: "sum", .. } => &SUM,
        _ => &STEP,
    }
}

fn draw_cell(svg: &mut Svg, x: i64, y: i64, event: &Event) {
    let look = look_of(event);
    let below = match event {
        Event { answer: 1.., .. } => event.answer.to_string(),
        Event { fault: 1.., .. } => format!("fault {}", event.fault),
        _ => match event.children[..] {
            [] => String::new(),
            [child] => format!("job {child}"),
            _ => format!("{} jobs", event.children.len()),
        },
    };
    svg.rect(x, y, CELL, CELL_HEIGHT, &format!("rx=\"4\" {}", look.cell));
    let middle = x + CELL / 2;
    if below.is_empty() {
        svg.text(middle, y + 20, 11, Anchor::Middle, look.text, event.word);
    } else {
        svg.text(middle, y + 14, 11, Anchor::Middle, look.text, event.word);
        svg.text(middle, y + 26, 9, Anchor::Middle, look.text, &below);
    }
}

/// A call in words.
fn said(number: usize, event: &Event) -> String {
    let call = format!("call {}: {} of job {}", number + 1, event.word, event.job);
    match event {
        Event {
            held: Some(held), ..
        } => format!(
            "{call} is held back ({}) by job {}, which {} entry {}",
            event.answer,
            held.job,
            verb(held.mode),
            held.entry
        ),
        Event { answer: 1.., .. } => format!("{call} is refused, {}", event.answer),
        Event { fault: 1.., .. } => format!("{call} faults, fault {}", event.fault),
        _ => match event.children[..] {
            [] => call,
            [child] => format!("{call} makes job {child}"),
            _ => format!("{call} makes jobs {}", listed(&event.children)),
        },
    }
}

/// Numbers with commas between them.
fn listed(numbers: &[usize]) -> String {
    let words: Vec<String> = numbers.iter().map(usize::to_string).collect();
    words.join(", ")
}

fn draw_legend(svg: &mut Svg, mut y: i64) -> i64 {
    let marks: [(&str, &str); 11] = [
        (START.cell, "start"),
        (STEP.cell, "step"),
        (SUM.cell, "sum"),
        (SPAWN.cell, "spawn"),
        (END.cell, "end"),
        (FAULT.cell, "faulting step"),
        (WRITER.cell, "behind a writer (19)"),
        (OTHER.cell, "other hold (20)"),
        (REFUSED.cell, "refused"),
        (WAITING, "waiting"),
        (STARTED, "started"),
    ];
    let mut x = 16;
    for (style, words) in marks {
        let width = 42 + words.len() as i64 * 13 / 2;
        if x + width > WIDTH {
            (x, y) = (16, y + 24);
        }
        svg.rect(x, y, 16, 16, &format!("rx=\"3\" {style}"));
        svg.text(x + 21, y + 12, 11, Anchor::Start, DARK, words);
        x += width;
    }
    y + 40
}

/// Each call that was held back, in words.
fn draw_notes(svg: &mut Svg, history: &History, mut y: i64) -> i64 {
    let notes: Vec<String> = history
        .events
        .iter()
        .enumerate()
        .filter(|(_, event)| event.held.is_some())
        .map(|(i, event)| said(i, event))
        .collect();
    for note in notes.iter().take(MOST_NOTES) {
        svg.text(16, y, 12, Anchor::Start, DARK, note);
        y += 18;
    }
    if notes.len() > MOST_NOTES {
        svg.text(
            16,
            y,
            12,
            Anchor::Start,
            DARK,
            &format!(
                "and {} more calls that are held back",
                notes.len() - MOST_NOTES
            ),
        );
        y += 18;
    }
    y
}

/// The entries that the publication changed.
fn draw_entries(svg: &mut Svg, history: &History, mut y: i64) -> i64 {
    let pairs = history.before.iter().zip(&history.run.memory).enumerate();
    let changed: Vec<String> = pairs
        .filter(|(_, (before, after))| before != after)
        .map(|(entry, (before, after))| format!("{entry}: {before} \u{2192} {after}"))
        .collect();
    if changed.is_empty() {
        svg.text(16, y, 12, Anchor::Start, DARK, "no entry is changed");
        return y + 18;
    }
    for (i, some) in changed.chunks(6).enumerate() {
        let head = if i == 0 { "entries changed:  " } else { "" };
        svg.text(
            16,
            y,
            12,
            Anchor::Start,
            DARK,
            &format!("{head}{}", some.join(",   ")),
        );
        y += 18;
    }
    y
}
