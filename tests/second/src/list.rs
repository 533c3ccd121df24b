//! "The list reader and writer are a layer below the runtime."

/// "a field is taken only when whole, else 1"
pub const NOT_WHOLE: u32 = 1;
/// "2 wrong mark"
pub const WRONG_TAG: u32 = 2;
/// "3 head number out of range"
pub const BAD_HEAD: u32 = 3;
/// "4 footprint count or line"
pub const BAD_FOOTPRINT: u32 = 4;
/// "5 sheet count or instruction"
pub const BAD_BODY: u32 = 5;
/// "Then 6, bytes left over"
pub const LEFT_OVER: u32 = 6;
/// "then 7, count(0) above 128"
pub const TOO_MANY_TASKS: u32 = 7;
/// "17 lent slice too short"
pub const SLICE_TOO_SHORT: u32 = 17;

const HEAD_TAG: [u8; 2] = [0x4A, 0x48];
const FOOTPRINT_TAG: [u8; 2] = [0x4A, 0x46];
const BODY_TAG: [u8; 2] = [0x4A, 0x42];

/// Counts of bodies that job 0 never reaches may be huge: every count stops here.
pub const COUNT_CAP: u64 = 1_000_000_000_000;

/// A job list, decoded.
#[derive(Clone, Debug, PartialEq, Eq)]
pub struct TaskList {
    /// C
    pub locations: usize,
    pub footprints: Vec<Vec<Line>>,
    pub bodies: Vec<Vec<Instruction>>,
}

/// "lines of two bytes (kind, value)"
#[derive(Clone, Copy, Debug, PartialEq, Eq)]
pub struct Line {
    pub kind: u8,
    pub value: u8,
}

/// "An instruction is one of nine forms, each with its own fields"; #104: "New code 9, fan"; #107: "New
/// code 10"; #108: codes 11 and 12.
#[derive(Clone, Copy, Debug, PartialEq, Eq)]
pub enum Instruction {
    /// "0 const: Ra := b + 256 × c"
    Const { a: u8, value: u16 },
    /// "1 add: Ra := Rb + Rc"
    Add { a: u8, b: u8, c: u8 },
    /// "2 sub: Ra := Rb − Rc"
    Sub { a: u8, b: u8, c: u8 },
    /// "3 less: Ra := 1 if Rb < Rc, else 0"
    Less { a: u8, b: u8, c: u8 },
    /// "4 load: Ra := entry number Rb"
    Load { a: u8, b: u8 },
    /// "5 store: entry number Ra := Rb"
    Store { a: u8, b: u8 },
    /// "6 skip: if Ra is 0, pass over the next b instructions"
    Skip { a: u8, b: u8 },
    /// "7 spawn: sheet a, footprint b"
    Spawn { body: u8, footprint: u8 },
    /// "8 wait: entry number Ra"
    Wait { a: u8 },
    /// #104: "fan: sheet a (a higher one), footprint b, c children (1 to 16)"
    Fan {
        body: u8,
        footprint: u8,
        children: u8,
    },
    /// #107: "New code 10: entry number Ra := entry + Rb modulo 2^32"
    Sum { a: u8, b: u8 },
    /// #108: "Code 11: Ra := Rb × Rc / 1000."
    Mul { a: u8, b: u8, c: u8 },
    /// #108: "Code 12: Ra := 1000 × Rb / Rc."
    Div { a: u8, b: u8, c: u8 },
}

/// The bytes of a list and how many of them are taken.
struct Reader<'a> {
    bytes: &'a [u8],
    taken: usize,
}

impl<'a> Reader<'a> {
    /// "a field (mark, number, line, instruction) is taken only when whole, else 1"
    fn take(&mut self, length: usize) -> Result<&'a [u8], u32> {
        if self.bytes.len() - self.taken < length {
            return Err(NOT_WHOLE);
        }
        let field = &self.bytes[self.taken..self.taken + length];
        self.taken += length;
        Ok(field)
    }

    /// "each behind a two-byte mark"; "2 wrong mark"
    fn take_tag(&mut self, tag: [u8; 2]) -> Result<(), u32> {
        let field = self.take(2)?;
        if field != tag {
            return Err(WRONG_TAG);
        }
        Ok(())
    }

    /// "counts are one byte"; the number is tested when taken.
    fn take_number(&mut self, least: u8, most: u8, refusal: u32) -> Result<usize, u32> {
        let number = self.take(1)?[0];
        if number < least || number > most {
            return Err(refusal);
        }
        Ok(number as usize)
    }

    fn nothing_left(&self) -> bool {
        self.taken == self.bytes.len()
    }
}

/// Check: "check gives count(0)".
pub fn check(bytes: &[u8]) -> Result<u32, u32> {
    let list = decode(bytes)?;
    Ok(task_count(&list, 0) as u32)
}

/// The list of these bytes, or check's refusal.
pub fn decode(bytes: &[u8]) -> Result<TaskList, u32> {
    let list = decode_records(bytes)?;
    // "then 7, count(0) above 128"
    if task_count(&list, 0) > 128 {
        return Err(TOO_MANY_TASKS);
    }
    Ok(list)
}

/// #101: "A file of no bytes shall now mean C = 1, no footprints, and one empty sheet."
pub fn empty_list() -> TaskList {
    TaskList {
        locations: 1,
        footprints: Vec::new(),
        bodies: vec![Vec::new()],
    }
}

/// "A job list is a file of records": decode, but for 7.
pub fn decode_records(bytes: &[u8]) -> Result<TaskList, u32> {
    if bytes.is_empty() {
        return Ok(empty_list());
    }
    let mut reader = Reader { bytes, taken: 0 };
    // "Head: 4A 48, then entries C (1 to 64), footprints (0 to 32), sheets (1 to 32)."
    reader.take_tag(HEAD_TAG)?;
    let locations = reader.take_number(1, 64, BAD_HEAD)?;
    let footprint_count = reader.take_number(0, 32, BAD_HEAD)?;
    let body_count = reader.take_number(1, 32, BAD_HEAD)?;
    let mut list = TaskList {
        locations,
        footprints: Vec::new(),
        bodies: Vec::new(),
    };
    for _ in 0..footprint_count {
        let footprint = take_footprint(&mut reader, locations)?;
        list.footprints.push(footprint);
    }
    for own_number in 0..body_count {
        let body = take_body(&mut reader, own_number, body_count, footprint_count)?;
        list.bodies.push(body);
    }
    // "Then 6, bytes left over"
    if !reader.nothing_left() {
        return Err(LEFT_OVER);
    }
    Ok(list)
}

/// "Each footprint: 4A 46, a count 0 to 8, then lines of two bytes (kind, value)."
fn take_footprint(reader: &mut Reader, locations: usize) -> Result<Vec<Line>, u32> {
    reader.take_tag(FOOTPRINT_TAG)?;
    let count = reader.take_number(0, 8, BAD_FOOTPRINT)?;
    let mut lines = Vec::new();
    for _ in 0..count {
        let field = reader.take(2)?;
        let line = Line {
            kind: field[0],
            value: field[1],
        };
        if !line_is_good(&line, locations) {
            return Err(BAD_FOOTPRINT);
        }
        lines.push(line);
    }
    Ok(lines)
}

/// "Kind 0 reads and 1 writes entry `value`; 2 reads and 3 writes the entry whose number is in
/// register `value`. Entry below C, register 0 to 3." #107: "line kind 4 sums a fixed entry, 5 one named
/// by a register".
fn line_is_good(line: &Line, locations: usize) -> bool {
    match line.kind {
        0 | 1 | 4 => (line.value as usize) < locations,
        2 | 3 | 5 => line.value <= 3,
        _ => false,
    }
}

/// "Each sheet: 4A 42, a count 0 to 32, then instructions of four bytes: code, a, b, c."
fn take_body(
    reader: &mut Reader,
    own_number: usize,
    body_count: usize,
    footprint_count: usize,
) -> Result<Vec<Instruction>, u32> {
    reader.take_tag(BODY_TAG)?;
    let count = reader.take_number(0, 32, BAD_BODY)?;
    let mut body = Vec::new();
    for pc in 0..count {
        let field = reader.take(4)?;
        let instruction = decode_instruction([field[0], field[1], field[2], field[3]]);
        let instruction = instruction.ok_or(BAD_BODY)?;
        if !skip_is_good(&instruction, pc, count) {
            return Err(BAD_BODY);
        }
        if !spawn_is_good(&instruction, own_number, body_count, footprint_count) {
            return Err(BAD_BODY);
        }
        body.push(instruction);
    }
    Ok(body)
}

/// "An instruction is one of nine forms, each with its own fields; fields not listed are 0."
/// "Another code, or a register above 3, is a bad instruction." #104: "A bad c gives 5."
fn decode_instruction(field: [u8; 4]) -> Option<Instruction> {
    let [code, a, b, c] = field;
    let register = |number: u8| number <= 3;
    match code {
        0 if register(a) => Some(Instruction::Const {
            a,
            value: b as u16 + 256 * c as u16,
        }),
        1 if register(a) && register(b) && register(c) => Some(Instruction::Add { a, b, c }),
        2 if register(a) && register(b) && register(c) => Some(Instruction::Sub { a, b, c }),
        3 if register(a) && register(b) && register(c) => Some(Instruction::Less { a, b, c }),
        4 if register(a) && register(b) && c == 0 => Some(Instruction::Load { a, b }),
        5 if register(a) && register(b) && c == 0 => Some(Instruction::Store { a, b }),
        6 if register(a) && c == 0 => Some(Instruction::Skip { a, b }),
        7 if c == 0 => Some(Instruction::Spawn {
            body: a,
            footprint: b,
        }),
        8 if register(a) && b == 0 && c == 0 => Some(Instruction::Wait { a }),
        9 if (1..=16).contains(&c) => Some(Instruction::Fan {
            body: a,
            footprint: b,
            children: c,
        }),
        10 if register(a) && register(b) && c == 0 => Some(Instruction::Sum { a, b }),
        11 if register(a) && register(b) && register(c) => Some(Instruction::Mul { a, b, c }),
        12 if register(a) && register(b) && register(c) => Some(Instruction::Div { a, b, c }),
        _ => None,
    }
}

/// "A skip from place i with b ends at i + 1 + b, at most the sheet's count."
fn skip_is_good(instruction: &Instruction, pc: usize, count: usize) -> bool {
    match instruction {
        Instruction::Skip { b, .. } => pc + 1 + *b as usize <= count,
        _ => true,
    }
}

/// "A spawn names a footprint of the list and a sheet of the list, higher than its own." #104, of a fan:
/// "sheet a (a higher one), footprint b".
fn spawn_is_good(
    instruction: &Instruction,
    own_number: usize,
    body_count: usize,
    footprint_count: usize,
) -> bool {
    match instruction {
        Instruction::Spawn { body, footprint }
        | Instruction::Fan {
            body, footprint, ..
        } => {
            let body = *body as usize;
            let footprint = *footprint as usize;
            footprint < footprint_count && body < body_count && body > own_number
        }
        _ => true,
    }
}

/// "count(s) is 1 plus count(a) for each spawn in sheet s, passed over or not." #104: "The fan adds
/// c × count(a) to its sheet's count". Spawns and fans go to higher bodies only, so the counts are
/// worked out from the last body down.
pub fn task_counts(list: &TaskList) -> Vec<u64> {
    let mut counts = vec![0; list.bodies.len()];
    for s in (0..list.bodies.len()).rev() {
        let mut count = 1;
        for instruction in &list.bodies[s] {
            count += block(instruction, &counts);
        }
        counts[s] = if count > COUNT_CAP { COUNT_CAP } else { count };
    }
    counts
}

/// What an instruction adds to its sheet's count: count(a) for a spawn, c × count(a) for a fan.
pub fn block(instruction: &Instruction, counts: &[u64]) -> u64 {
    match instruction {
        Instruction::Spawn { body, .. } => counts[*body as usize],
        Instruction::Fan { body, children, .. } => *children as u64 * counts[*body as usize],
        _ => 0,
    }
}

/// count(s)
pub fn task_count(list: &TaskList, s: usize) -> u64 {
    task_counts(list)[s]
}

/// "The writer gives the accepted list's own bytes." #101, of the file of no bytes: "The writer still
/// gives the marked records for it".
pub fn encode(list: &TaskList) -> Vec<u8> {
    let mut bytes = Vec::new();
    bytes.extend(HEAD_TAG);
    bytes.push(list.locations as u8);
    bytes.push(list.footprints.len() as u8);
    bytes.push(list.bodies.len() as u8);
    for footprint in &list.footprints {
        bytes.extend(FOOTPRINT_TAG);
        bytes.push(footprint.len() as u8);
        for line in footprint {
            bytes.push(line.kind);
            bytes.push(line.value);
        }
    }
    for body in &list.bodies {
        bytes.extend(BODY_TAG);
        bytes.push(body.len() as u8);
        for instruction in body {
            bytes.extend(encode_instruction(instruction));
        }
    }
    bytes
}

/// "instructions of four bytes: code, a, b, c"; "fields not listed are 0"
pub fn encode_instruction(instruction: &Instruction) -> [u8; 4] {
    match *instruction {
        Instruction::Const { a, value } => [0, a, (value % 256) as u8, (value / 256) as u8],
        Instruction::Add { a, b, c } => [1, a, b, c],
        Instruction::Sub { a, b, c } => [2, a, b, c],
        Instruction::Less { a, b, c } => [3, a, b, c],
        Instruction::Load { a, b } => [4, a, b, 0],
        Instruction::Store { a, b } => [5, a, b, 0],
        Instruction::Skip { a, b } => [6, a, b, 0],
        Instruction::Spawn { body, footprint } => [7, body, footprint, 0],
        Instruction::Wait { a } => [8, a, 0, 0],
        Instruction::Fan {
            body,
            footprint,
            children,
        } => [9, body, footprint, children],
        Instruction::Sum { a, b } => [10, a, b, 0],
        Instruction::Mul { a, b, c } => [11, a, b, c],
        Instruction::Div { a, b, c } => [12, a, b, c],
    }
}

/// "Writer: 17. Success writes the named places only; [it] gives how many places [it] wrote."
pub fn write(list: &TaskList, buffer: &mut [u8]) -> Result<usize, u32> {
    let bytes = encode(list);
    if buffer.len() < bytes.len() {
        return Err(SLICE_TOO_SHORT);
    }
    for (i, byte) in bytes.iter().enumerate() {
        buffer[i] = *byte;
    }
    Ok(bytes.len())
}
