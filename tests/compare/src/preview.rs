//! The preview's two C functions beside the second implementation's.

use std::time::Duration;

use second::cases::EXAMPLE_P;
use second::cases::{alterations, damaged_list, hex, library_bytes, list_case, random_library};
use second::cases::{bad_table, fan_tree, random_list, random_operands, random_table};
use second::cases::{table_bytes, too_many_tasks};
use second::list::decode_records;
use second::named::{
    children_that_sum, constant, deepest_list, div, fan_of_strengths, lines_of_each_mode, list,
    longest_list, mul, rate_between_spawns, sum_line,
};
use second::rng::Rng;
use second::{encode, preview_check, preview_hand_run, Instruction, TODAY};

use crate::shrink::{less_entries, shrink, smaller_bytes, smaller_lists};
use crate::{has_fan, has_rate, has_sum, refusal_words};

/// preview_check(list, list_len)
pub type Check = unsafe extern "C" fn(*const u8, usize) -> u32;
/// preview_hand_run(list, list_len, library, library_len, table, table_len, result, result_len)
pub type HandRun = unsafe extern "C" fn(
    *const u8,
    usize,
    *const u8,
    usize,
    *const u8,
    usize,
    *mut u8,
    usize,
) -> u32;

/// What is compared. Both must be safe to call with any slices.
#[derive(Clone, Copy)]
pub struct Functions {
    pub check: Check,
    pub hand_run: HandRun,
}

/// Bytes that are lent, and those that stand behind them: what was cut off, mostly nothing.
#[derive(Clone, Debug, Default, PartialEq, Eq)]
pub struct Lent {
    pub bytes: Vec<u8>,
    pub behind: Vec<u8>,
}

/// What the two functions take.
#[derive(Clone, Debug, PartialEq, Eq)]
pub struct Case {
    pub list: Lent,
    pub library: Lent,
    /// The weights (#105).
    pub table: Lent,
    /// The length of the result slice.
    pub result: usize,
    /// How far the slices stand from an even place, 0 to 7.
    pub shift: usize,
}

/// What the two functions gave.
#[derive(Clone, Debug, PartialEq, Eq)]
pub struct Answers {
    pub check: u32,
    pub hand_run: u32,
    /// The result slice after the hand run.
    pub result: Vec<u8>,
    /// What else was written: names of slices.
    pub spoiled: Vec<&'static str>,
}

/// The bytes before and behind each lent slice.
const CANARIES: usize = 64;

fn canary(place: usize) -> u8 {
    (place as u8).wrapping_mul(37) ^ 0xC3
}

/// What the result slice holds before the hand run.
fn filling(place: usize) -> u8 {
    (place as u8).wrapping_mul(101) ^ 0x5A
}

/// A lent slice between canaries.
struct Guarded {
    all: Vec<u8>,
    before: Vec<u8>,
    start: usize,
    length: usize,
}

impl Guarded {
    fn new(lent: &[u8], behind: &[u8], shift: usize) -> Guarded {
        let start = CANARIES + shift;
        let mut all: Vec<u8> = (0..start).map(canary).collect();
        all.extend(lent);
        all.extend(behind);
        all.extend((0..CANARIES).map(canary));
        Guarded {
            before: all.clone(),
            all,
            start,
            length: lent.len(),
        }
    }

    fn of(lent: &Lent, shift: usize) -> Guarded {
        Guarded::new(&lent.bytes, &lent.behind, shift)
    }

    /// Also for the slices that may only be read: a function may write to them all the same.
    fn pointer(&mut self) -> *mut u8 {
        self.all[self.start..].as_mut_ptr()
    }

    /// Nothing was written, in the slice or around it.
    fn unchanged(&self) -> bool {
        self.all == self.before
    }

    /// Nothing was written around the slice.
    fn unchanged_around(&self) -> bool {
        let end = self.start + self.length;
        self.all[..self.start] == self.before[..self.start] && self.all[end..] == self.before[end..]
    }

    fn slice(&self) -> &[u8] {
        &self.all[self.start..self.start + self.length]
    }
}

/// Calls both functions, each on slices between canaries.
pub fn answers_of(functions: &Functions, case: &Case) -> Answers {
    let mut spoiled = Vec::new();
    let mut list = Guarded::of(&case.list, case.shift);
    let check = unsafe { (functions.check)(list.pointer(), list.length) };
    if !list.unchanged() {
        spoiled.push("list of check");
    }
    let mut list = Guarded::of(&case.list, case.shift);
    let mut library = Guarded::of(&case.library, case.shift);
    let mut table = Guarded::of(&case.table, case.shift);
    let fill: Vec<u8> = (0..case.result).map(filling).collect();
    let mut result = Guarded::new(&fill, &[], case.shift);
    let hand_run = unsafe {
        (functions.hand_run)(
            list.pointer(),
            list.length,
            library.pointer(),
            library.length,
            table.pointer(),
            table.length,
            result.pointer(),
            result.length,
        )
    };
    if !list.unchanged() {
        spoiled.push("list of hand run");
    }
    if !library.unchanged() {
        spoiled.push("library");
    }
    if !table.unchanged() {
        spoiled.push("table");
    }
    if !result.unchanged_around() {
        spoiled.push("beside the result");
    }
    Answers {
        check,
        hand_run,
        result: result.slice().to_vec(),
        spoiled,
    }
}

/// What the second implementation gives.
pub fn answers_of_second(case: &Case) -> Answers {
    let mut result: Vec<u8> = (0..case.result).map(filling).collect();
    let hand_run = preview_hand_run(
        &case.list.bytes,
        &case.library.bytes,
        &case.table.bytes,
        &mut result,
    );
    Answers {
        check: preview_check(&case.list.bytes),
        hand_run,
        result,
        spoiled: Vec::new(),
    }
}

// ---------------------------------------------------------------------------------------------
// Cases

fn whole(bytes: Vec<u8>) -> Lent {
    Lent {
        bytes,
        behind: Vec::new(),
    }
}

/// The bytes cut at this length; what was cut off stands behind.
fn cut(bytes: &[u8], length: usize) -> Lent {
    Lent {
        bytes: bytes[..length].to_vec(),
        behind: bytes[length..].to_vec(),
    }
}

/// The list cut at each length, then with each byte altered.
fn cut_and_altered(mut rng: Rng, bytes: Vec<u8>) -> impl Iterator<Item = Lent> {
    let altered = alterations(&mut rng, &bytes);
    (0..bytes.len())
        .map(move |length| cut(&bytes, length))
        .chain(altered.into_iter().map(whole))
}

/// P with each byte made each other value.
fn all_alterations_of_p() -> impl Iterator<Item = Lent> {
    (0..EXAMPLE_P.len()).flat_map(|place| {
        (1..=255).map(move |change| {
            let mut bytes = EXAMPLE_P.to_vec();
            bytes[place] ^= change;
            whole(bytes)
        })
    })
}

/// A list of one fan with so many children, good or bad.
fn one_fan(children: u8) -> Vec<u8> {
    let mut bytes = vec![0x4A, 0x48, 1, 1, 2, 0x4A, 0x46, 0];
    bytes.extend([0x4A, 0x42, 1, 9, 1, 0, children, 0x4A, 0x42, 0]);
    bytes
}

/// A list of one line and one instruction, good or bad: of sums and thousandths, or of the kinds and codes
/// beyond them.
fn one_line_and_instruction(line: [u8; 2], instruction: [u8; 4]) -> Vec<u8> {
    let mut bytes = vec![0x4A, 0x48, 2, 1, 1, 0x4A, 0x46, 1];
    bytes.extend(line);
    bytes.extend([0x4A, 0x42, 1]);
    bytes.extend(instruction);
    bytes
}

/// Lists without end: some for each answer, empty ones among them, then P altered in every way, then
/// some lists cut and altered at each place, the longest among them, then random ones, valid and
/// damaged.
pub fn lists(seed: u64) -> impl Iterator<Item = Lent> {
    let mut rng = Rng::new(seed);
    let mut lists = Vec::new();
    let named = [
        EXAMPLE_P.to_vec(),
        deepest_list(),
        fan_of_strengths(),
        children_that_sum(sum_line(0)),
        lines_of_each_mode(),
        rate_between_spawns(div(3, 2, 1)),
    ];
    for i in 0..300 {
        lists.push(whole(match i % 15 {
            0 => named[rng.below(named.len())].clone(),
            refusal @ 1..=7 => damaged_list(&mut rng, refusal),
            8 => Vec::new(),
            9 => one_fan(rng.pick(&[0, 1, 16, 17, 255])),
            10 => one_line_and_instruction(
                rng.pick(&[[4, 1], [4, 2], [5, 3], [5, 4], [6, 0]]),
                rng.pick(&[[10, 0, 0, 0], [10, 3, 3, 0], [10, 0, 4, 0]]),
            ),
            11 => one_line_and_instruction(
                [5, 3],
                rng.pick(&[
                    [11, 3, 3, 3],
                    [11, 4, 0, 0],
                    [12, 0, 3, 3],
                    [12, 0, 0, 4],
                    [13, 0, 0, 0],
                ]),
            ),
            _ => encode(&random_list(&mut rng)),
        }));
    }
    let mut bases = vec![
        EXAMPLE_P.to_vec(),
        deepest_list(),
        longest_list(),
        fan_of_strengths(),
        children_that_sum(sum_line(0)),
        rate_between_spawns(div(3, 2, 1)),
        encode(&fan_tree(15)),
        encode(&too_many_tasks(&mut rng)),
    ];
    while bases.len() < 24 {
        let bytes = encode(&random_list(&mut rng));
        if bytes.len() < 400 {
            bases.push(bytes);
        }
    }
    let mut own = rng.clone();
    let at_each_place = bases.into_iter().flat_map(move |bytes| {
        let seed = own.next_u64();
        cut_and_altered(Rng::new(seed), bytes)
    });
    let random = std::iter::repeat_with(move || {
        if rng.percent(10) {
            let bytes = encode(&random_list(&mut rng));
            cut(&bytes, rng.below(bytes.len()))
        } else {
            whole(list_case(&mut rng))
        }
    });
    lists
        .into_iter()
        .chain(all_alterations_of_p())
        .chain(at_each_place)
        .chain(random)
}

/// #105: today's numbers, others that are good, some out of range, or a wrong length.
fn table_of(rng: &mut Rng) -> Lent {
    let mut bytes = match rng.below(10) {
        0..=4 => table_bytes(&TODAY),
        5..=8 => table_bytes(&random_table(rng)),
        _ => table_bytes(&bad_table(rng)),
    };
    if !rng.percent(10) {
        return whole(bytes);
    }
    let fitting = bytes.len();
    // A longer table goes on with good numbers, or not.
    let more = rng.pick(&[0, 1]);
    bytes.extend([1, more].repeat(8));
    let length = match rng.below(6) {
        0 => rng.below(bytes.len() + 1),
        1 => fitting / 2,
        2 => rng.pick(&[0, 1, 2]),
        3 => fitting + rng.pick(&[1, 2, 6]),
        // Those before the last requests have 24 and 26 bytes.
        _ => fitting - rng.pick(&[1, 2, 4, 6]),
    };
    let mut table = cut(&bytes, length);
    if rng.percent(50) {
        table.behind.clear();
    }
    table
}

/// A library, a table and a result slice for the list: mostly those that fit.
fn case_of(rng: &mut Rng, list: Lent) -> Case {
    let entries = match decode_records(&list.bytes) {
        Ok(list) => list.locations,
        Err(_) => list.bytes.get(2).map_or(1, |byte| *byte as usize % 65),
    };
    let full = library_bytes(&random_library(rng, entries + 3));
    let fitting = 4 * entries;
    let length = match rng.below(20) {
        0 => rng.below(fitting + 1),
        1 => fitting.saturating_sub(1),
        2 => fitting + rng.between(1, 12),
        3 => rng.pick(&[0, 1, 4, 256]).min(full.len()),
        _ => fitting,
    };
    let mut library = cut(&full, length);
    if rng.percent(50) {
        library.behind.clear();
    }
    let result = match rng.below(20) {
        0 => rng.below(fitting + 1),
        1 => fitting.saturating_sub(1),
        2 => fitting.saturating_sub(4),
        3 => 0,
        4 => fitting + 1,
        5 => fitting + rng.below(60),
        6 => 256,
        _ => fitting,
    };
    Case {
        list,
        library,
        table: table_of(rng),
        result,
        shift: rng.below(8),
    }
}

/// P under tables of each length up to 36 bytes, and under such with each number in turn at the limits and
/// beyond them; with a library and a result slice that fit, then with one that doesn't.
fn table_cases() -> Vec<Case> {
    let mut tables: Vec<Lent> = (0..=36)
        .map(|length| cut(&[1, 0].repeat(18), length))
        .collect();
    for place in 0..TODAY.len() {
        for number in [0, 1, 1000, 1001, 65535] {
            let mut table = TODAY;
            table[place] = number;
            tables.push(whole(table_bytes(&table)));
        }
    }
    let mut cases = Vec::new();
    for (library, result) in [(8, 8), (7, 8), (8, 7)] {
        for (shift, table) in tables.iter().enumerate() {
            cases.push(Case {
                list: whole(EXAMPLE_P.to_vec()),
                library: cut(&library_bytes(&[5, 7]), library),
                table: table.clone(),
                result,
                shift: shift % 8,
            });
        }
    }
    cases
}

/// #108: R1 and R2 are the entries 0 and 1; what this leaves in R3 is stored to entry 0, and entry 2 is then
/// made 2, which it is only where there was no fault.
fn rate_in_entries(instruction: Instruction) -> Vec<u8> {
    list(
        3,
        &[],
        &[&[
            Instruction::Load { a: 1, b: 0 },
            constant(2, 1),
            Instruction::Load { a: 2, b: 2 },
            instruction,
            Instruction::Store { a: 0, b: 3 },
            constant(2, 2),
            Instruction::Store { a: 2, b: 2 },
        ]],
    )
}

/// #108: a product and a quotient of two entries, in turn: halves, results next to fault 4, zero divisors,
/// and numbers of all sizes.
fn rate_cases(rng: &mut Rng) -> Vec<Case> {
    let lists = [mul(3, 1, 2), div(3, 1, 2)].map(rate_in_entries);
    let mut cases = Vec::new();
    for i in 0..400 {
        let (b, c) = random_operands(rng, i % 2 == 1);
        cases.push(Case {
            list: whole(lists[i % 2].clone()),
            library: whole(library_bytes(&[b, c, 7])),
            table: whole(table_bytes(&TODAY)),
            result: 12,
            shift: i % 8,
        });
    }
    cases
}

/// Cases without end: those of tables and of rates, then one for each of the lists.
fn cases(seed: u64) -> impl Iterator<Item = Case> {
    let mut rng = Rng::new(!seed);
    let first = [table_cases(), rate_cases(&mut rng)].concat();
    let of_lists = lists(seed).map(move |list| case_of(&mut rng, list));
    first.into_iter().chain(of_lists)
}

// ---------------------------------------------------------------------------------------------
// The comparison

/// Refusals are below this.
const REFUSALS: usize = 23;

/// How often each answer was met, acceptance at 0.
#[derive(Clone, Debug, Default)]
pub struct Met {
    pub lists: usize,
    /// Lists of no bytes that the hand run accepts.
    pub empty: u64,
    /// Lists with a fan, with a sum, and with a product or quotient in thousandths, that the hand run
    /// accepts.
    pub fans: u64,
    pub sums: u64,
    pub rates: u64,
    /// Hand runs accepted with another table than today's numbers.
    pub own_tables: u64,
    pub check: [u64; REFUSALS],
    pub hand_run: [u64; REFUSALS],
    /// On how many the two differ, and the smallest case found.
    pub different: usize,
    pub smallest: Option<Case>,
}

impl Met {
    fn count(&mut self, case: &Case, answers: &Answers) {
        self.lists += 1;
        self.empty += (case.list.bytes.is_empty() && answers.hand_run == 0) as u64;
        self.fans += (answers.hand_run == 0 && has_fan(&case.list.bytes)) as u64;
        self.sums += (answers.hand_run == 0 && has_sum(&case.list.bytes)) as u64;
        self.rates += (answers.hand_run == 0 && has_rate(&case.list.bytes)) as u64;
        let own_table = case.table.bytes != table_bytes(&TODAY);
        self.own_tables += (answers.hand_run == 0 && own_table) as u64;
        self.check[answers.check.saturating_sub(128) as usize] += 1;
        self.hand_run[answers.hand_run.saturating_sub(128) as usize] += 1;
    }

    /// The refusals that were not met: 1 to 7 by check and hand run, 8, 17, 21 and 22 by the hand run.
    pub fn missing(&self) -> Vec<usize> {
        (1..REFUSALS)
            .filter(|refusal| match refusal {
                1..=7 => self.check[*refusal] == 0 || self.hand_run[*refusal] == 0,
                8 | 17 | 21 | 22 => self.hand_run[*refusal] == 0,
                _ => false,
            })
            .collect()
    }

    pub fn words(&self) -> String {
        format!(
            "check accepts {}, refuses {}; the hand run accepts {} ({} of no bytes, {} with fans, {} \
             with sums, {} with thousandths, {} with other weights than today's), refuses {}",
            self.check[0],
            refusal_words_of(&self.check),
            self.hand_run[0],
            self.empty,
            self.fans,
            self.sums,
            self.rates,
            self.own_tables,
            refusal_words_of(&self.hand_run)
        )
    }
}

/// Acceptance is no refusal.
fn refusal_words_of(counts: &[u64; REFUSALS]) -> String {
    let mut counts = *counts;
    counts[0] = 0;
    refusal_words(&counts)
}

/// Compares `count` cases.
pub fn compare(functions: &Functions, count: usize, seed: u64) -> Met {
    let mut met = Met::default();
    for case in cases(seed).take(count) {
        let expected = answers_of_second(&case);
        met.count(&case, &expected);
        if answers_of(functions, &case) != expected {
            met.different += 1;
            let smallest = met.smallest.as_ref();
            if smallest.is_none_or(|other| size(&case) < size(other)) {
                met.smallest = Some(case);
            }
        }
    }
    let differ = |case: &Case| answers_of(functions, case) != answers_of_second(case);
    let smallest = met.smallest.take();
    met.smallest = smallest.map(|case| shrink(case, SHRINK_TIME, smaller_cases, differ));
    met
}

/// How long smaller cases are looked for.
const SHRINK_TIME: Duration = Duration::from_secs(20);

fn size(case: &Case) -> usize {
    case.list.bytes.len() + case.library.bytes.len() + case.result
}

/// Cases with less behind the slices, a simpler table, a smaller list, a smaller library or a shorter
/// result.
fn smaller_cases(case: &Case) -> impl Iterator<Item = Case> {
    let mut plain = Vec::new();
    if !case.list.behind.is_empty() {
        let mut smaller = case.clone();
        smaller.list.behind.clear();
        plain.push(smaller);
    }
    if !case.library.behind.is_empty() {
        let mut smaller = case.clone();
        smaller.library.behind.clear();
        plain.push(smaller);
    }
    if !case.table.behind.is_empty() {
        let mut smaller = case.clone();
        smaller.table.behind.clear();
        plain.push(smaller);
    }
    for table in simpler_tables(&case.table.bytes) {
        let mut smaller = case.clone();
        smaller.table.bytes = table;
        plain.push(smaller);
    }
    if case.shift > 0 {
        plain.push(Case {
            shift: 0,
            ..case.clone()
        });
    }
    if let Some(list) = less_entries(&case.list.bytes) {
        let mut smaller = case.clone();
        smaller.list.bytes = list;
        let length = smaller.library.bytes.len().saturating_sub(4);
        smaller.library.bytes.truncate(length);
        plain.push(smaller.clone());
        smaller.result = smaller.result.saturating_sub(4);
        plain.push(smaller);
    }
    let (lists, libraries, results) = (case.clone(), case.clone(), case.clone());
    plain
        .into_iter()
        .chain(smaller_lists(&case.list.bytes).map(move |bytes| {
            let mut smaller = lists.clone();
            smaller.list.bytes = bytes;
            smaller
        }))
        .chain(smaller_bytes(&case.library.bytes, 1).map(move |bytes| {
            let mut smaller = libraries.clone();
            smaller.library.bytes = bytes;
            smaller
        }))
        .chain((0..case.result).map(move |result| Case {
            result,
            ..results.clone()
        }))
}

/// Today's numbers; else, where the length is theirs, one more of them, or a shorter table.
fn simpler_tables(bytes: &[u8]) -> Vec<Vec<u8>> {
    let today = table_bytes(&TODAY);
    if bytes == today {
        return Vec::new();
    }
    let mut tables = vec![today.clone()];
    if bytes.len() != today.len() {
        for length in [0, bytes.len() / 2, bytes.len().saturating_sub(1)] {
            if length < bytes.len() {
                tables.push(bytes[..length].to_vec());
            }
        }
        return tables;
    }
    for place in (0..today.len()).step_by(2) {
        let mut table = bytes.to_vec();
        table[place..place + 2].copy_from_slice(&today[place..place + 2]);
        if table != bytes {
            tables.push(table);
        }
    }
    tables
}

/// The case and both answers, in lines.
pub fn describe(functions: &Functions, case: &Case) -> String {
    let ours = answers_of(functions, case);
    let second = answers_of_second(case);
    let mut text = format!("list {}\n", hex(&case.list.bytes));
    if !case.list.behind.is_empty() {
        text.push_str(&format!("behind it {}\n", hex(&case.list.behind)));
    }
    text.push_str(&format!("library {}\n", hex(&case.library.bytes)));
    if !case.library.behind.is_empty() {
        text.push_str(&format!("behind it {}\n", hex(&case.library.behind)));
    }
    text.push_str(&format!("table {}\n", hex(&case.table.bytes)));
    if !case.table.behind.is_empty() {
        text.push_str(&format!("behind it {}\n", hex(&case.table.behind)));
    }
    text.push_str(&format!(
        "result slice of {} bytes, slices {} bytes from an even place\n",
        case.result, case.shift
    ));
    for (name, answers) in [("preview", &ours), ("second", &second)] {
        text.push_str(&format!(
            "{name}: check {}, hand run {}, result {}",
            answers.check,
            answers.hand_run,
            hex(&answers.result)
        ));
        if !answers.spoiled.is_empty() {
            text.push_str(&format!(", spoiled: {}", answers.spoiled.join(", ")));
        }
        text.push('\n');
    }
    text
}

#[cfg(test)]
mod tests {
    use super::*;
    use second::cases::{sensible_call, Strategy};
    use second::coordinator::call;
    use second::run::{instruction_at, product, quotient};

    unsafe fn slice<'a>(pointer: *const u8, length: usize) -> &'a [u8] {
        std::slice::from_raw_parts(pointer, length)
    }

    unsafe extern "C" fn check(list: *const u8, list_len: usize) -> u32 {
        preview_check(slice(list, list_len))
    }

    unsafe extern "C" fn hand_run(
        list: *const u8,
        list_len: usize,
        library: *const u8,
        library_len: usize,
        table: *const u8,
        table_len: usize,
        result: *mut u8,
        result_len: usize,
    ) -> u32 {
        let result = std::slice::from_raw_parts_mut(result, result_len);
        let (list, library) = (slice(list, list_len), slice(library, library_len));
        preview_hand_run(list, library, slice(table, table_len), result)
    }

    /// Looks at the table before the library.
    unsafe extern "C" fn table_first(
        list: *const u8,
        list_len: usize,
        library: *const u8,
        library_len: usize,
        table: *const u8,
        table_len: usize,
        result: *mut u8,
        result_len: usize,
    ) -> u32 {
        let answer = hand_run(
            list,
            list_len,
            library,
            library_len,
            table,
            table_len,
            result,
            result_len,
        );
        if answer == 136 && table_len != 30 {
            return 149;
        }
        answer
    }

    /// Takes one byte more than it was lent, where the list is cut.
    unsafe extern "C" fn check_reads_on(list: *const u8, list_len: usize) -> u32 {
        match check(list, list_len) {
            129 if check(list, list_len + 1) <= 128 => check(list, list_len + 1),
            answer => answer,
        }
    }

    unsafe extern "C" fn check_refuses_no_bytes(list: *const u8, list_len: usize) -> u32 {
        match list_len {
            0 => 129,
            _ => check(list, list_len),
        }
    }

    unsafe extern "C" fn check_accepts_129_jobs(list: *const u8, list_len: usize) -> u32 {
        match check(list, list_len) {
            135 => 128,
            answer => answer,
        }
    }

    unsafe extern "C" fn check_refuses_fans(list: *const u8, list_len: usize) -> u32 {
        if has_fan(slice(list, list_len)) {
            return 133;
        }
        check(list, list_len)
    }

    /// A fan of 17 children is taken for one of 16.
    unsafe extern "C" fn check_accepts_17_children(list: *const u8, list_len: usize) -> u32 {
        let mut bytes = slice(list, list_len).to_vec();
        for place in 3..bytes.len() {
            if bytes[place] == 17 && bytes[place - 3] == 9 {
                bytes[place] = 16;
            }
        }
        preview_check(&bytes)
    }

    unsafe extern "C" fn check_refuses_sums(list: *const u8, list_len: usize) -> u32 {
        if has_sum(slice(list, list_len)) {
            return 133;
        }
        check(list, list_len)
    }

    unsafe extern "C" fn check_refuses_lines_that_sum(list: *const u8, list_len: usize) -> u32 {
        match second::decode(slice(list, list_len)) {
            Ok(list) if list.footprints.iter().flatten().any(|line| line.kind > 3) => 132,
            _ => check(list, list_len),
        }
    }

    /// A bad register of a sum is taken for R3.
    unsafe extern "C" fn check_accepts_bad_sums(list: *const u8, list_len: usize) -> u32 {
        let mut bytes = slice(list, list_len).to_vec();
        for place in 2..bytes.len() {
            if bytes[place] == 4 && bytes[place - 2] == 10 {
                bytes[place] = 3;
            }
        }
        preview_check(&bytes)
    }

    /// A sum stores: what code 10 does is what code 5 would do.
    unsafe extern "C" fn sums_store(
        list: *const u8,
        list_len: usize,
        library: *const u8,
        library_len: usize,
        table: *const u8,
        table_len: usize,
        result: *mut u8,
        result_len: usize,
    ) -> u32 {
        let mut bytes = slice(list, list_len).to_vec();
        if let Ok(mut list) = second::decode(&bytes) {
            for instruction in list.bodies.iter_mut().flatten() {
                if let Instruction::Sum { a, b } = *instruction {
                    *instruction = Instruction::Store { a, b };
                }
            }
            if list_len > 0 {
                bytes = encode(&list);
            }
        }
        hand_run(
            bytes.as_ptr(),
            list_len,
            library,
            library_len,
            table,
            table_len,
            result,
            result_len,
        )
    }

    unsafe extern "C" fn check_refuses_rates(list: *const u8, list_len: usize) -> u32 {
        if has_rate(slice(list, list_len)) {
            return 133;
        }
        check(list, list_len)
    }

    /// A bad last register of a quotient is taken for R3.
    unsafe extern "C" fn check_accepts_bad_quotients(list: *const u8, list_len: usize) -> u32 {
        let mut bytes = slice(list, list_len).to_vec();
        for place in 3..bytes.len() {
            if bytes[place - 3..=place] == [12, 0, 0, 4] {
                bytes[place] = 3;
            }
        }
        preview_check(&bytes)
    }

    /// What a code makes of Rb and Rc: a result, or a fault.
    type Rate = fn(u32, u32) -> Result<u32, u8>;

    /// The entries after a hand run in which products and quotients give these.
    fn entries_with_rates(mut run: second::Run, product: Rate, quotient: Rate) -> Vec<u8> {
        let mut rng = Rng::new(0);
        // The front job's only possible call is the hand run's next.
        while let Some((kind, job)) = sensible_call(&mut rng, Strategy::Front, &run, 0) {
            let before = run.records[job as usize].clone();
            let rate = match kind {
                1 => match instruction_at(&run, job as usize) {
                    Instruction::Mul { a, b, c } => Some((product, a, b, c)),
                    Instruction::Div { a, b, c } => Some((quotient, a, b, c)),
                    _ => None,
                },
                _ => None,
            };
            call(&mut run, kind, job).expect("a sensible call");
            let Some((rate, a, b, c)) = rate else {
                continue;
            };
            let registers = before.registers;
            let record = &mut run.records[job as usize];
            (record.pc, record.registers) = (before.pc, registers);
            match rate(registers[b as usize], registers[c as usize]) {
                Ok(result) => {
                    record.registers[a as usize] = result;
                    (record.pc, record.fault) = (before.pc + 1, 0);
                }
                Err(fault) => record.fault = fault,
            }
        }
        library_bytes(&run.memory)
    }

    /// Hand runs with wrong products or quotients.
    macro_rules! wrong_rates {
        ($name:ident, $product:expr, $quotient:expr) => {
            unsafe extern "C" fn $name(
                list: *const u8,
                list_len: usize,
                library: *const u8,
                library_len: usize,
                table: *const u8,
                table_len: usize,
                result: *mut u8,
                result_len: usize,
            ) -> u32 {
                let answer = hand_run(
                    list,
                    list_len,
                    library,
                    library_len,
                    table,
                    table_len,
                    result,
                    result_len,
                );
                if answer == 0 {
                    let (list, library) = (slice(list, list_len), slice(library, library_len));
                    let run = second::coordinator::open_files(list, library).unwrap();
                    let entries = entries_with_rates(run, $product, $quotient);
                    result.copy_from(entries.as_ptr(), entries.len());
                }
                answer
            }
        };
    }

    fn whole_number(n: u128, fault: bool) -> Result<u32, u8> {
        if fault {
            Err(4)
        } else {
            Ok(n as u32)
        }
    }

    wrong_rates!(right_rates, product, quotient);
    wrong_rates!(
        products_rounded_down,
        |b, c| {
            let n = b as u128 * c as u128 / 1000;
            whole_number(n, n >> 32 != 0)
        },
        quotient
    );
    wrong_rates!(quotients_with_halves_down, product, |b, c| {
        let (n, d) = (1000 * b as u128, c.max(1) as u128);
        match quotient(b, c) {
            Ok(result) if 2 * n + d == 2 * d * result as u128 => Ok(result - 1),
            answer => answer,
        }
    });
    wrong_rates!(
        fault_4_by_the_exact_product,
        |b, c| {
            let n = b as u128 * c as u128;
            whole_number((n + 500) / 1000, n > 1000 * u32::MAX as u128)
        },
        quotient
    );
    wrong_rates!(
        products_that_wrap,
        |b, c| {
            let n = b as u128 * c as u128;
            whole_number((n + 500) / 1000, n / 1000 > u32::MAX as u128)
        },
        quotient
    );
    wrong_rates!(
        products_of_64_bits,
        |b, c| {
            let n = (2 * b as u128 * c as u128 + 1000) as u64 as u128 / 2000;
            whole_number(n, n >> 32 != 0)
        },
        quotient
    );
    wrong_rates!(quotients_of_zeros, product, |b, c| if (b, c) == (0, 0) {
        Ok(0)
    } else {
        quotient(b, c)
    });
    wrong_rates!(
        zeros_as_fault_5,
        |b, c| if c == 0 { Err(5) } else { product(b, c) },
        quotient
    );

    /// A table of 13 numbers is taken, with today's numbers for thousandths.
    unsafe extern "C" fn takes_13_numbers(
        list: *const u8,
        list_len: usize,
        library: *const u8,
        library_len: usize,
        table: *const u8,
        table_len: usize,
        result: *mut u8,
        result_len: usize,
    ) -> u32 {
        let mut numbers = slice(table, table_len).to_vec();
        if table_len == 26 {
            numbers.extend([1, 0, 1, 0]);
        }
        hand_run(
            list,
            list_len,
            library,
            library_len,
            numbers.as_ptr(),
            numbers.len(),
            result,
            result_len,
        )
    }

    /// A table of 12 numbers is taken, with today's numbers for the sum and for thousandths.
    unsafe extern "C" fn takes_12_numbers(
        list: *const u8,
        list_len: usize,
        library: *const u8,
        library_len: usize,
        table: *const u8,
        table_len: usize,
        result: *mut u8,
        result_len: usize,
    ) -> u32 {
        let mut numbers = slice(table, table_len).to_vec();
        if table_len == 24 {
            numbers.extend([4, 0, 1, 0, 1, 0]);
        }
        hand_run(
            list,
            list_len,
            library,
            library_len,
            numbers.as_ptr(),
            numbers.len(),
            result,
            result_len,
        )
    }

    unsafe extern "C" fn check_writes(list: *const u8, list_len: usize) -> u32 {
        if list_len > 30 {
            *(list as *mut u8).add(20) ^= 1;
        }
        check(list, list_len)
    }

    /// Hand runs that do something wrong behind the right one.
    macro_rules! wrong_hand_run {
        ($name:ident, |$list:ident, $library:ident, $table:ident, $result:ident, $length:ident, $answer:ident| $wrong:expr) => {
            unsafe extern "C" fn $name(
                $list: *const u8,
                list_len: usize,
                $library: *const u8,
                library_len: usize,
                $table: *const u8,
                table_len: usize,
                $result: *mut u8,
                $length: usize,
            ) -> u32 {
                let $answer = hand_run(
                    $list,
                    list_len,
                    $library,
                    library_len,
                    $table,
                    table_len,
                    $result,
                    $length,
                );
                $wrong
            }
        };
    }

    wrong_hand_run!(writes_behind, |_list,
                                    _library,
                                    _table,
                                    result,
                                    length,
                                    answer| {
        if answer == 0 {
            *result.add(length) = 0;
        }
        answer
    });
    wrong_hand_run!(writes_before, |_list,
                                    library,
                                    _table,
                                    _result,
                                    _length,
                                    answer| {
        *(library as *mut u8).sub(1) = 1;
        answer
    });
    wrong_hand_run!(writes_more, |list,
                                  _library,
                                  _table,
                                  result,
                                  length,
                                  answer| {
        let named = 4 * *list.add(2) as usize;
        if answer == 0 && length > named {
            *result.add(named) = 1;
        }
        answer
    });
    wrong_hand_run!(
        writes_on_refusal,
        |_list, _library, _table, result, length, answer| {
            if answer == 145 && length > 0 {
                *result = 1;
            }
            answer
        }
    );
    wrong_hand_run!(wrong_entry, |_list,
                                  _library,
                                  _table,
                                  result,
                                  _length,
                                  answer| {
        if answer == 0 && *result == 9 {
            *result = 8;
        }
        answer
    });
    wrong_hand_run!(no_17, |_list,
                            _library,
                            _table,
                            _result,
                            _length,
                            answer| {
        if answer == 145 {
            0
        } else {
            answer
        }
    });
    wrong_hand_run!(refuses_1000, |_list,
                                   _library,
                                   table,
                                   _result,
                                   _length,
                                   answer| {
        if answer == 0 && *table.add(28) == 0xE8 && *table.add(29) == 3 {
            150
        } else {
            answer
        }
    });
    /// Tests all numbers but the last.
    unsafe fn first_numbers_are_good(table: *const u8) -> bool {
        let mut numbers = slice(table, 28).chunks(2);
        numbers.all(|bytes| (1..=1000).contains(&u16::from_le_bytes([bytes[0], bytes[1]])))
    }
    wrong_hand_run!(
        no_22_in_the_last,
        |_list, _library, table, _result, _length, answer| {
            if answer == 150 && first_numbers_are_good(table) {
                0
            } else {
                answer
            }
        }
    );
    wrong_hand_run!(
        short_before_table,
        |_list, _library, _table, _result, length, answer| {
            if answer == 150 && length < 8 {
                145
            } else {
                answer
            }
        }
    );
    wrong_hand_run!(
        writes_in_the_table,
        |_list, _library, table, _result, _length, answer| {
            *(table as *mut u8) ^= 1;
            answer
        }
    );

    #[test]
    fn the_second_implementation_agrees_with_itself() {
        let met = compare(&Functions { check, hand_run }, 3000, 1);
        assert_eq!((met.lists, met.different), (3000, 0));
        assert!(met.missing().is_empty(), "{}", met.words());
        assert!(met.check[0] > 100 && met.hand_run[0] > 100 && met.empty > 5);
        assert!(met.hand_run[21] > 30 && met.hand_run[22] > 30);
        assert!(met.fans > 20 && met.own_tables > 40, "{}", met.words());
        assert!(met.sums > 20 && met.rates > 405, "{}", met.words());
        // The stand-in for wrong rates is right with the right ones.
        let hand_run = right_rates;
        let met = compare(&Functions { check, hand_run }, 2000, 1);
        assert_eq!((met.lists, met.different), (2000, 0));
    }

    #[test]
    fn mismatches_are_found_and_made_small() {
        let with_check = |check: Check| Functions { check, hand_run };
        let with_hand_run = |hand_run: HandRun| Functions { check, hand_run };
        for (functions, most, words) in [
            (with_check(check_accepts_129_jobs), 100, "check 128, "),
            (with_check(check_refuses_no_bytes), 0, "second: check 1, "),
            (with_check(check_refuses_fans), 18, "preview: check 133, "),
            (
                with_check(check_accepts_17_children),
                18,
                "second: check 133, ",
            ),
            (with_check(check_refuses_sums), 12, "preview: check 133, "),
            (
                with_check(check_refuses_lines_that_sum),
                13,
                "preview: check 132, ",
            ),
            (
                with_check(check_accepts_bad_sums),
                20,
                "second: check 133, ",
            ),
            (with_hand_run(sums_store), 24, "hand run 0, result "),
            (with_check(check_refuses_rates), 12, "preview: check 133, "),
            (
                with_check(check_accepts_bad_quotients),
                20,
                "second: check 133, ",
            ),
            (with_hand_run(products_rounded_down), 44, "hand run 0"),
            (with_hand_run(quotients_with_halves_down), 44, "hand run 0"),
            (
                with_hand_run(fault_4_by_the_exact_product),
                44,
                "second: check 1, hand run 0",
            ),
            (with_hand_run(products_that_wrap), 44, "hand run 0"),
            (with_hand_run(products_of_64_bits), 44, "hand run 0"),
            (with_hand_run(quotients_of_zeros), 44, "hand run 0"),
            (with_hand_run(zeros_as_fault_5), 44, "hand run 0"),
            (
                with_hand_run(takes_13_numbers),
                8,
                "second: check 1, hand run 149",
            ),
            (
                with_hand_run(takes_12_numbers),
                8,
                "second: check 1, hand run 149",
            ),
            (with_check(check_writes), 31, "spoiled: list of check"),
            (
                with_hand_run(writes_behind),
                16,
                "spoiled: beside the result",
            ),
            (with_hand_run(writes_before), 0, "spoiled: library"),
            (with_hand_run(writes_more), 17, "hand run 0"),
            (with_hand_run(writes_on_refusal), 13, "hand run 145"),
            (with_hand_run(wrong_entry), 44, "result 08"),
            (with_hand_run(no_17), 12, "hand run 145"),
            (
                with_hand_run(table_first),
                8,
                "second: check 1, hand run 136",
            ),
            (
                with_hand_run(refuses_1000),
                8,
                "table 0500020001000100010001000300040001000800010008000400\
                 0100e803",
            ),
            (
                with_hand_run(no_22_in_the_last),
                8,
                "second: check 1, hand run 150",
            ),
            (with_hand_run(short_before_table), 8, "hand run 150"),
            (with_hand_run(writes_in_the_table), 0, "spoiled: table"),
        ] {
            let met = compare(&functions, 1400, 1);
            let case = met.smallest.unwrap();
            let text = describe(&functions, &case);
            assert!(met.different > 0 && size(&case) <= most, "{text}");
            assert!(text.contains(words), "{text}");
        }
        // Lists that are cut by one byte, with it behind them, come later.
        let met = compare(&with_check(check_reads_on), 15_000, 1);
        assert!(met.different > 0);
    }
}
