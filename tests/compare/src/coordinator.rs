//! The coordinator's standard output beside the second implementation's transcript.

use std::io::{Read, Write};
use std::os::unix::process::ExitStatusExt;
use std::path::{Path, PathBuf};
use std::process::{Child, Command, Stdio};
use std::sync::mpsc;
use std::time::Duration;

use second::cases::{damaged_list, hex, library_bytes, run_case};
use second::named::longest_list;
use second::rng::Rng;
use second::{empty_list, encode, files_transcript};

use crate::shrink::{less_entries, shrink, smaller_bytes, smaller_lists};
use crate::{has_fan, has_rate, has_sum, refusal_words};

/// What stands under a file's name.
#[derive(Clone, Debug, PartialEq, Eq)]
pub enum File {
    Missing,
    /// A folder of that name: it can't be read as a file.
    Folder,
    Bytes(Vec<u8>),
}

impl File {
    /// None where it can't be read.
    fn read(&self) -> Option<&[u8]> {
        match self {
            File::Bytes(bytes) => Some(bytes),
            _ => None,
        }
    }

    fn bytes(&self) -> &[u8] {
        self.read().unwrap_or(&[])
    }

    fn words(&self) -> String {
        match self {
            File::Missing => "missing".to_string(),
            File::Folder => "a folder".to_string(),
            File::Bytes(bytes) => hex(bytes),
        }
    }
}

#[derive(Clone, Debug, PartialEq, Eq)]
pub struct Case {
    pub jobs: File,
    pub library: File,
    pub input: Vec<u8>,
    /// The sizes of the first pieces in which the input comes; the rest comes at once.
    pub pieces: Vec<usize>,
}

/// What the coordinator is to print.
pub fn expected(case: &Case) -> String {
    files_transcript(case.jobs.read(), case.library.read(), &case.input)
}

// ---------------------------------------------------------------------------------------------
// Cases

/// Cases without end: files that are empty, of the marked records or can't be read, then random ones.
pub fn cases(seed: u64) -> impl Iterator<Item = Case> {
    let mut rng = Rng::new(seed);
    empty_cases()
        .into_iter()
        .chain(std::iter::repeat_with(move || random_case(&mut rng)))
}

/// The empty list in both its forms and a jobs.bin that can't be read, each with libraries of every kind:
/// one that fits, of other lengths, and one that can't be read.
fn empty_cases() -> Vec<Case> {
    let numbers = library_bytes(&[5, 7]);
    let marked = encode(&empty_list());
    let lists = [File::Bytes(Vec::new()), File::Bytes(marked)];
    let unreadable = [File::Missing, File::Folder];
    let libraries = [4, 0, 3, 5, 8].map(|length| File::Bytes(numbers[..length].to_vec()));
    let mut cases = Vec::new();
    for jobs in lists.iter().chain(&unreadable) {
        for library in libraries.iter().chain(&unreadable) {
            cases.push(Case {
                jobs: jobs.clone(),
                library: library.clone(),
                input: vec![1, 0, 0, 0, 2, 0, 0, 0, 3, 0, 2],
                pieces: Vec::new(),
            });
        }
    }
    cases
}

fn random_case(rng: &mut Rng) -> Case {
    let (mut jobs, mut library, mut input) = run_case(rng);
    // A refused list, or a library of a wrong length.
    match rng.below(60) {
        0..=2 => {
            let refusal = rng.between(1, 7) as u32;
            jobs = damaged_list(rng, refusal);
        }
        3 => {
            let more = rng.pick(&[1, 2, 100, 70_000]);
            jobs = longest_list();
            jobs.extend(vec![0x4A; more]);
        }
        4 => library.extend(vec![1; rng.between(1, 8)]),
        5 => library.extend(vec![1; rng.pick(&[256, 4096, 70_000])]),
        6 => library.truncate(rng.below(library.len() + 1)),
        _ => {}
    }
    match rng.below(20) {
        0 => input.clear(),
        1 => input.push(rng.byte()),
        2 => long_input(rng, &mut input),
        _ => {}
    }
    let mut pieces = Vec::new();
    if rng.percent(20) {
        for _ in 0..rng.between(1, 12) {
            pieces.push(rng.pick(&[1, 1, 2, 3, 5, 16, 255, 4095, 4096, 4097]));
        }
    }
    let mut case = Case {
        jobs: File::Bytes(jobs),
        library: File::Bytes(library),
        input,
        pieces,
    };
    match rng.below(60) {
        0 | 1 => case.jobs = File::Missing,
        2 => case.jobs = File::Folder,
        3 | 4 => case.library = File::Missing,
        5 => case.library = File::Folder,
        _ => {}
    }
    case
}

/// Many more calls: those of the input again, in another order, some with other kinds and jobs.
fn long_input(rng: &mut Rng, input: &mut Vec<u8>) {
    let calls: Vec<[u8; 2]> = input
        .chunks_exact(2)
        .map(|call| [call[0], call[1]])
        .collect();
    input.truncate(2 * calls.len());
    let length = rng.pick(&[5_000, 9_000, 70_000]);
    while input.len() < length {
        match rng.below(10) {
            0 => input.extend([rng.below(4) as u8, rng.byte()]),
            1 => input.extend([rng.byte(), rng.byte()]),
            _ if !calls.is_empty() => input.extend(rng.pick(&calls)),
            _ => input.extend([1, 0]),
        }
    }
    if rng.percent(50) {
        input.push(0);
    }
}

// ---------------------------------------------------------------------------------------------
// The program

/// The program, its arguments, and the folder in which it is run.
pub struct Program {
    pub path: PathBuf,
    pub arguments: Vec<String>,
    folder: PathBuf,
}

/// After so long without an end the program is stopped.
const MOST_TIME: Duration = Duration::from_secs(20);
/// Between two pieces of the input.
const PAUSE: Duration = Duration::from_micros(300);

impl Program {
    pub fn new(path: &Path, arguments: &[String]) -> std::io::Result<Program> {
        let path = path.canonicalize()?;
        let name = format!("compare_coordinator_{}", std::process::id());
        let folder = std::env::temp_dir().join(name);
        std::fs::create_dir_all(&folder)?;
        Ok(Program {
            path,
            arguments: arguments.to_vec(),
            folder,
        })
    }

    /// Runs the program on the case: what it wrote to standard output, and what went wrong besides.
    pub fn run(&self, case: &Case) -> std::io::Result<(Vec<u8>, Option<String>)> {
        place(&self.folder.join("jobs.bin"), &case.jobs)?;
        place(&self.folder.join("library.bin"), &case.library)?;
        let child = Command::new(&self.path)
            .args(&self.arguments)
            .current_dir(&self.folder)
            .stdin(Stdio::piped())
            .stdout(Stdio::piped())
            .stderr(Stdio::null())
            .spawn()?;
        feed_and_read(child, case)
    }
}

impl Drop for Program {
    fn drop(&mut self) {
        let _ = std::fs::remove_dir_all(&self.folder);
    }
}

/// Makes the file, in place of what stood there.
fn place(path: &Path, file: &File) -> std::io::Result<()> {
    if path.is_dir() {
        std::fs::remove_dir(path)?;
    } else if path.exists() {
        std::fs::remove_file(path)?;
    }
    match file {
        File::Missing => Ok(()),
        File::Folder => std::fs::create_dir(path),
        File::Bytes(bytes) => std::fs::write(path, bytes),
    }
}

fn feed_and_read(mut child: Child, case: &Case) -> std::io::Result<(Vec<u8>, Option<String>)> {
    let mut stdin = child.stdin.take().expect("a pipe");
    let mut stdout = child.stdout.take().expect("a pipe");
    let (sender, receiver) = mpsc::channel();
    std::thread::scope(|scope| {
        scope.spawn(move || {
            let mut rest = &case.input[..];
            for size in &case.pieces {
                let (piece, more) = rest.split_at((*size).min(rest.len()));
                // A program that has ended reads no more.
                if stdin.write_all(piece).is_err() {
                    return;
                }
                std::thread::sleep(PAUSE);
                rest = more;
            }
            let _ = stdin.write_all(rest);
        });
        scope.spawn(move || {
            let mut output = Vec::new();
            let read = stdout.read_to_end(&mut output);
            let _ = sender.send(read.map(|_| output));
        });
        let (output, stopped) = match receiver.recv_timeout(MOST_TIME) {
            Ok(output) => (output?, false),
            Err(_) => {
                child.kill()?;
                (Vec::new(), true)
            }
        };
        let status = child.wait()?;
        let wrong = if stopped {
            Some(format!("no end within {} s", MOST_TIME.as_secs()))
        } else {
            status.signal().map(|signal| format!("signal {signal}"))
        };
        Ok((output, wrong))
    })
}

// ---------------------------------------------------------------------------------------------
// The comparison

/// What was met.
#[derive(Clone, Debug, Default)]
pub struct Met {
    pub transcripts: usize,
    /// Failed opens, by refusal.
    pub refused: [u64; 9],
    pub unreadable: u64,
    /// With a jobs.bin of no bytes.
    pub empty: u64,
    /// Opened with a list in which a fan stands, one in which a sum does, and one in which a product or
    /// quotient in thousandths does.
    pub fans: u64,
    pub sums: u64,
    pub rates: u64,
    pub in_pieces: u64,
    pub half_calls: u64,
    /// Lines of calls, and those among them that are not 0.
    pub calls: u64,
    pub refused_calls: u64,
    /// Calls held back: behind a writer, otherwise.
    pub held: [u64; 2],
    pub to_the_end: u64,
    /// On how many the two differ, and the smallest case found.
    pub different: usize,
    pub smallest: Option<Case>,
}

impl Met {
    fn count(&mut self, case: &Case, text: &str) {
        self.transcripts += 1;
        let files = [case.jobs.read(), case.library.read()];
        self.unreadable += files.contains(&None) as u64;
        self.empty += (files[0] == Some(&[])) as u64;
        self.in_pieces += !case.pieces.is_empty() as u64;
        if let Some(refusal) = text.strip_prefix("refused ") {
            let refusal: usize = refusal.trim_end().parse().expect("a number");
            self.refused[refusal] += 1;
            return;
        }
        self.fans += files[0].is_some_and(has_fan) as u64;
        self.sums += files[0].is_some_and(has_sum) as u64;
        self.rates += files[0].is_some_and(has_rate) as u64;
        let calls = case.input.len().div_ceil(2);
        self.calls += calls as u64;
        let answers: Vec<&str> = text.lines().take(calls).collect();
        let given = |number: &str| answers.iter().filter(|line| **line == number).count() as u64;
        self.refused_calls += answers.len() as u64 - given("0");
        self.held[0] += given("19");
        self.held[1] += given("20");
        self.half_calls += (case.input.len() % 2) as u64;
        self.to_the_end += text.ends_with(" 0\n") as u64;
    }

    pub fn words(&self) -> String {
        format!(
            "{} opened, {} with fans, {} with sums, {} with thousandths, {} to the end, {} calls with {} \
             refused ones (19 x {}, 20 x {}), {} half calls, {} inputs in pieces, {} with an unreadable \
             file, {} with an empty list; opens refused: {}",
            self.transcripts as u64 - self.refused.iter().sum::<u64>(),
            self.fans,
            self.sums,
            self.rates,
            self.to_the_end,
            self.calls,
            self.refused_calls,
            self.held[0],
            self.held[1],
            self.half_calls,
            self.in_pieces,
            self.unreadable,
            self.empty,
            refusal_words(&self.refused)
        )
    }
}

/// What a program prints on a case, or what went wrong.
pub type Prints<'a> = &'a dyn Fn(&Case) -> Result<Vec<u8>, String>;

fn differ(prints: Prints, case: &Case) -> bool {
    prints(case).as_deref() != Ok(expected(case).as_bytes())
}

/// Compares `count` transcripts; after the first few that differ it stops.
pub fn compare(prints: Prints, count: usize, seed: u64, time: Duration) -> Met {
    let mut met = Met::default();
    for case in cases(seed).take(count) {
        if met.different == 20 {
            break;
        }
        met.count(&case, &expected(&case));
        if differ(prints, &case) {
            met.different += 1;
            let smallest = met.smallest.as_ref();
            if smallest.is_none_or(|other| size(&case) < size(other)) {
                met.smallest = Some(case);
            }
        }
    }
    let smallest = met.smallest.take();
    met.smallest =
        smallest.map(|case| shrink(case, time, smaller_cases, |case| differ(prints, case)));
    met
}

fn size(case: &Case) -> usize {
    case.jobs.bytes().len() + case.library.bytes().len() + case.input.len()
}

/// Cases without pieces, with fewer calls, a smaller list or a smaller library.
fn smaller_cases(case: &Case) -> impl Iterator<Item = Case> {
    let mut plain = Vec::new();
    if !case.pieces.is_empty() {
        let mut smaller = case.clone();
        smaller.pieces.clear();
        plain.push(smaller);
        let mut smaller = case.clone();
        smaller.pieces.pop();
        plain.push(smaller);
    }
    if let (File::Bytes(jobs), File::Bytes(library)) = (&case.jobs, &case.library) {
        if let Some(list) = less_entries(jobs) {
            let mut smaller = case.clone();
            smaller.jobs = File::Bytes(list);
            let length = library.len().saturating_sub(4);
            smaller.library = File::Bytes(library[..length].to_vec());
            plain.push(smaller);
        }
    }
    let (inputs, lists, libraries) = (case.clone(), case.clone(), case.clone());
    let calls = smaller_bytes(&case.input, 2);
    plain
        .into_iter()
        .chain(calls.map(move |input| Case {
            input,
            ..inputs.clone()
        }))
        .chain(smaller_lists(case.jobs.bytes()).map(move |jobs| Case {
            jobs: File::Bytes(jobs),
            ..lists.clone()
        }))
        .chain(
            smaller_bytes(case.library.bytes(), 1).map(move |library| Case {
                library: File::Bytes(library),
                ..libraries.clone()
            }),
        )
}

/// The case and both outputs, in lines.
pub fn describe(prints: Prints, case: &Case) -> String {
    let ours = match prints(case) {
        Ok(output) => String::from_utf8_lossy(&output).into_owned(),
        Err(wrong) => wrong,
    };
    let in_one_line = |text: &str| text.trim_end().replace('\n', " / ");
    let mut text = format!(
        "jobs.bin {}\nlibrary.bin {}\ninput {}\n",
        case.jobs.words(),
        case.library.words(),
        hex(&case.input)
    );
    if !case.pieces.is_empty() {
        text.push_str(&format!("in pieces of {:?}\n", case.pieces));
    }
    text.push_str(&format!("coordinator: {}\n", in_one_line(&ours)));
    text.push_str(&format!("second: {}\n", in_one_line(&expected(case))));
    text
}

#[cfg(test)]
mod tests {
    use super::*;

    const TIME: Duration = Duration::from_secs(10);

    fn right(case: &Case) -> Result<Vec<u8>, String> {
        Ok(expected(case).into_bytes())
    }

    #[test]
    fn the_second_implementation_agrees_with_itself() {
        let met = compare(&right, 500, 1, TIME);
        assert_eq!((met.transcripts, met.different), (500, 0));
        assert!(met.refused[1..].iter().all(|count| *count > 0));
        for count in [
            met.unreadable,
            met.in_pieces,
            met.half_calls,
            met.to_the_end,
            met.fans,
            met.sums,
            met.rates,
            met.held[0],
            met.held[1],
        ] {
            assert!(count > 20, "{}", met.words());
        }
        assert!(met.empty > 10, "{}", met.words());
    }

    /// The smallest case found, in words.
    fn found(prints: Prints) -> String {
        found_within(TIME, prints)
    }

    fn found_within(time: Duration, prints: Prints) -> String {
        let met = compare(prints, 2000, 1, time);
        describe(prints, &met.smallest.expect("a case that differs"))
    }

    /// What a coordinator prints that gives other answers to calls.
    fn other_answers(case: &Case, other: fn(&str) -> &str) -> Result<Vec<u8>, String> {
        let text = expected(case);
        if text.starts_with("refused ") {
            return Ok(text.into_bytes());
        }
        let calls = case.input.len().div_ceil(2);
        let answer = |(i, line)| if i < calls { other(line) } else { line };
        let lines: Vec<&str> = text.lines().enumerate().map(answer).collect();
        Ok((lines.join("\n") + "\n").into_bytes())
    }

    #[test]
    fn mismatched_holds_are_found_and_made_small() {
        let others: [(fn(&str) -> &str, &str, &[&str]); 3] = [
            // One number for both.
            (
                |line| {
                    if ["19", "20"].contains(&line) {
                        "12"
                    } else {
                        line
                    }
                },
                "12",
                &["19", "20"],
            ),
            // Each in place of the other.
            (|line| if line == "20" { "19" } else { line }, "19", &["20"]),
            (|line| if line == "19" { "20" } else { line }, "20", &["19"]),
        ];
        for (other, given, right) in others {
            let prints = |case: &Case| other_answers(case, other);
            let met = compare(&prints, 2000, 1, TIME);
            let case = met.smallest.expect("a case that differs");
            let text = describe(&prints, &case);
            assert!(case.input.len() <= 12, "{text}");
            assert!(text.contains(&format!(" 0 / {given} / ")), "{text}");
            let mut right = right.iter().map(|right| format!(" 0 / {right} / "));
            assert!(right.any(|right| text.contains(&right)), "{text}");
        }
    }

    #[test]
    fn mismatches_are_found_and_made_small() {
        // Another kind is taken for an end.
        let other_kind = |case: &Case| {
            let mut case = case.clone();
            for call in case.input.chunks_mut(2) {
                call[0] = call[0].min(2);
            }
            right(&case)
        };
        let text = found(&other_kind);
        assert!(text.contains("second: 18 / 0 / 0 0 1\n"), "{text}");
        // Half a call is not seen.
        let no_half = |case: &Case| {
            let mut case = case.clone();
            case.input.truncate(case.input.len() / 2 * 2);
            right(&case)
        };
        let text = found(&no_half);
        assert!(text.contains("input 00\n"), "{text}");
        // An odd piece is taken for half a call.
        let pieces = |case: &Case| match case.pieces.first() {
            Some(1) if case.input.len() > 1 => Err("odd".to_string()),
            _ => right(case),
        };
        let text = found(&pieces);
        assert!(text.contains("in pieces of [1]\n"), "{text}");
        // A long jobs.bin is cut.
        let cut = |case: &Case| {
            let mut case = case.clone();
            if let File::Bytes(jobs) = &mut case.jobs {
                jobs.truncate(4805);
            }
            right(&case)
        };
        let text = found_within(Duration::from_secs(1), &cut);
        assert!(text.contains("second: refused 6\n"), "{text}");
        // A missing library is taken for one that fits.
        let missing = |case: &Case| match case.library {
            File::Missing => Ok(b"0 0 1\n".to_vec()),
            _ => right(case),
        };
        let text = found(&missing);
        assert!(text.contains("library.bin missing\n"), "{text}");
    }

    #[test]
    fn mismatches_on_empty_lists_are_found() {
        // An empty jobs.bin is refused.
        let refused = |case: &Case| match case.jobs.read() {
            Some([]) => Ok(b"refused 1\n".to_vec()),
            _ => right(case),
        };
        let text = found(&refused);
        assert!(text.contains("jobs.bin \nlibrary.bin "), "{text}");
        assert!(text.contains("second: refused 8\n"), "{text}");
        // A jobs.bin that can't be read is taken for an empty one.
        let unread = |case: &Case| {
            let mut case = case.clone();
            if case.jobs.read().is_none() {
                case.jobs = File::Bytes(Vec::new());
            }
            right(&case)
        };
        let text = found(&unread);
        assert!(text.contains("jobs.bin missing\n"), "{text}");
        assert!(text.contains("second: refused 1\n"), "{text}");
    }
}
