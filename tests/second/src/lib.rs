//! The second implementation of the task runtime, for comparison with the first.
//! It is written from document 01 and the requests of document 02 alone, literally and slowly: one
//! function per sentence, each sentence named in a comment. Quoted words are document 01's, behind #
//! and a number document 02's.
//! Document 01's words and the names here: job = task, entry = location, entries = memory,
//! sheet = body, place = pc, mark = tag, instructions done = steps.
//! A refusal is the documents' number, as `Err(number)`.

pub mod bill;
pub mod case_file;
pub mod cases;
pub mod coordinator;
pub mod list;
pub mod named;
pub mod rng;
pub mod rounds;
pub mod run;

pub use coordinator::{files_transcript, preview_check, preview_hand_run, transcript};
pub use list::{check, decode, empty_list, encode, write, Instruction, Line, TaskList};
pub use run::{end, hand_run, open, queue, record, start, step, Record, Run, TODAY};
