//! Target `hand_run`: a list, a library, a table of weights and a result slice; their lengths are the input's choice.

use measured::coordinator::preview_hand_run as second_hand_run;
use second::cases::hex;

use crate::lent::{differ, hash, Lent};
use crate::parts::Parts;
use crate::tally;

extern "C" {
    fn preview_hand_run(
        list: *const u8,
        list_len: usize,
        library: *const u8,
        library_len: usize,
        table: *const u8,
        table_len: usize,
        result: *mut u8,
        result_len: usize,
    ) -> u32;
}

/// What the result slice holds before.
fn filling(place: usize) -> u8 {
    (place as u8).wrapping_mul(101) ^ 0x5A
}

pub fn compare(input: &[u8]) {
    let parts = Parts::of(input, false);
    let shift = hash(input) % 8;
    let (library, behind) = parts.lent_library();
    let mut expected: Vec<u8> = (0..parts.result_length()).map(filling).collect();
    let mut lent_list = Lent::new(&parts.list, &[], shift);
    let mut lent_library = Lent::new(&library, &behind, shift);
    let mut lent_table = Lent::new(&parts.table, &[], shift);
    let mut lent_result = Lent::new(&expected, &[], shift);
    let second = second_hand_run(&parts.list, &library, &parts.table, &mut expected);
    tally::list(second);
    let given = unsafe {
        preview_hand_run(
            lent_list.pointer(),
            lent_list.len(),
            lent_library.pointer(),
            lent_library.len(),
            lent_table.pointer(),
            lent_table.len(),
            lent_result.pointer(),
            lent_result.len(),
        )
    };
    let list_same = lent_list.unchanged();
    let library_same = lent_library.unchanged();
    let table_same = lent_table.unchanged();
    let around_same = lent_result.unchanged_around();
    let result_same = lent_result.slice() == &expected[..];
    let slices_same = list_same && library_same && table_same && around_same;
    if given != second || !slices_same || !result_same {
        differ(&[
            format!("list {}", hex(&parts.list)),
            format!("library {}", hex(&library)),
            format!("behind it {}", hex(&behind)),
            format!("table {}", hex(&parts.table)),
            format!("result slice of {} bytes, {shift} bytes from an even place", expected.len()),
            format!("hand run: preview {given}, second {second}"),
            format!("result: preview {}", hex(lent_result.slice())),
            format!("result: second  {}", hex(&expected)),
            format!("unchanged: list {list_same}, library {library_same}, table {table_same}, beside the result {around_same}"),
        ])
    }
}

pub use crate::mutate::hand_run_input as mutate;
