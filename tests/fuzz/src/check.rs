//! Target `check`: the input is a list. It is checked whole, and cut with the rest of it behind.

use measured::coordinator::preview_check as second_check;
use second::cases::hex;

use crate::lent::{differ, hash, Lent};
use crate::tally;

extern "C" {
    fn preview_check(list: *const u8, list_len: usize) -> u32;
}

pub fn compare(input: &[u8]) {
    let number = hash(input);
    tally::list(one(input, &[], number % 8));
    let (front, behind) = input.split_at(number / 8 % (input.len() + 1));
    one(front, behind, number % 8);
}

fn one(list: &[u8], behind: &[u8], shift: usize) -> u32 {
    let expected = second_check(list);
    let mut lent = Lent::new(list, behind, shift);
    let given = unsafe { preview_check(lent.pointer(), lent.len()) };
    if given != expected || !lent.unchanged() {
        differ(&[
            format!("list {}", hex(list)),
            format!("behind it {}", hex(behind)),
            format!("{shift} bytes from an even place"),
            format!("check: preview {given}, second {expected}"),
            format!("list unchanged: {}", lent.unchanged()),
        ])
    }
    expected
}

pub use crate::mutate::list_input as mutate;
