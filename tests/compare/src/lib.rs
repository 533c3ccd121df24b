//! What the comparing programs share; each compares one program with the second implementation.

pub mod coordinator;
pub mod options;
pub mod preview;
pub mod shrink;

use second::Instruction;

/// How often each refusal was met, as `1 x 20, 2 x 7`.
pub fn refusal_words(counts: &[u64]) -> String {
    let words: Vec<String> = counts
        .iter()
        .enumerate()
        .filter(|(_, count)| **count > 0)
        .map(|(refusal, count)| format!("{refusal} x {count}"))
        .collect();
    words.join(", ")
}

/// The bytes are an accepted list in which such an instruction stands.
fn has(bytes: &[u8], such: fn(&Instruction) -> bool) -> bool {
    match second::decode(bytes) {
        Ok(list) => list.bodies.iter().flatten().any(such),
        Err(_) => false,
    }
}

pub fn has_fan(bytes: &[u8]) -> bool {
    has(bytes, |instruction| {
        matches!(instruction, Instruction::Fan { .. })
    })
}

pub fn has_sum(bytes: &[u8]) -> bool {
    has(bytes, |instruction| {
        matches!(instruction, Instruction::Sum { .. })
    })
}

/// A product or quotient in thousandths.
pub fn has_rate(bytes: &[u8]) -> bool {
    has(bytes, |instruction| {
        matches!(
            instruction,
            Instruction::Mul { .. } | Instruction::Div { .. }
        )
    })
}

#[cfg(test)]
mod tests {
    use second::case_file::{cases_output, encode_cases};
    use second::named::{stored_cases, STORED_COUNT, STORED_SEED};

    #[test]
    fn the_stored_cases_are_those_of_the_second_implementation() {
        let cases = stored_cases(STORED_SEED, STORED_COUNT);
        assert!(encode_cases(&cases) == include_bytes!("../../../crates/casecheck/data/cases.bin"));
        assert!(cases_output(&cases) == include_str!("../../../crates/casecheck/stdout"));
    }

    #[test]
    fn refusals_in_words() {
        assert_eq!(super::refusal_words(&[0, 3, 0, 1]), "1 x 3, 3 x 1");
    }
}
