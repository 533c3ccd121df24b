//! What the assembler says of wrong texts, line by line, and what it gives for right ones.

use assembler::assemble;

/// The problems of a text, each as `line: message`.
fn problems(text: &str) -> Vec<String> {
    match assemble(text) {
        Ok(bytes) => vec![format!("accepted, {} bytes", bytes.len())],
        Err(problems) => problems
            .iter()
            .map(|p| format!("{}: {}", p.line, p.message))
            .collect(),
    }
}

/// A list of two entries, two footprints and three sheets, the first of which has this line.
fn with_line(line: &str) -> String {
    format!("entries 2\nfootprint 0: write entry 0\nfootprint 1: none\nsheet 0:\n    {line}\nsheet 1:\nsheet 2:\n")
}

fn of_line(line: &str) -> Vec<String> {
    problems(&with_line(line))
}

/// The four bytes of an instruction: they stand behind the head, two footprints and a sheet's mark and count.
fn bytes_of(line: &str) -> Vec<u8> {
    assemble(&with_line(line)).unwrap()[16..20].to_vec()
}

#[test]
fn every_instruction() {
    assert_eq!(bytes_of("0: const R1 := 513"), [0, 1, 1, 2]);
    assert_eq!(bytes_of("add R1 := R2 + R3"), [1, 1, 2, 3]);
    assert_eq!(bytes_of("sub R1:=R2-R3"), [2, 1, 2, 3]);
    assert_eq!(bytes_of("less R1 := R2 < R3"), [3, 1, 2, 3]);
    assert_eq!(bytes_of("load R1 := entry R2"), [4, 1, 2, 0]);
    assert_eq!(bytes_of("store entry R1 := R2"), [5, 1, 2, 0]);
    assert_eq!(bytes_of("skip 0 if R3 = 0"), [6, 3, 0, 0]);
    assert_eq!(bytes_of("spawn sheet 2 with footprint 1"), [7, 2, 1, 0]);
    assert_eq!(
        bytes_of("0: wait entry R3  # behind a comment"),
        [8, 3, 0, 0]
    );
    assert_eq!(
        bytes_of("fan sheet 2 with footprint 1, 1 children"),
        [9, 2, 1, 1]
    );
    assert_eq!(
        bytes_of("0: fan sheet 1 with footprint 0,16 children"),
        [9, 1, 0, 16]
    );
    assert_eq!(bytes_of("sum entry R1 + R2"), [10, 1, 2, 0]);
    assert_eq!(bytes_of("0: sum entry R3+R0"), [10, 3, 0, 0]);
    assert_eq!(bytes_of("mul R1 := R2 * R3 / 1000"), [11, 1, 2, 3]);
    assert_eq!(bytes_of("0: mul R0:=R3*R3/1000"), [11, 0, 3, 3]);
    assert_eq!(bytes_of("div R1 := 1000 * R2 / R3"), [12, 1, 2, 3]);
    assert_eq!(bytes_of("0: div R3:=1000*R0/R0"), [12, 3, 0, 0]);
}

#[test]
fn every_kind_of_line() {
    let text = "entries 3\nfootprint 0: read entry 0, write entry 1, read entry R2, write entry R3\nsheet 0:\n";
    let bytes = assemble(text).unwrap();
    assert_eq!(bytes[5..16], [0x4A, 0x46, 4, 0, 0, 1, 1, 2, 2, 3, 3]);
    let text = "entries 3\nfootprint 0: sum entry 2, sum entry R3, read entry R0\nsheet 0:\n";
    let bytes = assemble(text).unwrap();
    assert_eq!(bytes[5..14], [0x4A, 0x46, 3, 4, 2, 5, 3, 2, 0]);
}

/// Request 107
#[test]
fn sums() {
    assert_eq!(
        of_line("sum entry R4 + R0"),
        ["5: register R4: registers are R0 to R3"]
    );
    assert_eq!(
        of_line("sum entry 1 + R0"),
        ["5: register 1: registers are R0 to R3"]
    );
    assert_eq!(
        of_line("sum entry R1 := R2"),
        ["5: `:=` stands where `+` is wanted"]
    );
    assert_eq!(
        of_line("sum R1 + R2"),
        ["5: `R1` stands where `entry` is wanted"]
    );
    assert_eq!(
        of_line("sum entry R1"),
        ["5: the line ends where `+` is wanted"]
    );
    assert_eq!(
        of_line("sum entry R1 + R2 + R3"),
        ["5: `+` stands where the line ends"]
    );
}

/// Request 108
#[test]
fn thousandths() {
    assert_eq!(
        of_line("mul R4 := R1 * R2 / 1000"),
        ["5: register R4: registers are R0 to R3"]
    );
    assert_eq!(
        of_line("mul R1 := R2 * 3 / 1000"),
        ["5: register 3: registers are R0 to R3"]
    );
    assert_eq!(
        of_line("mul R1 := R2 * R3"),
        ["5: the line ends where `/` is wanted"]
    );
    assert_eq!(
        of_line("mul R1 := R2 / R3"),
        ["5: `/` stands where `*` is wanted"]
    );
    assert_eq!(
        of_line("mul R1 := R2 * R3 / 100"),
        ["5: `100` stands where `1000` is wanted"]
    );
    assert_eq!(
        of_line("mul R1 := R2 * R3 / 1000 / 1000"),
        ["5: `/` stands where the line ends"]
    );
    assert_eq!(
        of_line("div R1 := R2 / R3"),
        ["5: `R2` stands where `1000` is wanted"]
    );
    assert_eq!(
        of_line("div R1 := 1000 * R2 / R5"),
        ["5: register R5: registers are R0 to R3"]
    );
    assert_eq!(
        of_line("div R1 := 1000 * R2 * R3"),
        ["5: `*` stands where `/` is wanted"]
    );
    assert_eq!(
        of_line("div R1 := 1000 * R2"),
        ["5: the line ends where `/` is wanted"]
    );
    assert_eq!(
        of_line("div R1 := 1000 * R2 / R3 / 1000"),
        ["5: `/` stands where the line ends"]
    );
}

#[test]
fn registers() {
    assert_eq!(
        of_line("add R1 := R5 + R0"),
        ["5: register R5: registers are R0 to R3"]
    );
    assert_eq!(
        of_line("add R1 := 5 + R0"),
        ["5: register 5: registers are R0 to R3"]
    );
    assert_eq!(
        of_line("wait entry"),
        ["5: the line ends where a register is wanted"]
    );
}

#[test]
fn numbers() {
    assert_eq!(of_line("const R1 := 65535"), ["accepted, 26 bytes"]);
    assert_eq!(
        of_line("const R1 := 65536"),
        ["5: constant 65536: it is 0 to 65535"]
    );
    assert_eq!(
        of_line("const R1 := -1"),
        ["5: `-` stands where a number is wanted: constant"]
    );
    assert_eq!(
        of_line("const R1 := 99999999999999999999"),
        ["5: constant 99999999999999999999: it is 0 to 65535"]
    );
}

#[test]
fn words() {
    assert_eq!(of_line("jump 3"), ["5: `jump` is no instruction"]);
    assert_eq!(
        of_line("add R1 := R2 - R3"),
        ["5: `-` stands where `+` is wanted"]
    );
    assert_eq!(
        of_line("const R1 9"),
        ["5: `9` stands where `:=` is wanted"]
    );
    assert_eq!(
        of_line("const R1 := 9 10"),
        ["5: `10` stands where the line ends"]
    );
    assert_eq!(
        of_line("skip 1 if R0"),
        ["5: the line ends where `=` is wanted"]
    );
}

#[test]
fn places_and_skips() {
    assert_eq!(
        of_line("1: const R1 := 9"),
        ["5: place 1: the next place of this sheet is 0"]
    );
    assert_eq!(
        of_line("skip 1 if R0 = 0"),
        ["5: skip 1: from place 0 it ends at 2, and the sheet has 1 instructions"]
    );
}

#[test]
fn spawns() {
    assert_eq!(
        of_line("spawn sheet 3 with footprint 0"),
        ["5: sheet 3: this text has no such sheet"]
    );
    assert_eq!(
        of_line("spawn sheet 0 with footprint 0"),
        ["5: sheet 0: a spawn in sheet 0 names a higher sheet"]
    );
    assert_eq!(
        of_line("spawn sheet 1 with footprint 2"),
        ["5: footprint 2: this text has no such footprint"]
    );
}

#[test]
fn fans() {
    for children in ["0", "17", "255", "256", "65537"] {
        assert_eq!(
            of_line(&format!(
                "fan sheet 1 with footprint 0, {children} children"
            )),
            [format!("5: children {children}: it is 1 to 16")]
        );
    }
    assert_eq!(
        of_line("fan sheet 1 with footprint 0"),
        ["5: the line ends where `,` is wanted"]
    );
    assert_eq!(
        of_line("fan sheet 1 with footprint 0 3 children"),
        ["5: `3` stands where `,` is wanted"]
    );
    assert_eq!(
        of_line("fan sheet 1 with footprint 0, R1 children"),
        ["5: `R1` stands where a number is wanted: children"]
    );
    assert_eq!(
        of_line("fan sheet 1 with footprint 0, 3"),
        ["5: the line ends where `children` is wanted"]
    );
    assert_eq!(
        of_line("fan sheet 1 with footprint 0, 3 children more"),
        ["5: `more` stands where the line ends"]
    );
    assert_eq!(
        of_line("fan sheet 3 with footprint 0, 3 children"),
        ["5: sheet 3: this text has no such sheet"]
    );
    assert_eq!(
        of_line("fan sheet 0 with footprint 0, 3 children"),
        ["5: sheet 0: a fan in sheet 0 names a higher sheet"]
    );
    assert_eq!(
        of_line("fan sheet 1 with footprint 2, 3 children"),
        ["5: footprint 2: this text has no such footprint"]
    );
    assert_eq!(
        of_line("spawn sheet 1 with footprint 0, 3 children"),
        ["5: `,` stands where the line ends"]
    );
}

#[test]
fn footprints() {
    let footprint = |line: &str| problems(&format!("entries 2\nfootprint 0: {line}\nsheet 0:\n"));
    assert_eq!(footprint("read entry 2"), ["2: entry 2: it is 0 to 1"]);
    assert_eq!(
        footprint("write entry R4"),
        ["2: register R4: registers are R0 to R3"]
    );
    assert_eq!(
        footprint("sum entry 2, read entry 0"),
        ["2: entry 2: it is 0 to 1"]
    );
    assert_eq!(
        footprint("sum entry R4"),
        ["2: register R4: registers are R0 to R3"]
    );
    assert_eq!(
        footprint("sum 0"),
        ["2: `0` stands where `entry` is wanted"]
    );
    assert_eq!(
        footprint("take entry 0"),
        ["2: `take` stands where `read`, `write` or `sum` is wanted"]
    );
    assert_eq!(
        footprint(""),
        ["2: the line ends where `read`, `write`, `sum` or `none` is wanted"]
    );
    assert_eq!(
        footprint("read entry 0 write entry 1"),
        ["2: `write` stands where `,` is wanted"]
    );
    assert_eq!(
        footprint(&["read entry 0"; 8].join(", ")),
        ["accepted, 27 bytes"]
    );
    assert_eq!(
        footprint(&["read entry 0"; 9].join(", ")),
        ["2: a footprint has at most 8 lines"]
    );
}

/// What the text of the empty list gives: its marked records, as the writer does. A text of no lines is no list.
#[test]
fn the_empty_list() {
    let marked = vec![0x4A, 0x48, 1, 0, 1, 0x4A, 0x42, 0];
    assert_eq!(assemble("entries 1\nsheet 0:\n"), Ok(marked));
    assert!(assemble("").is_err());
}

#[test]
fn the_whole_text() {
    assert_eq!(
        problems(""),
        [
            "1: a list has 1 to 32 sheets, this text has none",
            "1: no line `entries C` stands in this text"
        ]
    );
    assert_eq!(
        problems("entries 0\nsheet 0:\n"),
        ["1: entries 0: it is 1 to 64"]
    );
    assert_eq!(
        problems("entries 65\nsheet 0:\n"),
        ["1: entries 65: it is 1 to 64"]
    );
    assert_eq!(problems("entries 64\nsheet 0:\n"), ["accepted, 8 bytes"]);
    assert_eq!(
        problems("entries 1\nentries 1\nsheet 0:\n"),
        ["2: a second line `entries`"]
    );
    assert_eq!(
        problems("sheet 0:\nentries 1\n"),
        ["2: `entries` stands ahead of all footprints and sheets"]
    );
    assert_eq!(
        problems("entries 1\nsheet 1:\n"),
        ["2: sheet 1: the next sheet is 0"]
    );
    assert_eq!(
        problems("entries 1\nsheet 0:\nfootprint 0: none\n"),
        ["3: a footprint stands ahead of all sheets"]
    );
    assert_eq!(
        problems("entries 1\nwait entry R0\nsheet 0:\n"),
        ["2: `wait` is no line of this form: an instruction stands in a sheet"]
    );
    assert_eq!(
        problems("refused 1: the file ends\nentries 1\nsheet 0:\n"),
        ["1: `refused` is no line of this form: an instruction stands in a sheet"]
    );
}

#[test]
fn too_many() {
    let sheets = |n: usize| (0..n).map(|s| format!("sheet {s}:\n")).collect::<String>();
    assert_eq!(
        problems(&format!("entries 1\n{}", sheets(32))),
        ["accepted, 101 bytes"]
    );
    assert_eq!(
        problems(&format!("entries 1\n{}", sheets(33))),
        ["34: a list has at most 32 sheets"]
    );
    let footprints = (0..33)
        .map(|f| format!("footprint {f}: none\n"))
        .collect::<String>();
    assert_eq!(
        problems(&format!("entries 1\n{footprints}sheet 0:\n")),
        ["34: a list has at most 32 footprints"]
    );
    let long = "wait entry R0\n".repeat(33);
    assert_eq!(
        problems(&format!("entries 1\nsheet 0:\n{long}")),
        ["35: a sheet has at most 32 instructions"]
    );
}

/// "Seven sheets, each but the last spawning the next twice: 127 jobs. Sheet 0 also spawning the last once: 128,
/// accepted; twice: 129"
#[test]
fn jobs() {
    let list = |more: usize| {
        let mut text = "entries 1\nfootprint 0: none\n".to_string();
        for s in 0..7 {
            text.push_str(&format!("sheet {s}:\n"));
            if s < 6 {
                text.push_str(&format!("spawn sheet {} with footprint 0\n", s + 1).repeat(2));
            }
            if s == 0 {
                text.push_str(&"spawn sheet 6 with footprint 0\n".repeat(more));
            }
        }
        text
    };
    assert_eq!(problems(&list(0)), ["accepted, 77 bytes"]);
    assert_eq!(problems(&list(1)), ["accepted, 81 bytes"]);
    assert_eq!(
        problems(&list(2)),
        ["3: the list can make 129 jobs, and at most 128 are allowed"]
    );
}

/// Request 104: "The fan adds c × count(a) to its sheet's count".
#[test]
fn jobs_of_fans() {
    // 16 × 7 + 1 and as many single ones.
    let list = |single: usize| {
        format!(
            "entries 1\nfootprint 0: none\nsheet 0:\nfan sheet 1 with footprint 0, 16 children\n\
             fan sheet 2 with footprint 0, {single} children\nsheet 1:\n\
             fan sheet 2 with footprint 0, 6 children\nsheet 2:\n"
        )
    };
    assert_eq!(problems(&list(15)), ["accepted, 29 bytes"]);
    assert_eq!(
        problems(&list(16)),
        ["3: the list can make 129 jobs, and at most 128 are allowed"]
    );
    // 16 to the 31st.
    let mut text = "entries 1\nfootprint 0: none\n".to_string();
    for s in 0..31 {
        let next = s + 1;
        text.push_str(&format!(
            "sheet {s}:\nfan sheet {next} with footprint 0, 16 children\n"
        ));
    }
    text.push_str("sheet 31:\n");
    assert_eq!(
        problems(&text),
        ["3: the list can make more than a million jobs, and at most 128 are allowed"]
    );
}

#[test]
fn all_problems_in_the_order_of_lines() {
    let text = "entries 2\nfootprint 0: write entry 7\nsheet 0:\n    const R9 := 1\n    skip 9 if R0 = 0\n    spawn sheet 4 with footprint 0\n";
    assert_eq!(
        problems(text),
        [
            "2: entry 7: it is 0 to 1",
            "4: register R9: registers are R0 to R3",
            "5: skip 9: from place 1 it ends at 11, and the sheet has 3 instructions",
            "6: sheet 4: this text has no such sheet",
        ]
    );
}
