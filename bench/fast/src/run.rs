//! The hand run, in place. "at each spawn the child is run whole before the next step": no task is ever ahead of the one
//! that makes a call, so no call waits, and the order needs no table.

use crate::check::{index, records, word, Index};

#[derive(Clone, Copy)]
pub struct Record {
    pub state: u8,
    pub sheet: u8,
    pub fault: u8,
    pub place: u8,
    pub registers: [u32; 4],
    pub done: u32,
    pub weight: u32,
}

pub struct Run {
    pub memory: [u32; 64],
    pub records: [Record; 128],
    pub modes: [[u8; 64]; 128],
    pub calls: u32,
    pub weight: u32,
}

const NEVER: Record = Record {
    state: 0,
    sheet: 0,
    fault: 0,
    place: 0,
    registers: [0; 4],
    done: 0,
    weight: 0,
};

/// A list that is run: its bytes, where its records begin, and count(s).
struct Job<'a> {
    list: &'a [u8],
    index: Index,
    counts: [u32; 32],
    locations: usize,
    /// "start, end, then codes 0 to 9, code 9's per child", then those of codes 10 to 12
    table: &'a [u16; 15],
}

pub fn hand_run(file: &[u8], memory: &[u32], table: &[u16], run: &mut Run) -> u32 {
    let list = records(file);
    let index = match index(list) {
        Ok(index) => index,
        Err(refusal) => return 128 + refusal,
    };
    let locations = list[2] as usize;
    if memory.len() != locations {
        return 128 + 8;
    }
    let Ok(table) = <&[u16; 15]>::try_from(table) else {
        return 128 + 21;
    };
    if !table.iter().all(|number| (1..=1000).contains(number)) {
        return 128 + 22;
    }
    run.memory[..locations].copy_from_slice(memory);
    run.memory[locations..].fill(0);
    run.records.fill(NEVER);
    run.modes.fill([0; 64]);
    run.modes[0][..locations].fill(2);
    run.calls = 0;
    run.weight = 0;
    let mut job = Job {
        list,
        index,
        counts: [0; 32],
        locations,
        table,
    };
    job.count();
    job.whole(run, 0, 0, [0; 4]);
    0
}

/// "Both round to the nearest whole number, halves upward, on the exact value": n / d, none where it is above 2^32 − 1. What
/// is added doesn't reach 2^64.
fn nearest(n: u64, d: u64) -> Option<u32> {
    u32::try_from((n + d / 2) / d).ok()
}

impl Job<'_> {
    fn instruction(&self, sheet: usize, place: usize) -> u32 {
        let at = self.index.sheets[sheet].0 as usize + 4 * place;
        word(&self.list[at..at + 4])
    }

    /// "count(s) is 1 plus count(a) for each spawn in sheet s, passed over or not."; "The fan adds c × count(a)".
    fn count(&mut self) {
        for s in (0..self.index.sheet_count).rev() {
            let mut count = 1u32;
            for i in 0..self.index.sheets[s].1 as usize {
                count += self.adds(self.instruction(s, i));
            }
            self.counts[s] = count.min(129);
        }
    }

    /// What an instruction adds to the numbers of its sheet.
    fn adds(&self, w: u32) -> u32 {
        let count = self.counts[(w >> 8 & 0xFF) as usize & 31];
        match w & 0xFF {
            7 => count,
            9 => (w >> 24) * count,
            _ => 0,
        }
    }

    /// Faults 1 and 2 of one entry, by the task's own mode there and what is wanted: mode 2 allows all, 1 and 3 what they
    /// are themselves (a load or a read line is 1, a store or a write line 2, a sum 3). A wait wants nothing, 0.
    fn fault(&self, modes: &[u8; 64], entry: u32, wanted: u8) -> u8 {
        if entry as usize >= self.locations {
            return 1;
        }
        match modes[entry as usize & 63] {
            0 => 1,
            2 => 0,
            own if wanted == 0 || own == wanted => 0,
            _ => 2,
        }
    }

    /// The modes of a footprint, or its fault: "Lines are still tested for faults 1 and 2 in turn."; "the common mode, or
    /// (...) write where the modes differ".
    fn granted(
        &self,
        own: &[u8; 64],
        registers: &[u32; 4],
        footprint: usize,
        child: &mut [u8; 64],
    ) -> u8 {
        let (at, count) = self.index.footprints[footprint & 31];
        let lines = &self.list[at as usize..at as usize + 2 * count as usize];
        for line in lines.chunks_exact(2) {
            let entry = match line[0] {
                0 | 1 | 4 => line[1] as u32,
                _ => registers[line[1] as usize & 3],
            };
            let wanted = [1, 2, 1, 2, 3, 3, 0, 0][line[0] as usize & 7];
            let fault = self.fault(own, entry, wanted);
            if fault != 0 {
                return fault;
            }
            let mode = &mut child[entry as usize & 63];
            *mode = if *mode == 0 || *mode == wanted {
                wanted
            } else {
                2
            };
        }
        0
    }

    /// "Child i has R0 = i, and its footprint is found with that R0"; the fault, with no child made, or else "the hand run
    /// completes them from child 0 on".
    #[inline(never)]
    fn fan(&self, run: &mut Run, task: usize, first: usize, w: u32, given: [u32; 4]) -> u8 {
        let [_, a, b, c] = w.to_le_bytes();
        let sheet = a as usize & 31;
        let mut registers = given;
        let mut modes = [[0; 64]; 16];
        for (i, modes) in modes.iter_mut().enumerate().take(c as usize) {
            registers[0] = i as u32;
            let fault = self.granted(&run.modes[task & 127], &registers, b as usize, modes);
            if fault != 0 {
                return fault;
            }
        }
        for (i, modes) in modes.iter().enumerate().take(c as usize) {
            registers[0] = i as u32;
            let child = first + i * self.counts[sheet] as usize;
            run.modes[child & 127] = *modes;
            self.whole(run, child, sheet, registers);
        }
        0
    }

    /// "its start, its steps until it is at its end, and at each spawn the child is run whole before the next step; last
    /// its end call"
    fn whole(&self, run: &mut Run, task: usize, sheet: usize, given: [u32; 4]) {
        let task = task & 127;
        let mut registers = given;
        let mut next = task as u32 + 1;
        let mut place = 0;
        let [start, end, codes @ ..] = self.table;
        let (mut done, mut weight, mut fault) = (0, *start as u32 + *end as u32, 0);
        let count = self.index.sheets[sheet].1 as usize;
        while place < count {
            let w = self.instruction(sheet, place);
            let [code, a, b, c] = w.to_le_bytes();
            let (ra, rb) = (registers[a as usize & 3], registers[b as usize & 3]);
            let rc = registers[c as usize & 3];
            done += 1;
            weight += codes[code as usize % 13] as u32 * if code == 9 { c as u32 } else { 1 };
            let mut passed = 0;
            match code {
                0 => registers[a as usize & 3] = b as u32 + 256 * c as u32,
                1 => registers[a as usize & 3] = rb.wrapping_add(rc),
                2 => registers[a as usize & 3] = rb.wrapping_sub(rc),
                3 => registers[a as usize & 3] = (rb < rc) as u32,
                4 => {
                    fault = self.fault(&run.modes[task], rb, 1);
                    if fault == 0 {
                        registers[a as usize & 3] = run.memory[rb as usize & 63];
                    }
                }
                5 => {
                    fault = self.fault(&run.modes[task], ra, 2);
                    if fault == 0 {
                        run.memory[ra as usize & 63] = rb;
                    }
                }
                6 if ra == 0 => passed = b as usize,
                6 => {}
                7 => {
                    let mut modes = [0; 64];
                    fault = self.granted(&run.modes[task], &registers, b as usize, &mut modes);
                    if fault == 0 {
                        run.modes[next as usize & 127] = modes;
                        self.whole(run, next as usize, a as usize & 31, registers);
                    }
                }
                9 => fault = self.fan(run, task, next as usize, w, registers),
                10 => {
                    fault = self.fault(&run.modes[task], ra, 3);
                    if fault == 0 {
                        let entry = &mut run.memory[ra as usize & 63];
                        *entry = entry.wrapping_add(rb);
                    }
                }
                11 => match nearest(rb as u64 * rc as u64, 1000) {
                    Some(result) => registers[a as usize & 3] = result,
                    None => fault = 4,
                },
                12 if rc == 0 => fault = 5,
                12 => match nearest(1000 * rb as u64, rc as u64) {
                    Some(result) => registers[a as usize & 3] = result,
                    None => fault = 4,
                },
                _ => fault = self.fault(&run.modes[task], ra, 0),
            }
            if fault != 0 {
                break;
            }
            for i in place..=place + passed {
                next += self.adds(self.instruction(sheet, i));
            }
            place += 1 + passed;
        }
        run.calls += 2 + done;
        run.weight += weight;
        run.records[task] = Record {
            state: 3,
            sheet: sheet as u8,
            fault,
            place: place as u8,
            registers,
            done,
            weight,
        };
    }
}
