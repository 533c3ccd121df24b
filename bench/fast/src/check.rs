//! "Check: a field (mark, number, line, instruction) is taken only when whole, else 1; it is tested when taken."

/// Where the records of a list begin, behind their marks and counts.
#[derive(Clone, Copy)]
pub struct Index {
    pub footprints: [(u16, u8); 32],
    pub sheets: [(u16, u8); 32],
    pub sheet_count: usize,
}

impl Index {
    pub const EMPTY: Index = Index {
        footprints: [(0, 0); 32],
        sheets: [(0, 0); 32],
        sheet_count: 0,
    };
}

/// The bits of an instruction (code least) that must be 0, by its code: registers are 0 to 3, "fields not listed are 0"; a
/// fan has up to 16 children.
const ZEROS: [u32; 13] = [
    0x0000_FC00,
    0xFCFC_FC00,
    0xFCFC_FC00,
    0xFCFC_FC00,
    0xFFFC_FC00,
    0xFFFC_FC00,
    0xFF00_FC00,
    0xFF00_0000,
    0xFFFF_FC00,
    0xE000_0000,
    0xFFFC_FC00,
    0xFCFC_FC00,
    0xFCFC_FC00,
];

pub fn word(field: &[u8]) -> u32 {
    u32::from_le_bytes([field[0], field[1], field[2], field[3]])
}

/// The count behind a mark, at `at`: refusals 1 and 2, and `refusal` where it is above `most`.
#[inline(always)]
fn header(list: &[u8], at: usize, tag: u8, most: u8, refusal: u32) -> Result<usize, u32> {
    let Some(field) = list.get(at..at + 3) else {
        let whole = list.len() >= at + 2;
        return Err(if whole && list[at..at + 2] != [0x4A, tag] {
            2
        } else {
            1
        });
    };
    if field[0] != 0x4A || field[1] != tag {
        return Err(2);
    }
    if field[2] > most {
        return Err(refusal);
    }
    Ok(field[2] as usize)
}

/// "Head: 4A 48, then entries C (1 to 64), footprints (0 to 32), sheets (1 to 32)."
fn head(list: &[u8]) -> Result<[u8; 3], u32> {
    if list.len() < 2 {
        return Err(1);
    }
    if list[..2] != [0x4A, 0x48] {
        return Err(2);
    }
    let mut numbers = [0; 3];
    for (i, (least, most)) in [(1, 64), (0, 32), (1, 32)].into_iter().enumerate() {
        let Some(&n) = list.get(2 + i) else {
            return Err(1);
        };
        if n < least || n > most {
            return Err(3);
        }
        numbers[i] = n;
    }
    Ok(numbers)
}

/// Reads a list in one pass. The tasks of sheet s are `made[s]`: the spawns and fans of a sheet go to higher ones, so that
/// each sheet's number is known when it is reached, and their sum is count(0).
#[inline(always)]
pub fn read(list: &[u8], mut keep: impl FnMut(bool, usize, u16, u8)) -> Result<u32, u32> {
    let [locations, footprints, sheets] = head(list)?;
    let mut at = 5;
    for f in 0..footprints as usize {
        let count = header(list, at, 0x46, 8, 4)?;
        at += 3;
        let lines = &list[at..list.len().min(at + 2 * count)];
        for line in lines.chunks_exact(2) {
            // kinds 0, 1 and 4 name an entry, 2, 3 and 5 a register
            let most = if 0b01_0011 >> (line[0] & 7) & 1 == 1 {
                locations
            } else {
                4
            };
            if line[0] > 5 || line[1] >= most {
                return Err(4);
            }
        }
        if lines.len() < 2 * count {
            return Err(1);
        }
        keep(false, f, at as u16, count as u8);
        at += 2 * count;
    }
    let mut made = [0u32; 32];
    made[0] = 1;
    let mut total = 0;
    for s in 0..sheets as usize {
        let count = header(list, at, 0x42, 32, 5)?;
        at += 3;
        let own = made[s];
        total += own;
        let body = &list[at..list.len().min(at + 4 * count)];
        for (i, field) in body.chunks_exact(4).enumerate() {
            let w = word(field);
            let code = (w & 0xFF) as usize;
            if code > 12 || w & ZEROS[code] != 0 {
                return Err(5);
            }
            let b = (w >> 16 & 0xFF) as usize;
            if code == 6 && i + 1 + b > count {
                return Err(5);
            }
            if code == 7 || code == 9 {
                let a = (w >> 8 & 0xFF) as usize;
                let children = if code == 7 { 1 } else { w >> 24 };
                if a <= s || a >= sheets as usize || b >= footprints as usize {
                    return Err(5);
                }
                if children == 0 || children > 16 {
                    return Err(5);
                }
                made[a] = (made[a] + own * children).min(129);
            }
        }
        if body.len() < 4 * count {
            return Err(1);
        }
        keep(true, s, at as u16, count as u8);
        at += 4 * count;
    }
    if at < list.len() {
        return Err(6);
    }
    if total > 128 {
        return Err(7);
    }
    Ok(total)
}

/// "A file of no bytes shall now mean C = 1, no footprints, and one empty sheet."
pub fn records(file: &[u8]) -> &[u8] {
    if file.is_empty() {
        &[0x4A, 0x48, 1, 0, 1, 0x4A, 0x42, 0]
    } else {
        file
    }
}

pub fn check(file: &[u8]) -> u32 {
    match read(records(file), |_, _, _, _| {}) {
        Ok(count) => count,
        Err(refusal) => 128 + refusal,
    }
}

/// The same, with where the records begin.
pub fn index(list: &[u8]) -> Result<Index, u32> {
    let mut index = Index::EMPTY;
    read(list, |sheet, i, at, count| {
        if sheet {
            index.sheets[i] = (at, count);
            index.sheet_count = i + 1;
        } else {
            index.footprints[i] = (at, count);
        }
    })?;
    Ok(index)
}
