//! Slices between canaries.

/// The bytes before and behind each lent slice.
const CANARIES: usize = 32;

fn canary(place: usize) -> u8 {
    (place as u8).wrapping_mul(37) ^ 0xC3
}

/// A lent slice, what was cut off behind it, and canaries around both.
pub struct Lent {
    all: Vec<u8>,
    before: Vec<u8>,
    start: usize,
    length: usize,
}

impl Lent {
    /// `shift`, 0 to 7, moves the slice from an even place.
    pub fn new(bytes: &[u8], behind: &[u8], shift: usize) -> Lent {
        let start = CANARIES + shift;
        let mut all = Vec::with_capacity(start + bytes.len() + behind.len() + CANARIES);
        all.extend((0..start).map(canary));
        all.extend(bytes);
        all.extend(behind);
        all.extend((0..CANARIES).map(canary));
        Lent {
            before: all.clone(),
            all,
            start,
            length: bytes.len(),
        }
    }

    /// Also for slices that may only be read: a function may write to them all the same.
    pub fn pointer(&mut self) -> *mut u8 {
        self.all[self.start..].as_mut_ptr()
    }

    pub fn len(&self) -> usize {
        self.length
    }

    pub fn slice(&self) -> &[u8] {
        &self.all[self.start..self.start + self.length]
    }

    /// Nothing was written, in the slice or around it.
    pub fn unchanged(&self) -> bool {
        self.all == self.before
    }

    /// Nothing was written around the slice.
    pub fn unchanged_around(&self) -> bool {
        let end = self.start + self.length;
        self.all[..self.start] == self.before[..self.start] && self.all[end..] == self.before[end..]
    }
}

/// A number that depends on every byte (FNV-1a): the same input always gives the same case.
pub fn hash(bytes: &[u8]) -> usize {
    let mut hash: u64 = 0xCBF2_9CE4_8422_2325;
    for byte in bytes {
        hash = (hash ^ *byte as u64).wrapping_mul(0x0100_0000_01B3);
    }
    (hash >> 8) as usize
}

/// Prints the lines and ends the program, which the fuzzer counts as a difference.
pub fn differ(lines: &[String]) -> ! {
    eprintln!("DIFFERENCE\n{}", lines.join("\n"));
    std::process::abort()
}
