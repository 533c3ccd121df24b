//! How an input of `hand_run` or `calls` is cut into its parts: a byte of lengths, the list's length in two bytes, the list,
//! then behind its length the table of weights, for `calls` in its place the calls, then the library. A length beyond the
//! input's end takes what is there.

#[derive(Clone, Debug, Default, PartialEq, Eq)]
pub struct Parts {
    /// Chooses the lengths of the library and of the result.
    pub lengths: u8,
    pub list: Vec<u8>,
    /// Two bytes each.
    pub calls: Vec<u8>,
    /// Two bytes for each number; `calls` has none, as its runs are under today's numbers.
    pub table: Vec<u8>,
    pub library: Vec<u8>,
}

fn take(rest: &mut &[u8], length: usize) -> Vec<u8> {
    let (front, behind) = rest.split_at(length.min(rest.len()));
    *rest = behind;
    front.to_vec()
}

fn take_long(rest: &mut &[u8]) -> Vec<u8> {
    let length = take(rest, 2);
    let length = length
        .iter()
        .rev()
        .fold(0, |sum, byte| 256 * sum + *byte as usize);
    take(rest, length)
}

fn put_long(bytes: &mut Vec<u8>, part: &[u8]) {
    bytes.extend((part.len() as u16).to_le_bytes());
    bytes.extend(part);
}

impl Parts {
    pub fn of(input: &[u8], with_calls: bool) -> Parts {
        let mut rest = input;
        let lengths = take(&mut rest, 1).first().map_or(0, |byte| *byte);
        let list = take_long(&mut rest);
        let between = take_long(&mut rest);
        let (calls, table) = if with_calls {
            (between, Vec::new())
        } else {
            (Vec::new(), between)
        };
        let library = rest.to_vec();
        Parts {
            lengths,
            list,
            calls,
            table,
            library,
        }
    }

    pub fn input(&self, with_calls: bool) -> Vec<u8> {
        let mut bytes = vec![self.lengths];
        put_long(&mut bytes, &self.list);
        put_long(
            &mut bytes,
            if with_calls { &self.calls } else { &self.table },
        );
        bytes.extend(&self.library);
        bytes
    }

    /// The bytes of a library that fits: four for each entry of the list's head.
    pub fn fitting(&self) -> usize {
        4 * self.list.get(2).map_or(1, |byte| *byte as usize)
    }

    /// The library that is lent, and what stands behind it: mostly of the fitting length, whatever the input has.
    pub fn lent_library(&self) -> (Vec<u8>, Vec<u8>) {
        let fitting = self.fitting();
        let length = match self.lengths % 16 {
            0 => self.library.len(),
            1 => fitting - fitting.min(1),
            2 => fitting + 1,
            3 => fitting - fitting.min(4),
            4 => fitting + 4,
            5 => 0,
            _ => fitting,
        };
        let mut library = self.library.clone();
        let mut place = 0u8;
        while library.len() < length {
            // entry numbers, where the input has too few
            library.extend([place, 0, 0, 0]);
            place = place.wrapping_add(1);
        }
        let behind = library.split_off(length);
        (library, behind)
    }

    /// The length of the result slice: mostly the fitting one.
    pub fn result_length(&self) -> usize {
        let fitting = self.fitting();
        match self.lengths / 16 {
            0 => fitting + 1,
            1 => fitting - fitting.min(1),
            2 => fitting + 60,
            3 => fitting - fitting.min(4),
            4 => 0,
            5 => 256,
            _ => fitting,
        }
    }
}

/// A call of the input: its kind and job. The first byte's upper half moves the job's number up, beyond a byte.
pub fn call_of(bytes: [u8; 2]) -> (u8, u32) {
    let task = bytes[1] as u32;
    match bytes[0] / 16 {
        0 => (bytes[0], task),
        1 => (bytes[0] % 16, task << 8),
        2 => (bytes[0] % 16, task << 24),
        3 => (bytes[0] % 16, u32::MAX - task),
        _ => (bytes[0], task),
    }
}
