//! Where the sections of a run file stand, also of one with wrong contents.

use std::ops::Range;

pub struct Layout {
    pub lengths: Range<usize>,
    pub calls: Range<usize>,
    pub schedule: Range<usize>,
}

impl Layout {
    /// None where the file ends inside a section.
    pub fn of(file: &[u8]) -> Option<Layout> {
        let processes = usize::from(*file.get(3)?);
        let lengths = 4..4 + processes;
        let calls_at = lengths.end + 2;
        let calls = calls_at..calls_at + 3 * two_bytes(file, lengths.end)?;
        let schedule_at = calls.end + 2;
        let schedule = schedule_at..schedule_at + two_bytes(file, calls.end)?;
        (schedule.end <= file.len()).then_some(Layout {
            lengths,
            calls,
            schedule,
        })
    }

    pub fn call_count(&self) -> usize {
        self.calls.len() / 3
    }

    /// The byte where a call stands.
    pub fn call_at(&self, call: usize) -> usize {
        self.calls.start + 3 * call
    }

    /// The process whose script has this call, where the script lengths reach it.
    pub fn owner(&self, file: &[u8], call: usize) -> Option<usize> {
        self.place(file, call).map(|(process, _)| process)
    }

    /// The process whose script has this call, and which of its calls it is.
    pub fn place(&self, file: &[u8], call: usize) -> Option<(usize, usize)> {
        let mut first = 0;
        for (process, &length) in file[self.lengths.clone()].iter().enumerate() {
            let end = first + usize::from(length);
            if call < end {
                return Some((process, call - first));
            }
            first = end;
        }
        None
    }
}

pub fn two_bytes(bytes: &[u8], at: usize) -> Option<usize> {
    let pair = bytes.get(at..at + 2)?;
    Some(usize::from(pair[0]) * 256 + usize::from(pair[1]))
}

pub fn put_two_bytes(bytes: &mut [u8], at: usize, number: usize) {
    bytes[at..at + 2].copy_from_slice(&(number as u16).to_be_bytes());
}
