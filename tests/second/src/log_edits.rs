//! Logs with something left out or made earlier.

use crate::file_edits::renamed;
use crate::layout::{put_two_bytes, two_bytes};
use second::log::{length, Entry, HEAD, NO_MOMENT, WIDTH};
use std::ops::Range;

/// The number of entries, where the log has the bytes for them.
pub fn whole_entries(log: &[u8]) -> Option<usize> {
    two_bytes(log, 3).filter(|&count| length(count) <= log.len())
}

/// The steps before which nothing starts, ends or has its moment for some steps, and for how many.
pub fn gaps(log: &[u8], count: usize) -> Vec<(u16, u16)> {
    let entries = log[HEAD..length(count)]
        .chunks_exact(WIDTH)
        .map(Entry::read);
    let mut steps: Vec<u16> = entries
        .flat_map(|entry| [entry.start, entry.end, entry.moment / 2])
        .filter(|&step| step != NO_MOMENT / 2)
        .collect();
    steps.sort_unstable();
    steps.dedup();
    let mut free = 0;
    let mut gaps = Vec::new();
    for step in steps {
        if step > free {
            gaps.push((step, step - free));
        }
        free = step.saturating_add(1);
    }
    gaps
}

pub fn without_entries(log: &[u8], entries: &Range<usize>) -> Option<Vec<u8>> {
    let mut smaller = log.to_vec();
    let left = whole_entries(log)? - entries.len();
    put_two_bytes(&mut smaller, 3, left);
    smaller.drain(length(entries.start)..length(entries.end));
    Some(smaller)
}

pub fn without_log_process(log: &[u8], process: u8) -> Option<Vec<u8>> {
    let mut smaller = log.to_vec();
    for index in (0..whole_entries(log)?).rev() {
        let bytes = &mut smaller[length(index)..length(index + 1)];
        let mut entry = Entry::read(bytes);
        if entry.process == process || entry.queue == process {
            smaller = without_entries(&smaller, &(index..index + 1))?;
        } else {
            entry.process = renamed(entry.process, process);
            entry.queue = renamed(entry.queue, process);
            entry.write(bytes);
        }
    }
    smaller[1] -= 1;
    Some(smaller)
}

/// All from a step on made earlier by some steps.
pub fn earlier(log: &[u8], step: u16, by: u16) -> Option<Vec<u8>> {
    let end = length(whole_entries(log)?);
    let mut smaller = log.to_vec();
    for bytes in smaller[HEAD..end].chunks_exact_mut(WIDTH) {
        let mut entry = Entry::read(bytes);
        if entry.start >= step {
            entry.start -= by;
        }
        if entry.end >= step {
            entry.end -= by;
        }
        if entry.moment != NO_MOMENT && entry.moment / 2 >= step {
            entry.moment -= 2 * by;
        }
        entry.write(bytes);
    }
    Some(smaller)
}
