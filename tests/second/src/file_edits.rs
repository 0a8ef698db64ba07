//! Run files with something left out and their counts kept in step.

use crate::layout::{put_two_bytes, Layout};
use second::log::{length, Entry, HEAD, MOST, WIDTH};
use std::ops::Range;

pub fn without_steps(file: &[u8], steps: &Range<usize>) -> Option<Vec<u8>> {
    let layout = Layout::of(file)?;
    let mut smaller = file.to_vec();
    let left = layout.schedule.len() - steps.len();
    put_two_bytes(&mut smaller, layout.calls.end, left);
    let first = layout.schedule.start;
    smaller.drain(first + steps.start..first + steps.end);
    Some(smaller)
}

pub fn without_calls(file: &[u8], calls: &Range<usize>) -> Option<Vec<u8>> {
    let layout = Layout::of(file)?;
    let mut smaller = file.to_vec();
    for call in calls.clone() {
        if let Some(owner) = layout.owner(file, call) {
            smaller[layout.lengths.start + owner] -= 1;
        }
    }
    let left = layout.call_count() - calls.len();
    put_two_bytes(&mut smaller, layout.lengths.end, left);
    smaller.drain(layout.call_at(calls.start)..layout.call_at(calls.end));
    Some(smaller)
}

/// Without some calls and the steps that they took, so that the other calls keep their order.
pub fn without_calls_and_steps(file: &[u8], calls: &Range<usize>) -> Option<Vec<u8>> {
    let layout = Layout::of(file)?;
    let entries = entries_of(file);
    let mut took = vec![false; layout.schedule.len()];
    for call in calls.clone() {
        let (process, nth) = layout.place(file, call)?;
        let own = |entry: &&Entry| usize::from(entry.process) == process;
        let Some(entry) = entries.iter().filter(own).nth(nth) else {
            continue;
        };
        let steps = took.iter_mut().zip(&file[layout.schedule.clone()]);
        let span = usize::from(entry.end - entry.start) + 1;
        for (took, &step) in steps.skip(usize::from(entry.start)).take(span) {
            *took |= usize::from(step) == process;
        }
    }
    let mut smaller = file.to_vec();
    for step in (0..took.len()).rev().filter(|&step| took[step]) {
        smaller = without_steps(&smaller, &(step..step + 1))?;
    }
    without_calls(&smaller, calls)
}

/// The entries of this side's log; none for a refused file.
fn entries_of(file: &[u8]) -> Vec<Entry> {
    let mut log = vec![0; length(MOST)];
    let written = second::run(file, &mut log, &mut [0; 4], &mut [0; second::TABLE]);
    let entries = log[..written].get(HEAD..).unwrap_or(&[]);
    entries.chunks_exact(WIDTH).map(Entry::read).collect()
}

/// Process numbers above the one that is left out fall by one.
pub fn renamed(number: u8, left_out: u8) -> u8 {
    number - u8::from(number > left_out)
}

/// Without a process, its calls and steps, and the top pops of its queue.
pub fn without_process(file: &[u8], process: u8) -> Option<Vec<u8>> {
    let mut smaller = file.to_vec();
    let layout = Layout::of(file)?;
    for call in (0..layout.call_count()).rev() {
        let at = layout.call_at(call);
        let own = layout.owner(file, call) == Some(usize::from(process));
        let top_pop = file[at] == 3;
        if own || top_pop && file[at + 2] == process {
            smaller = without_calls(&smaller, &(call..call + 1))?;
        } else if top_pop {
            smaller[at + 2] = renamed(file[at + 2], process);
        }
    }
    let layout = Layout::of(&smaller)?;
    for step in (0..layout.schedule.len()).rev() {
        let at = layout.schedule.start + step;
        if smaller[at] == process {
            smaller = without_steps(&smaller, &(step..step + 1))?;
        } else {
            smaller[at] = renamed(smaller[at], process);
        }
    }
    smaller.remove(layout.lengths.start + usize::from(process));
    smaller[3] -= 1;
    Some(smaller)
}
