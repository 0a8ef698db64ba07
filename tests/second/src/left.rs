//! What a log leaves in a queue: its calls by rising moment, from an empty queue.

use crate::judge::judge;
use crate::log::{Entry, BOTTOM_POP, DONE, HEAD, NO_MOMENT, PUSH, TOP_POP, WIDTH};
use std::collections::VecDeque;

/// The judge's number where it is 11 to 16, so that the calls have no order, else 0; and the nodes
/// left, top first.
pub fn left(log: &[u8], queue: u8) -> (u32, Vec<u16>) {
    let (number, _) = judge(log);
    if (11..=16).contains(&number) {
        return (number, vec![]);
    }
    let entries = log[HEAD..].chunks_exact(WIDTH).map(Entry::read);
    let mut calls: Vec<Entry> = entries
        .filter(|entry| entry.queue == queue && entry.moment != NO_MOMENT)
        .collect();
    calls.sort_by_key(|entry| entry.moment);
    let mut nodes = VecDeque::new();
    for call in calls {
        match (call.kind, call.result) {
            (PUSH, DONE) => nodes.push_back(call.node),
            (BOTTOM_POP, DONE) => drop(nodes.pop_back()),
            (TOP_POP, DONE) => drop(nodes.pop_front()),
            _ => {}
        }
    }
    (0, nodes.into())
}
