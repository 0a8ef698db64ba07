//! The log's entries and their bytes.

use std::fmt;

pub const HEAD: usize = 5;
pub const WIDTH: usize = 12;
pub const MOST: usize = 256;
pub const NO_MOMENT: u16 = 65535;

pub const PUSH: u8 = 1;
pub const BOTTOM_POP: u8 = 2;
pub const TOP_POP: u8 = 3;

pub const NIL: u8 = 0;
pub const DONE: u8 = 1;
pub const FULL: u8 = 2;
/// NIL at T4.
pub const LOST: u8 = 3;

#[derive(Clone, Copy, Default)]
pub struct Entry {
    pub process: u8,
    pub queue: u8,
    pub kind: u8,
    pub result: u8,
    pub node: u16,
    pub start: u16,
    pub end: u16,
    pub moment: u16,
}

pub fn length(entries: usize) -> usize {
    HEAD + WIDTH * entries
}

impl Entry {
    pub fn is_nil(&self) -> bool {
        self.result == NIL || self.result == LOST
    }

    pub fn read(bytes: &[u8]) -> Entry {
        let two = |at: usize| u16::from_be_bytes([bytes[at], bytes[at + 1]]);
        Entry {
            process: bytes[0],
            queue: bytes[1],
            kind: bytes[2],
            result: bytes[3],
            node: two(4),
            start: two(6),
            end: two(8),
            moment: two(10),
        }
    }

    pub fn write(&self, bytes: &mut [u8]) {
        bytes[..4].copy_from_slice(&[self.process, self.queue, self.kind, self.result]);
        bytes[4..6].copy_from_slice(&self.node.to_be_bytes());
        bytes[6..8].copy_from_slice(&self.start.to_be_bytes());
        bytes[8..10].copy_from_slice(&self.end.to_be_bytes());
        bytes[10..12].copy_from_slice(&self.moment.to_be_bytes());
    }
}

impl fmt::Display for Entry {
    fn fmt(&self, out: &mut fmt::Formatter) -> fmt::Result {
        let (process, queue, kind) = (self.process, self.queue, self.kind);
        let (result, node, moment) = (self.result, self.node, self.moment);
        write!(out, "{process} {queue} {kind} {result} {node} ")?;
        write!(out, "{} {} {moment}", self.start, self.end)
    }
}

/// Writes a log at the front of a buffer; gives its length.
pub fn write(processes: u8, capacity: u8, entries: &[Entry], log: &mut [u8]) -> usize {
    let [high, low] = (entries.len() as u16).to_be_bytes();
    log[..HEAD].copy_from_slice(&[2, processes, capacity, high, low]);
    for (entry, bytes) in entries.iter().zip(log[HEAD..].chunks_exact_mut(WIDTH)) {
        entry.write(bytes);
    }
    length(entries.len())
}
