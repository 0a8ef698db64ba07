//! Logs as entries: from bytes, to bytes, and damaged ones.

use crate::damage::damage_bytes;
use crate::random::Random;
use second::log::{self, Entry, HEAD, LOST, NIL, NO_MOMENT, WIDTH};

/// The last end that rule 1 allows.
const LAST_END: u16 = 32766;

pub struct Log {
    pub processes: u8,
    pub capacity: u8,
    pub entries: Vec<Entry>,
}

impl Log {
    /// The entries of a log that the bench wrote.
    pub fn of(bytes: &[u8]) -> Log {
        Log {
            processes: bytes[1],
            capacity: bytes[2],
            entries: bytes[HEAD..].chunks_exact(WIDTH).map(Entry::read).collect(),
        }
    }

    pub fn bytes(&self) -> Vec<u8> {
        let mut bytes = vec![0; log::length(self.entries.len())];
        log::write(self.processes, self.capacity, &self.entries, &mut bytes);
        bytes
    }

    pub fn damage(&mut self, random: &mut Random) {
        let count = self.entries.len();
        if count == 0 {
            self.capacity = random.pick(&[0, 1, 64, 65]);
            return;
        }
        let at = random.below(count);
        let other = random.below(count);
        match random.below(18) {
            0 => self.entries.swap(at, other),
            1 => self.entries.swap(at, (at + 1) % count),
            2 => drop(self.entries.remove(at)),
            3 => self.entries.insert(other, self.entries[at]),
            4 => self.processes = random.pick(&[0, self.processes.max(2) - 1, 8, 9]),
            5 => self.capacity = random.pick(&[0, 1, 2, 64, 65]),
            6 => self.exchange(at, other, random),
            7 => self.make_old(random),
            8..=11 => move_times(random, &mut self.entries[at]),
            12..=14 => move_moment(random, &mut self.entries[at]),
            _ => change_fields(random, &mut self.entries[at]),
        }
    }

    /// Some NILs at T4 are written as a box of before wrote them.
    fn make_old(&mut self, random: &mut Random) {
        let lost = self.entries.iter_mut().filter(|entry| entry.result == LOST);
        lost.filter(|_| random.one_in(2))
            .for_each(|entry| entry.result = NIL);
    }

    fn exchange(&mut self, at: usize, other: usize, random: &mut Random) {
        let (one, two) = (self.entries[at], self.entries[other]);
        if random.one_in(2) {
            self.entries[at].node = two.node;
            self.entries[other].node = one.node;
        } else {
            self.entries[at].moment = two.moment;
            self.entries[other].moment = one.moment;
        }
    }
}

fn move_moment(random: &mut Random, entry: &mut Entry) {
    entry.moment = random.pick(&[
        entry.moment.wrapping_add(1),
        entry.moment.wrapping_sub(1),
        (2 * u32::from(entry.start)) as u16,
        (2 * u32::from(entry.end) + 1) as u16,
        (2 * u32::from(entry.end) + 2) as u16,
        (2 * u32::from(entry.start)).wrapping_sub(1) as u16,
        NO_MOMENT,
        0,
    ]);
}

/// Shortens or lengthens a call by a few steps.
fn move_times(random: &mut Random, entry: &mut Entry) {
    let by = random.between(1, 3) as u16;
    match random.below(6) {
        0 => entry.start = entry.start.wrapping_sub(by),
        1 => entry.start = entry.start.saturating_add(by),
        2 => entry.end = entry.end.wrapping_sub(by),
        3 => entry.end = entry.end.saturating_add(by),
        4 => entry.start = entry.end,
        _ => entry.end = random.pick(&[LAST_END, LAST_END + 1, 65535]),
    }
}

fn change_fields(random: &mut Random, entry: &mut Entry) {
    match random.below(6) {
        0 => entry.process = random.pick(&[0, 1, 2, 7, 8]),
        1 => entry.queue = random.pick(&[0, 1, 2, 7, 8]),
        2 => entry.kind = random.pick(&[0, 1, 2, 3, 4]),
        3 => entry.result = random.pick(&[0, 1, 2, 3, 4]),
        4 => entry.node = random.pick(&[0, 1, 2, entry.node.wrapping_add(1), 65535]),
        _ => {
            entry.result = random.pick(&[NIL, LOST]);
            entry.node = 0;
            entry.moment = random.pick(&[entry.moment, NO_MOMENT]);
        }
    }
}

/// A log with one to three things changed, some of them in its bytes.
pub fn damaged_log(random: &mut Random, bytes: &[u8]) -> Vec<u8> {
    let mut log = Log::of(bytes);
    for _ in 0..random.between(1, 3) {
        log.damage(random);
    }
    let mut bytes = log.bytes();
    if random.one_in(5) {
        damage_bytes(random, &mut bytes);
    }
    bytes
}
