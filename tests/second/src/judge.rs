//! The judge: the numbers 11 to 19 of a log, from its bytes alone.

use crate::log::{
    length, Entry, BOTTOM_POP, DONE, FULL, HEAD, LOST, MOST, NIL, NO_MOMENT, PUSH, TOP_POP, WIDTH,
};
use crate::seen::Seen;

struct Log {
    processes: u8,
    capacity: u8,
    entries: Vec<Entry>,
}

/// The number, and the entry at fault where the number is 14 to 19.
pub fn judge(bytes: &[u8]) -> (u32, u32) {
    let log = match read(bytes) {
        Ok(log) => log,
        Err(number) => return (number, 0),
    };
    match log.fault() {
        Some((number, entry)) => (number, entry as u32),
        None => (0, 0),
    }
}

fn read(bytes: &[u8]) -> Result<Log, u32> {
    if bytes.len() < HEAD {
        return Err(11);
    }
    let [processes, capacity] = [bytes[1], bytes[2]];
    let count = usize::from(bytes[3]) * 256 + usize::from(bytes[4]);
    let sizes_hold = (1..=8).contains(&processes) && (1..=64).contains(&capacity);
    if bytes[0] != 2 || !sizes_hold || count > MOST {
        return Err(12);
    }
    if bytes.len() < length(count) {
        return Err(11);
    }
    if bytes.len() > length(count) {
        return Err(13);
    }
    Ok(Log {
        processes,
        capacity,
        entries: bytes[HEAD..].chunks_exact(WIDTH).map(Entry::read).collect(),
    })
}

fn has_moment(entry: &Entry) -> bool {
    entry.kind == BOTTOM_POP || entry.result == DONE
}

fn first_moment(entry: &Entry) -> u32 {
    2 * u32::from(entry.start)
}

fn last_moment(entry: &Entry) -> u32 {
    2 * u32::from(entry.end) + 1
}

fn window(entry: &Entry) -> std::ops::RangeInclusive<u32> {
    first_moment(entry)..=last_moment(entry)
}

/// A queue of rule 4. At most 256 pushes ever move its bottom.
#[derive(Clone, Copy)]
struct Line {
    nodes: [u16; MOST],
    top: usize,
    bottom: usize,
}

impl Line {
    fn is_empty(&self) -> bool {
        self.top == self.bottom
    }

    fn push(&mut self, node: u16) {
        self.nodes[self.bottom] = node;
        self.bottom += 1;
    }

    fn pop_bottom(&mut self) -> Option<u16> {
        if self.is_empty() {
            return None;
        }
        self.bottom -= 1;
        Some(self.nodes[self.bottom])
    }

    fn pop_top(&mut self) -> Option<u16> {
        if self.is_empty() {
            return None;
        }
        self.top += 1;
        Some(self.nodes[self.top - 1])
    }
}

impl Log {
    fn fault(&self) -> Option<(u32, usize)> {
        if let Some(entry) = self.rule_1() {
            return Some((14, entry));
        }
        if let Some(entry) = self.rule_2() {
            return Some((15, entry));
        }
        if let Some(entry) = self.rule_3() {
            return Some((16, entry));
        }
        let order = self.by_moment();
        if let Some(entry) = self.rule_4(&order) {
            return Some((17, entry));
        }
        if let Some(entry) = self.rule_5(&order) {
            return Some((18, entry));
        }
        self.rule_6().map(|entry| (19, entry))
    }

    fn rule_1(&self) -> Option<usize> {
        self.entries.iter().position(|entry| {
            let lawful = entry.process < self.processes
                && entry.queue < self.processes
                && (PUSH..=TOP_POP).contains(&entry.kind)
                && entry.result <= LOST
                && (entry.kind == TOP_POP || entry.queue == entry.process)
                && (entry.result != FULL || entry.kind == PUSH)
                && (entry.result != NIL || entry.kind != PUSH)
                && (entry.result != LOST || entry.kind == TOP_POP)
                && (entry.node == 0) == entry.is_nil()
                && entry.start <= entry.end
                && entry.end <= 32766;
            !lawful
        })
    }

    fn rule_2(&self) -> Option<usize> {
        let mut last_end = None;
        let mut own_last_end = [None; 8];
        self.entries.iter().position(|entry| {
            let own = &mut own_last_end[usize::from(entry.process)];
            let lawful = last_end < Some(entry.end) && *own < Some(entry.start);
            last_end = Some(entry.end);
            *own = Some(entry.end);
            !lawful
        })
    }

    fn rule_3(&self) -> Option<usize> {
        let mut moments = Seen::new();
        self.entries.iter().position(|entry| {
            let lawful = if has_moment(entry) {
                window(entry).contains(&u32::from(entry.moment)) && moments.add(entry.moment)
            } else {
                entry.moment == NO_MOMENT
            };
            !lawful
        })
    }

    fn by_moment(&self) -> Vec<usize> {
        let mut order: Vec<usize> = (0..self.entries.len())
            .filter(|&index| has_moment(&self.entries[index]))
            .collect();
        order.sort_unstable_by_key(|&index| self.entries[index].moment);
        order
    }

    fn rule_4(&self, order: &[usize]) -> Option<usize> {
        let empty = Line {
            nodes: [0; MOST],
            top: 0,
            bottom: 0,
        };
        let mut lines = [empty; 8];
        let mut pushed = Seen::new();
        order.iter().copied().find(|&index| {
            let entry = &self.entries[index];
            let line = &mut lines[usize::from(entry.queue)];
            let given = (entry.result == DONE).then_some(entry.node);
            let lawful = match entry.kind {
                PUSH => {
                    line.push(entry.node);
                    pushed.add(entry.node)
                }
                BOTTOM_POP => line.pop_bottom() == given,
                _ => line.pop_top() == given,
            };
            !lawful
        })
    }

    fn rule_5(&self, order: &[usize]) -> Option<usize> {
        self.entries.iter().position(|entry| {
            entry.kind == TOP_POP && entry.is_nil() && !self.nil_is_lawful(entry, order)
        })
    }

    fn nil_is_lawful(&self, nil: &Entry, order: &[usize]) -> bool {
        let mut nodes = 0;
        let mut empty_at_start = true;
        for entry in order.iter().map(|&index| &self.entries[index]) {
            let moment = u32::from(entry.moment);
            if moment > last_moment(nil) {
                break;
            }
            if entry.queue != nil.queue {
                continue;
            }
            let removal = entry.kind != PUSH && entry.result == DONE;
            match entry.kind {
                PUSH => nodes += 1,
                _ => nodes -= i32::from(removal),
            }
            if moment <= first_moment(nil) {
                empty_at_start = nodes == 0;
            }
            let topmost = removal && (entry.kind == TOP_POP || nodes == 0);
            let by_another = topmost && entry.process != nil.process;
            if window(nil).contains(&moment) && (nodes == 0 || by_another) {
                return true;
            }
        }
        empty_at_start
    }

    fn rule_6(&self) -> Option<usize> {
        (0..self.entries.len()).find(|&place| {
            let full = self.entries[place].result == FULL;
            full && self.pushes_less_pops(place) < i32::from(self.capacity)
        })
    }

    /// Done pushes less node-giving bottom pops on the queue of the call at `place`, before it and after the queue's latest NIL bottom pop.
    fn pushes_less_pops(&self, place: usize) -> i32 {
        let queue = self.entries[place].queue;
        let earlier = self.entries[..place].iter().rev();
        earlier
            .filter(|entry| entry.queue == queue)
            .map(|entry| (entry.kind, entry.result))
            .take_while(|&call| call != (BOTTOM_POP, NIL))
            .map(|call| match call {
                (PUSH, DONE) => 1,
                (BOTTOM_POP, DONE) => -1,
                _ => 0,
            })
            .sum()
    }
}
