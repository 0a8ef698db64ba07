//! Small logs aimed at the edge of one rule each.

use crate::logs::Log;
use crate::random::Random;
use second::log::{Entry, BOTTOM_POP, DONE, FULL, LOST, NIL, NO_MOMENT, PUSH, TOP_POP};
use std::collections::VecDeque;

pub fn aimed_log(random: &mut Random) -> Log {
    match random.below(5) {
        0 => clashing_ends(random),
        1 => clashing_moments(random),
        2 => wrong_calls(random),
        3 => nil_beside_removal(random),
        _ => full_beside_pushes(random),
    }
}

/// Adds a call that takes effect at its moment, and lasts to the first free end.
fn add(log: &mut Log, call: Entry) {
    let mut call = call;
    while log.entries.iter().any(|entry| entry.end == call.end) {
        call.end += 1;
    }
    log.entries.push(call);
}

fn call(process: u8, kind: u8, node: u16, moment: u16) -> Entry {
    Entry {
        process,
        queue: if kind == TOP_POP { 0 } else { process },
        kind,
        result: DONE,
        node,
        start: moment / 2,
        end: moment / 2,
        moment,
    }
}

fn pushes(random: &mut Random, count: usize) -> Log {
    let mut log = Log {
        processes: 4,
        capacity: random.between(1, 6) as u8,
        entries: Vec::new(),
    };
    for push in 0..count as u16 {
        add(&mut log, call(0, PUSH, push + 1, 2 * push));
    }
    log
}

fn by_end(mut log: Log) -> Log {
    log.entries.sort_by_key(|entry| entry.end);
    log
}

/// Rule 2: several equal or falling ends, and calls that start before their process's last end.
fn clashing_ends(random: &mut Random) -> Log {
    let count = random.between(3, 8);
    let mut log = pushes(random, count);
    for entry in &mut log.entries {
        entry.process = random.below(2) as u8;
        entry.queue = entry.process;
    }
    for _ in 0..random.between(1, 3) {
        let at = random.below(count);
        let other = random.below(count);
        let end = log.entries[other].end;
        log.entries[at].end = end.max(log.entries[at].start);
    }
    log
}

/// Rule 3: several calls that last from the first step on, some with the same moment.
fn clashing_moments(random: &mut Random) -> Log {
    let mut log = pushes(random, 0);
    log.processes = 8;
    for process in 0..random.between(2, 8) as u8 {
        let moment = random.below(12) as u16;
        let mut pop = call(process, BOTTOM_POP, 0, moment);
        pop.result = NIL;
        pop.start = 0;
        pop.end = 5 + u16::from(process) - random.pick(&[0, 0, 0, u16::from(process)]);
        pop.moment = random.pick(&[moment, moment, moment, moment, NO_MOMENT]);
        log.entries.push(pop);
    }
    by_end(log)
}

/// Rule 4: long calls whose moments stand in another order than their ends, most of them unlawful.
fn wrong_calls(random: &mut Random) -> Log {
    let count = random.between(1, 4);
    let mut log = pushes(random, count);
    for process in random.below(2) as u8..4 {
        let moment = 20 + 4 * random.below(5) as u16 + u16::from(process);
        let node = random.between(1, count + 1) as u16;
        let kind = random.pick(&[PUSH, BOTTOM_POP, TOP_POP, TOP_POP]);
        let mut wrong = call(process, kind, node, moment);
        if kind == BOTTOM_POP && random.one_in(2) {
            wrong.result = NIL;
            wrong.node = 0;
        }
        wrong.end = 30 + random.below(8) as u16;
        add(&mut log, wrong);
    }
    by_end(log)
}

/// Rule 5: a NIL of thief 1, and a removal and a push about the edges of its window.
fn nil_beside_removal(random: &mut Random) -> Log {
    let count = random.between(0, 2);
    let mut log = pushes(random, count);
    let start = 20;
    let end = start + random.below(3) as u16;
    let edges = [
        2 * start - 1,
        2 * start,
        2 * start + 1,
        2 * end,
        2 * end + 1,
        2 * end + 2,
    ];
    let mut nil = call(1, TOP_POP, 0, NO_MOMENT);
    nil.result = random.pick(&[NIL, LOST]);
    (nil.start, nil.end) = (start, end);
    log.entries.push(nil);
    let removed_at = random.pick(&edges);
    let pushed_at = random.pick(&edges);
    if count > 0 && !random.one_in(4) {
        let removal = match random.below(3) {
            0 => call(0, BOTTOM_POP, count as u16, removed_at),
            other => call(other as u8 + 1, TOP_POP, 1, removed_at),
        };
        add(&mut log, removal);
    }
    if random.one_in(2) {
        add(&mut log, call(0, PUSH, 9, pushed_at));
    }
    by_end(log)
}

/// Rule 6: a FULL after pushes, pops and NILs on its queue and beside it, of which as many count as there are slots, one more or one fewer.
fn full_beside_pushes(random: &mut Random) -> Log {
    let mut log = pushes(random, 0);
    let (mut nodes, mut count) = (VecDeque::new(), 0);
    for place in 0..random.between(1, 9) as u16 {
        let node = place + 1;
        let mut entry = match random.below(9) {
            0..=3 => call(0, PUSH, node, 2 * place),
            4 | 5 => call(0, BOTTOM_POP, nodes.pop_back().unwrap_or(0), 2 * place),
            6 => call(1, TOP_POP, nodes.pop_front().unwrap_or(0), 2 * place),
            7 => call(1, BOTTOM_POP, 0, 2 * place),
            _ => call(2, PUSH, node, 2 * place),
        };
        if entry.node == 0 {
            entry.result = NIL;
        }
        match (entry.queue, entry.kind, entry.result) {
            (0, PUSH, _) => {
                nodes.push_back(node);
                count += 1;
            }
            (0, BOTTOM_POP, DONE) => count -= 1,
            (0, BOTTOM_POP, _) => count = 0,
            (0, TOP_POP, NIL) => entry.moment = NO_MOMENT,
            _ => {}
        }
        log.entries.push(entry);
    }
    let mut full = call(0, PUSH, 99, 2 * log.entries.len() as u16);
    (full.result, full.moment) = (FULL, NO_MOMENT);
    log.entries.push(full);
    log.capacity = (count - 1 + random.below(3) as i32).max(1) as u8;
    log
}
