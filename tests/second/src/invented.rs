//! Invented logs: calls on plain queues, without the bench. Many things happen in one step, so that
//! calls touch the edges of each other's windows.

use crate::logs::Log;
use crate::random::Random;
use second::log::{Entry, BOTTOM_POP, DONE, FULL, LOST, MOST, NIL, NO_MOMENT, PUSH, TOP_POP};
use std::collections::VecDeque;

#[derive(Clone, Copy)]
enum Call {
    None,
    Begun { entry: Entry, excused: bool },
    Decided(Entry),
}

struct World {
    queues: [VecDeque<u16>; 8],
    pushes_less_pops: [i32; 8],
    calls: [Call; 8],
    step: u16,
    moments_used: u16,
    end_used: bool,
    node: u16,
    calls_left: usize,
    /// One in so many calls is NIL or FULL without a reason.
    bold: usize,
    log: Log,
}

/// A log that keeps rules 1 to 4, with NIL and FULL now and then where rules 5 and 6 forbid them.
pub fn invented_log(random: &mut Random) -> Log {
    let mut world = World {
        queues: Default::default(),
        pushes_less_pops: [0; 8],
        calls: [Call::None; 8],
        step: random.pick(&[0, 0, 0, 30000]),
        moments_used: 0,
        end_used: false,
        node: 0,
        calls_left: random.pick(&[2, 4, 6, 10, 20, 60, MOST, MOST + 1]),
        bold: random.pick(&[4, 40, 400, 100_000]),
        log: Log {
            processes: random.pick(&[1, 2, 3, 3, 4, 8]),
            capacity: random.pick(&[1, 1, 2, 3, 5, 64]),
            entries: Vec::new(),
        },
    };
    let pace = random.pick(&[1, 2, 4]);
    while world.calls_left > 0 || world.has_open_calls() {
        let process = random.below(usize::from(world.log.processes));
        world.act(random, process);
        if random.one_in(pace) || world.end_used && world.moments_used == 2 {
            world.step += 1;
            world.moments_used = 0;
            world.end_used = false;
        }
    }
    world.log
}

impl World {
    fn has_open_calls(&self) -> bool {
        self.calls.iter().any(|call| !matches!(call, Call::None))
    }

    fn act(&mut self, random: &mut Random, process: usize) {
        self.calls[process] = match self.calls[process] {
            Call::None if self.calls_left > 0 => self.begin(random, process),
            Call::None => Call::None,
            Call::Begun { entry, excused } => self.decide(random, entry, excused),
            Call::Decided(entry) if self.end_used => Call::Decided(entry),
            Call::Decided(entry) => {
                self.end_used = true;
                self.log.entries.push(Entry {
                    end: self.step,
                    ..entry
                });
                Call::None
            }
        };
    }

    fn begin(&mut self, random: &mut Random, process: usize) -> Call {
        let own_last = self.log.entries.iter().rev();
        let mut own_last = own_last.filter(|entry| usize::from(entry.process) == process);
        if own_last.next().is_some_and(|entry| entry.end == self.step) {
            return Call::None;
        }
        self.calls_left -= 1;
        let kind = random.pick(&[PUSH, PUSH, BOTTOM_POP, TOP_POP, TOP_POP]);
        let any = random.below(usize::from(self.log.processes));
        let any_or_first = random.pick(&[0, any]);
        let queue = if kind == TOP_POP {
            any_or_first
        } else {
            process
        };
        let enough = self.pushes_less_pops[queue] >= i32::from(self.log.capacity);
        let entry = Entry {
            process: process as u8,
            queue: queue as u8,
            kind,
            start: self.step,
            moment: NO_MOMENT,
            ..Entry::default()
        };
        let excused = match kind {
            PUSH => enough,
            _ => self.queues[queue].is_empty(),
        };
        Call::Begun { entry, excused }
    }

    /// Lets a call take effect now; it stays begun where this step has no moment left for it.
    fn decide(&mut self, random: &mut Random, mut entry: Entry, excused: bool) -> Call {
        let queue = usize::from(entry.queue);
        let excused = excused || random.one_in(self.bold);
        let empty = self.queues[queue].is_empty();
        let without_moment = match entry.kind {
            PUSH => excused && random.one_in(2),
            TOP_POP => empty || excused && random.one_in(2),
            _ => false,
        };
        if without_moment {
            if entry.kind == PUSH {
                entry.result = FULL;
                entry.node = self.next_node();
            } else {
                entry.result = random.pick(&[NIL, LOST]);
            }
            return Call::Decided(entry);
        }
        if self.moments_used == 2 {
            return Call::Begun { entry, excused };
        }
        entry.moment = 2 * self.step + self.moments_used;
        self.moments_used += 1;
        self.take_effect(&mut entry);
        Call::Decided(entry)
    }

    fn next_node(&mut self) -> u16 {
        self.node += 1;
        self.node
    }

    fn take_effect(&mut self, entry: &mut Entry) {
        let queue = usize::from(entry.queue);
        if entry.kind == PUSH {
            entry.node = self.next_node();
            entry.result = DONE;
            self.pushes_less_pops[queue] += 1;
            self.queues[queue].push_back(entry.node);
            return;
        }
        let given = match entry.kind {
            BOTTOM_POP => self.pop(queue),
            _ => self.queues[queue].pop_front(),
        };
        entry.node = given.unwrap_or(0);
        entry.result = if given.is_some() { DONE } else { NIL };
        let removed_topmost = entry.kind == TOP_POP || self.queues[queue].is_empty();
        if removed_topmost {
            self.excuse_thieves(entry.queue);
        }
    }

    /// A bottom pop; the count that rule 6 asks for starts anew where it gives NIL.
    fn pop(&mut self, queue: usize) -> Option<u16> {
        let given = self.queues[queue].pop_back();
        let count = &mut self.pushes_less_pops[queue];
        *count = given.map_or(0, |_| *count - 1);
        given
    }

    fn excuse_thieves(&mut self, queue: u8) {
        for call in &mut self.calls {
            if let Call::Begun { entry, excused } = call {
                *excused |= entry.kind == TOP_POP && entry.queue == queue;
            }
        }
    }
}
