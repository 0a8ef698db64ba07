//! Good run files: their sizes, scripts and bytes.

use crate::random::Random;
use crate::schedules::{schedule, slow_thieves};
use second::runfile::Call;

pub struct File {
    pub tag_bits: u8,
    pub capacity: u8,
    pub scripts: Vec<Vec<Call>>,
    pub schedule: Vec<u8>,
}

impl File {
    pub fn call_count(&self) -> usize {
        self.scripts.iter().map(Vec::len).sum()
    }

    pub fn bytes(&self) -> Vec<u8> {
        let mut bytes = vec![2, self.tag_bits, self.capacity, self.scripts.len() as u8];
        bytes.extend(self.scripts.iter().map(|script| script.len() as u8));
        bytes.extend((self.call_count() as u16).to_be_bytes());
        for &call in self.scripts.iter().flatten() {
            let (code, argument) = match call {
                Call::Push { node } => (1, node),
                Call::BottomPop => (2, 0),
                Call::TopPop { queue } => (3, u16::from(queue)),
            };
            bytes.push(code);
            bytes.extend(argument.to_be_bytes());
        }
        bytes.extend((self.schedule.len() as u16).to_be_bytes());
        bytes.extend(&self.schedule);
        bytes
    }
}

/// How likely each kind of call is in a script, and the one queue that all top pops are on, if any.
#[derive(Clone, Copy)]
struct Habit {
    push: usize,
    bottom_pop: usize,
    top_pop: usize,
    victim: Option<u8>,
}

/// Gives nodes that no earlier call of the file has.
struct Nodes {
    next: u16,
    stride: u16,
}

impl Nodes {
    fn new(random: &mut Random) -> Nodes {
        Nodes {
            next: random.pick(&[1, 1, 255, 65280]),
            stride: random.pick(&[1, 1, 257, 40503]),
        }
    }

    fn take(&mut self) -> u16 {
        let node = self.next;
        self.next = self.next.wrapping_add(self.stride);
        if self.next == 0 {
            self.next = self.stride;
        }
        node
    }
}

pub fn good_file(random: &mut Random) -> File {
    if random.one_in(5) {
        going_round(random)
    } else {
        any_good_file(random)
    }
}

/// An owner that pushes and pops by turns, so that its tag goes round or has no bits, and thieves that are slow.
fn going_round(random: &mut Random) -> File {
    let mut nodes = Nodes::new(random);
    let processes = random.between(2, 4);
    let mut scripts = vec![vec![Call::TopPop { queue: 0 }; random.between(1, 6)]; processes];
    scripts[0].clear();
    for _ in 0..random.between(2, 16) {
        scripts[0].push(Call::Push { node: nodes.take() });
        scripts[0].push(Call::BottomPop);
    }
    File {
        tag_bits: random.pick(&[0, 0, 1, 1, 1, 1, 1, 2, 3, 4]),
        capacity: random.pick(&[1, 2, 64]),
        schedule: slow_thieves(random, processes, 10 * scripts[0].len()),
        scripts,
    }
}

fn any_good_file(random: &mut Random) -> File {
    let processes = random.pick(&[1, 2, 2, 2, 3, 3, 4, 5, 8]);
    let longest = random.pick(&[1, 3, 6, 6, 12, 12, 32]);
    let (processes, shortest, longest) = match random.below(40) {
        0 => (8, 32, 32),
        1..=10 => (processes, longest, longest),
        _ => (processes, 0, longest),
    };
    let mut nodes = Nodes::new(random);
    let shared = habit(random, processes);
    let each_its_own = random.one_in(2);
    let scripts = (0..processes).map(|_| {
        let length = random.between(shortest, longest);
        let own = habit(random, processes);
        let habit = if each_its_own { own } else { shared };
        script(random, length, habit, processes, &mut nodes)
    });
    let scripts: Vec<Vec<Call>> = scripts.collect();
    let calls = scripts.iter().map(Vec::len).sum();
    File {
        tag_bits: random.pick(&[0, 0, 0, 1, 1, 1, 1, 2, 2, 3, 4, 5, 8, 15, 16]),
        capacity: random.pick(&[1, 1, 2, 2, 3, 4, 5, 32, 63, 64]),
        schedule: schedule(random, processes, calls),
        scripts,
    }
}

fn habit(random: &mut Random, processes: usize) -> Habit {
    let (push, bottom_pop, top_pop) = random.pick(&[
        (1, 1, 1),
        (3, 2, 1),
        (1, 1, 0),
        (1, 0, 0),
        (0, 0, 1),
        (0, 1, 3),
        (2, 3, 1),
    ]);
    let victim = match random.below(3) {
        0 => Some(random.below(processes) as u8),
        1 => Some(0),
        _ => None,
    };
    Habit {
        push,
        bottom_pop,
        top_pop,
        victim,
    }
}

fn script(
    random: &mut Random,
    length: usize,
    habit: Habit,
    processes: usize,
    nodes: &mut Nodes,
) -> Vec<Call> {
    let weights = habit.push + habit.bottom_pop + habit.top_pop;
    // An owner that pushes and pops by turns resets its queue most often.
    let by_turns = habit.top_pop == 0;
    let mut calls = Vec::with_capacity(length);
    for turn in 0..length {
        let any = random.below(weights);
        let drawn = if by_turns { turn % weights } else { any };
        calls.push(if drawn < habit.push {
            Call::Push { node: nodes.take() }
        } else if drawn < habit.push + habit.bottom_pop {
            Call::BottomPop
        } else {
            let any = random.below(processes) as u8;
            Call::TopPop {
                queue: habit.victim.unwrap_or(any),
            }
        });
    }
    calls
}
