//! Schedules of many kinds for a file's processes.

use crate::random::Random;

pub const LONGEST: usize = 4096;

pub fn schedule(random: &mut Random, processes: usize, calls: usize) -> Vec<u8> {
    let length = match random.below(30) {
        0 => 0,
        1 => LONGEST,
        2 => random.below(LONGEST),
        3..=8 => random.below(calls + 2),
        9..=20 => 4 * calls + random.below(8),
        _ => 6 * calls + random.below(40),
    };
    match random.below(8) {
        0 => round_robin(random, processes, length),
        1 => starved(random, processes, length),
        2 => lopsided(random, processes, length),
        3 => bursts(random, processes, length, 4),
        4 => bursts(random, processes, length, 9),
        5 | 6 => slow_thieves(random, processes, length),
        _ => bursts(random, processes, length, 1),
    }
}

/// Runs of at most `longest` steps by one process. Bursts of one step are an even mix.
fn bursts(random: &mut Random, processes: usize, length: usize, longest: usize) -> Vec<u8> {
    let mut steps = Vec::with_capacity(length + longest);
    while steps.len() < length {
        let process = random.below(processes) as u8;
        let burst = random.between(1, longest);
        steps.resize(steps.len() + burst, process);
    }
    steps.truncate(length);
    steps
}

fn round_robin(random: &mut Random, processes: usize, length: usize) -> Vec<u8> {
    let turn = random.between(1, 7);
    (0..length)
        .map(|step| (step / turn % processes) as u8)
        .collect()
}

/// One process gets a few steps at the front and then none until near the end.
fn starved(random: &mut Random, processes: usize, length: usize) -> Vec<u8> {
    let hungry = random.below(processes);
    let begun = random.between(0, 12.min(length));
    let fed_again = length - random.between(0, 8.min(length - begun));
    let mut steps = bursts(random, processes, length, 3);
    for step in &mut steps[begun..fed_again] {
        if usize::from(*step) == hungry {
            *step = ((hungry + 1) % processes) as u8;
        }
    }
    steps
}

/// Process 0 gets most of the steps, so that its queue is reset often under slow thieves.
fn lopsided(random: &mut Random, processes: usize, length: usize) -> Vec<u8> {
    let rest = random.between(3, 12);
    let mut steps = bursts(random, processes, length, 1);
    for step in &mut steps {
        if !random.one_in(rest) {
            *step = 0;
        }
    }
    steps
}

/// Process 0 does whole pushes and pops between a few steps of the others, so that tags go round.
pub fn slow_thieves(random: &mut Random, processes: usize, length: usize) -> Vec<u8> {
    let mut steps = Vec::with_capacity(length + 18);
    while steps.len() < length {
        let thief = random.below(processes) as u8;
        let thief_steps = random.pick(&[1, 1, 3, 4]);
        steps.resize(steps.len() + thief_steps, thief);
        let owner_steps = random.pick(&[3, 6, 9, 18]);
        steps.resize(steps.len() + owner_steps, 0);
    }
    steps.truncate(length);
    steps
}
