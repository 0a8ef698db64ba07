//! A file's run under its schedule, one shared access at a time, and its closing.

use crate::log::{self, Entry, BOTTOM_POP, DONE, NO_MOMENT, PUSH, TOP_POP};
use crate::queue::{After, Queue, Sizes, Stage};
use crate::runfile::{Call, RunFile};
use crate::{ROW, TABLE};

#[derive(Clone, Copy)]
struct Process {
    next_call: usize,
    calls_end: usize,
    stage: Option<Stage>,
    queue: u8,
    start: u16,
    b2: u16,
    resets_at_t1: u16,
}

#[derive(Clone)]
pub struct Bench<'a> {
    file: RunFile<'a>,
    queues: [Queue; 8],
    resets: [u16; 8],
    processes: [Process; 8],
    steps: u16,
    entries: Vec<Entry>,
    gone_round: u16,
}

impl<'a> Bench<'a> {
    pub fn new(file: RunFile<'a>) -> Bench<'a> {
        let idle = Process {
            next_call: 0,
            calls_end: 0,
            stage: None,
            queue: 0,
            start: 0,
            b2: 0,
            resets_at_t1: 0,
        };
        let mut processes = [idle; 8];
        let mut first = 0;
        for (process, &length) in processes.iter_mut().zip(file.lengths) {
            process.next_call = first;
            first += usize::from(length);
            process.calls_end = first;
        }
        Bench {
            file,
            queues: [Queue::FRESH; 8],
            resets: [0; 8],
            processes,
            steps: 0,
            entries: Vec::with_capacity(file.call_count()),
            gone_round: 0,
        }
    }

    pub fn run(&mut self) {
        for &process in self.file.schedule {
            self.step(usize::from(process));
        }
        for process in 0..self.file.lengths.len() {
            while self.processes[process].stage.is_some() {
                self.step(process);
            }
        }
    }

    /// Whether a step of this process would do anything.
    pub fn has_work(&self, process: usize) -> bool {
        let process = &self.processes[process];
        process.stage.is_some() || process.next_call < process.calls_end
    }

    pub fn step(&mut self, process: usize) {
        if self.processes[process].stage.is_none() {
            self.begin(process);
        }
        if let Some(stage) = self.processes[process].stage {
            self.access(process, stage);
        }
        self.steps += 1;
    }

    fn begin(&mut self, index: usize) {
        let process = &mut self.processes[index];
        if process.next_call == process.calls_end {
            return;
        }
        let call = self.file.call(process.next_call);
        process.next_call += 1;
        process.stage = Some(Stage::first(call));
        process.start = self.steps;
        process.queue = match call {
            Call::TopPop { queue } => queue,
            _ => index as u8,
        };
    }

    fn access(&mut self, index: usize, stage: Stage) {
        let sizes = Sizes {
            tag_bits: self.file.tag_bits,
            capacity: self.file.capacity,
        };
        let queue = usize::from(self.processes[index].queue);
        let after = self.queues[queue].step(sizes, stage);
        let process = &mut self.processes[index];
        match stage {
            Stage::T1 => process.resets_at_t1 = self.resets[queue],
            Stage::B2 { .. } => process.b2 = self.steps,
            _ => {}
        }
        match after {
            After::Next(next) => process.stage = Some(next),
            After::End { result, node } => {
                process.stage = None;
                self.end(index, stage, result, node);
            }
        }
    }

    fn end(&mut self, index: usize, last: Stage, result: u8, node: u16) {
        let process = self.processes[index];
        let queue = usize::from(process.queue);
        let moment = self.moment(&process, last, result);
        let resets = matches!(last, Stage::B6 { .. } | Stage::B7 { .. });
        self.resets[queue] += u16::from(resets);
        let took = matches!(last, Stage::T4 { .. }) && result == DONE;
        self.gone_round += u16::from(took && self.resets[queue] != process.resets_at_t1);
        self.entries.push(Entry {
            process: index as u8,
            queue: process.queue,
            kind: kind(last),
            result,
            node,
            start: process.start,
            end: self.steps,
            moment,
        });
    }

    fn moment(&self, process: &Process, last: Stage, result: u8) -> u16 {
        match last {
            Stage::P3 { .. } | Stage::B1 => 2 * self.steps,
            Stage::B4 { .. } | Stage::B6 { .. } => 2 * process.b2,
            Stage::B7 { .. } => 2 * process.b2 + 1,
            Stage::T4 { age, .. } if result == DONE => {
                let owner = &self.processes[usize::from(process.queue)];
                match owner.stage.and_then(|stage| stage.past_b2()) {
                    // The last node left the queue at the owner's B2, before this T4.
                    Some(b) if b - 1 == age.top => 2 * owner.b2,
                    _ => 2 * self.steps,
                }
            }
            _ => NO_MOMENT,
        }
    }

    pub fn report(&self) -> [u16; 4] {
        [0, self.entries.len() as u16, self.steps, self.gone_round]
    }

    pub fn write_table(&self, table: &mut [u16; TABLE]) {
        let processes = self.file.lengths.len();
        for (queue, row) in self.queues[..processes]
            .iter()
            .zip(table.chunks_exact_mut(ROW))
        {
            row[..3].copy_from_slice(&[queue.bottom, queue.age.top, queue.age.tag]);
            row[3..].copy_from_slice(&queue.slots);
        }
    }

    pub fn write_log(&self, log: &mut [u8]) -> usize {
        let processes = self.file.lengths.len() as u8;
        log::write(processes, self.file.capacity, &self.entries, log)
    }
}

fn kind(stage: Stage) -> u8 {
    match stage {
        Stage::P1 { .. } | Stage::P2 { .. } | Stage::P3 { .. } => PUSH,
        Stage::T1 | Stage::T2 { .. } | Stage::T3 { .. } | Stage::T4 { .. } => TOP_POP,
        _ => BOTTOM_POP,
    }
}
