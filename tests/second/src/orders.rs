//! Every order of the steps of some small files.

use crate::files::File;
use crate::make::Maker;
use second::bench::Bench;
use second::log::{length, MOST};
use second::runfile::{Call, RunFile};
use std::io::{self, Write};

use Call::BottomPop;

const STEAL: Call = Call::TopPop { queue: 0 };
const STEAL_BACK: Call = Call::TopPop { queue: 1 };
const STEALS: [Call; 2] = [STEAL; 2];
const ROUND: [Call; 2] = [push(1), BottomPop];
const TWO_ROUNDS: [Call; 5] = [push(1), BottomPop, push(2), BottomPop, push(3)];
const TWO_NODES: [Call; 4] = [push(1), push(2), BottomPop, BottomPop];
const ONE_TOO_MANY: [Call; 3] = [push(1), push(2), BottomPop];
const AGAIN: [Call; 3] = [push(1), BottomPop, push(2)];
const FROM_ITSELF: [Call; 3] = [push(1), STEAL, BottomPop];

const fn push(node: u16) -> Call {
    Call::Push { node }
}

/// Files whose calls race for few nodes. Their schedules are what every order begins with.
fn small_files() -> Vec<File> {
    let small = |tag_bits, capacity, scripts: &[&[Call]], schedule: &[u8]| File {
        tag_bits,
        capacity,
        scripts: scripts.iter().map(|script| script.to_vec()).collect(),
        schedule: schedule.to_vec(),
    };
    let pushed = [0; 3];
    let pushed_two = [0; 6];
    let past_t2 = [0, 0, 0, 2, 2];
    let past_t3 = [0, 0, 0, 2, 2, 2];
    vec![
        small(1, 4, &[&ROUND, &STEALS], &[]),
        small(1, 1, &[&TWO_ROUNDS, &[STEAL]], &[]),
        small(2, 1, &[&TWO_ROUNDS, &[STEAL]], &[]),
        small(0, 1, &[&TWO_ROUNDS, &[STEAL]], &[]),
        small(1, 2, &[&TWO_NODES, &[STEAL]], &[]),
        small(1, 2, &[&TWO_NODES, &STEALS], &pushed_two),
        small(1, 1, &[&ONE_TOO_MANY, &STEALS], &pushed),
        small(1, 1, &[&ROUND, &[STEAL], &[STEAL]], &past_t2),
        small(1, 2, &[&AGAIN, &[STEAL], &[STEAL]], &past_t3),
        small(16, 2, &[&FROM_ITSELF, &[STEAL]], &[]),
        small(1, 1, &[&[push(1), STEAL_BACK], &[push(2), STEAL]], &[]),
    ]
}

pub fn all_orders(maker: &mut Maker<impl Write>) -> io::Result<()> {
    for mut file in small_files() {
        let bytes = file.bytes();
        let mut bench = Bench::new(RunFile::read(&bytes).expect("a good file"));
        for &process in &file.schedule {
            bench.step(usize::from(process));
        }
        orders_from(&bench, &mut file, maker)?;
    }
    Ok(())
}

/// Lengthens the schedule by every process that has work left, until none has.
fn orders_from(bench: &Bench, file: &mut File, maker: &mut Maker<impl Write>) -> io::Result<()> {
    let mut finished = true;
    for process in 0..file.scripts.len() {
        if bench.has_work(process) {
            finished = false;
            let mut next = bench.clone();
            next.step(process);
            file.schedule.push(process as u8);
            orders_from(&next, file, maker)?;
            file.schedule.pop();
        }
    }
    if finished {
        maker.run(length(MOST), file.bytes())?;
    }
    Ok(())
}
