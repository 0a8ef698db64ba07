//! Makes the cases of a seed.

use crate::aimed::aimed_log;
use crate::cases::Case;
use crate::damage::{damage_bytes, damage_file};
use crate::files::good_file;
use crate::invented::invented_log;
use crate::logs::damaged_log;
use crate::mix::Mix;
use crate::racks::{damage_rack, good_rack, log_room, reply_room};
use crate::random::Random;
use second::log::{length, MOST};
use std::io::{self, Write};

/// Writes cases and counts what they come to. The log of each accepted run becomes a case too.
pub struct Maker<W: Write> {
    out: W,
    mix: Mix,
}

impl<W: Write> Maker<W> {
    pub fn new(out: W) -> Maker<W> {
        Maker {
            out,
            mix: Mix::default(),
        }
    }

    pub fn finish(mut self) -> io::Result<Mix> {
        self.out.flush()?;
        Ok(self.mix)
    }

    pub fn run(&mut self, room: usize, file: Vec<u8>) -> io::Result<()> {
        let log = self.mix.add_run(room, &file);
        Case::Run { room, file }.write(&mut self.out)?;
        match log {
            Some(log) => self.judge(log),
            None => Ok(()),
        }
    }

    pub fn judge(&mut self, log: Vec<u8>) -> io::Result<()> {
        self.mix.add_log(&log);
        Case::Judge { log }.write(&mut self.out)
    }

    fn rack(&mut self, room: usize, space: usize, rack: Vec<u8>) -> io::Result<()> {
        self.mix.add_rack(room, space, &rack);
        Case::Rack { room, space, rack }.write(&mut self.out)
    }

    pub fn racks_of_seed(&mut self, count: usize, seed: u64) -> io::Result<()> {
        let mut random = Random::new(seed);
        for _ in 0..count {
            self.one_rack(&mut random)?;
        }
        Ok(())
    }

    /// A damaged rack has the reply buffer of the good one, so that 21 and 22 also meet.
    fn one_rack(&mut self, random: &mut Random) -> io::Result<()> {
        let mut rack = good_rack(random);
        let space = reply_room(random, &rack);
        if random.one_in(4) {
            damage_rack(random, &mut rack);
        }
        self.rack(log_room(random), space, rack)
    }

    pub fn of_seed(&mut self, count: usize, seed: u64) -> io::Result<()> {
        let mut random = Random::new(seed);
        for _ in 0..count {
            self.one(&mut random)?;
        }
        Ok(())
    }

    fn one(&mut self, random: &mut Random) -> io::Result<()> {
        match random.below(100) {
            0..=29 => {
                let file = good_file(random);
                self.run(room(random, file.call_count()), file.bytes())
            }
            30..=47 => self.run(length(MOST), damaged_file(random)),
            48 => self.run(length(MOST), any_bytes(random)),
            49..=68 => {
                let log = log_of_a_run(random);
                self.judge(damaged_log(random, &log))
            }
            69..=82 => {
                let mut log = invented_log(random);
                if random.one_in(3) {
                    log.damage(random);
                }
                self.judge(log.bytes())
            }
            83..=97 => self.judge(aimed_log(random).bytes()),
            _ => self.judge(any_bytes(random)),
        }
    }
}

/// Lengths of a log buffer about the least that a file needs.
pub fn room(random: &mut Random, calls: usize) -> usize {
    let least = length(calls);
    match random.below(12) {
        0..=5 => least,
        6..=8 => least + random.between(1, 40),
        9 => random.pick(&[length(MOST), length(MOST), 4 * length(MOST)]),
        10 => least - 1,
        _ => random.pick(&[0, 4, 5, least - 5]),
    }
}

pub fn damaged_file(random: &mut Random) -> Vec<u8> {
    let mut file = good_file(random).bytes();
    for _ in 0..random.pick(&[1, 1, 1, 2, 3]) {
        damage_file(random, &mut file);
    }
    file
}

fn log_of_a_run(random: &mut Random) -> Vec<u8> {
    let file = good_file(random);
    let mut log = vec![0; length(file.call_count())];
    let written = second::run(
        &file.bytes(),
        &mut log,
        &mut [0; 4],
        &mut [0; second::TABLE],
    );
    log.truncate(written);
    log
}

/// Bytes without a plan; small ones get further into the checks than large ones.
pub fn any_bytes(random: &mut Random) -> Vec<u8> {
    let mut bytes = vec![2, random.byte() % 4, 1, 1];
    let below = random.pick(&[2, 4, 256]);
    let count = random.below(60);
    bytes.extend((0..count).map(|_| random.below(below) as u8));
    if random.one_in(2) {
        damage_bytes(random, &mut bytes);
    }
    bytes.split_off(random.pick(&[0, 0, 0, 3]).min(bytes.len()))
}
