//! The rack: many run files in one call, and a reply of eight bytes to each.

use crate::{judge, run, TABLE};

pub const REPLY: usize = 8;
pub const LONGEST_FILE: usize = 65535;

/// Runs the files in order, each with the whole log buffer: gives 0, 21 or 22.
pub fn rack(rack: &[u8], log: &mut [u8], replies: &mut [u8]) -> u32 {
    let Some(files) = files(rack) else {
        return 21;
    };
    if replies.len() < REPLY * files.len() {
        return 22;
    }
    for (file, place) in files.iter().zip(replies.chunks_exact_mut(REPLY)) {
        place.copy_from_slice(&reply(file, log));
    }
    0
}

/// The files of a rack; none where the count or a length runs past the end or bytes remain.
pub fn files(rack: &[u8]) -> Option<Vec<&[u8]>> {
    let mut rest = rack;
    let count = take_two(&mut rest)?;
    let files: Option<Vec<&[u8]>> = (0..count).map(|_| take_file(&mut rest)).collect();
    files.filter(|_| rest.is_empty())
}

fn take_file<'a>(rest: &mut &'a [u8]) -> Option<&'a [u8]> {
    let length = take_two(rest)?;
    take(rest, length)
}

fn take_two(rest: &mut &[u8]) -> Option<usize> {
    let pair = take(rest, 2)?;
    Some(usize::from(pair[0]) * 256 + usize::from(pair[1]))
}

fn take<'a>(rest: &mut &'a [u8], count: usize) -> Option<&'a [u8]> {
    let front = rest.get(..count)?;
    *rest = &rest[count..];
    Some(front)
}

fn reply(file: &[u8], log: &mut [u8]) -> [u8; REPLY] {
    let (mut report, mut table) = ([0; 4], [0; TABLE]);
    let written = run(file, log, &mut report, &mut table);
    let [number, entries, steps, gone_round] = report.map(u16::to_be_bytes);
    let judged = judge_byte(report[0], &log[..written]);
    [
        number[1],
        entries[0],
        entries[1],
        steps[0],
        steps[1],
        gone_round[0],
        gone_round[1],
        judged,
    ]
}

/// A refused file leaves no log to be judged.
fn judge_byte(number: u16, log: &[u8]) -> u8 {
    if number == 0 {
        judge(log).0 as u8
    } else {
        0
    }
}
