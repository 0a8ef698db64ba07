//! The run file and its refusals, 1 to 7.

use crate::seen::Seen;

#[derive(Clone, Copy)]
pub enum Call {
    Push { node: u16 },
    BottomPop,
    TopPop { queue: u8 },
}

#[derive(Clone, Copy)]
pub struct RunFile<'a> {
    pub tag_bits: u8,
    pub capacity: u8,
    pub lengths: &'a [u8],
    calls: &'a [u8],
    pub schedule: &'a [u8],
}

impl<'a> RunFile<'a> {
    pub fn read(bytes: &'a [u8]) -> Result<RunFile<'a>, u16> {
        let mut rest = bytes;
        let [tag_bits, capacity] = read_sizes(&mut rest)?;
        let lengths = read_lengths(&mut rest)?;
        let calls = read_calls(&mut rest, lengths)?;
        let schedule = read_schedule(&mut rest, lengths.len())?;
        if !rest.is_empty() {
            return Err(7);
        }
        Ok(RunFile {
            tag_bits,
            capacity,
            lengths,
            calls,
            schedule,
        })
    }

    pub fn call_count(&self) -> usize {
        self.calls.len() / 3
    }

    pub fn call(&self, index: usize) -> Call {
        let bytes = &self.calls[3 * index..3 * index + 3];
        let argument = u16::from_be_bytes([bytes[1], bytes[2]]);
        match bytes[0] {
            1 => Call::Push { node: argument },
            2 => Call::BottomPop,
            _ => Call::TopPop { queue: bytes[2] },
        }
    }
}

fn take<'a>(rest: &mut &'a [u8], count: usize) -> Result<&'a [u8], u16> {
    holds(count <= rest.len(), 1)?;
    let (front, back) = rest.split_at(count);
    *rest = back;
    Ok(front)
}

fn take_byte(rest: &mut &[u8]) -> Result<u8, u16> {
    Ok(take(rest, 1)?[0])
}

fn take_two(rest: &mut &[u8]) -> Result<usize, u16> {
    let bytes = take(rest, 2)?;
    Ok(usize::from(bytes[0]) * 256 + usize::from(bytes[1]))
}

fn holds(good: bool, number: u16) -> Result<(), u16> {
    if good {
        Ok(())
    } else {
        Err(number)
    }
}

fn read_sizes(rest: &mut &[u8]) -> Result<[u8; 2], u16> {
    holds(take_byte(rest)? == 2, 2)?;
    let sizes = take(rest, 2)?;
    holds(sizes[0] <= 16, 2)?;
    holds((1..=64).contains(&sizes[1]), 2)?;
    Ok([sizes[0], sizes[1]])
}

fn read_lengths<'a>(rest: &mut &'a [u8]) -> Result<&'a [u8], u16> {
    let processes = take_byte(rest)?;
    holds((1..=8).contains(&processes), 3)?;
    let lengths = take(rest, usize::from(processes))?;
    holds(lengths.iter().all(|&length| length <= 32), 3)?;
    Ok(lengths)
}

fn read_calls<'a>(rest: &mut &'a [u8], lengths: &[u8]) -> Result<&'a [u8], u16> {
    let count = take_two(rest)?;
    let sum: usize = lengths.iter().map(|&length| usize::from(length)).sum();
    holds(count == sum, 4)?;
    let calls = take(rest, 3 * count)?;
    let mut pushed = Seen::new();
    for call in calls.chunks_exact(3) {
        let argument = u16::from_be_bytes([call[1], call[2]]);
        match call[0] {
            1 => holds(argument != 0 && pushed.add(argument), 5)?,
            2 => holds(argument == 0, 4)?,
            3 => holds(usize::from(argument) < lengths.len(), 4)?,
            _ => return Err(4),
        }
    }
    Ok(calls)
}

fn read_schedule<'a>(rest: &mut &'a [u8], processes: usize) -> Result<&'a [u8], u16> {
    let length = take_two(rest)?;
    holds(length <= 4096, 6)?;
    let schedule = take(rest, length)?;
    holds(
        schedule
            .iter()
            .all(|&process| usize::from(process) < processes),
        6,
    )?;
    Ok(schedule)
}
