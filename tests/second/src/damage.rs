//! Damaged run files: good ones with something changed.

use crate::layout::{put_two_bytes, two_bytes, Layout};
use crate::random::Random;
use crate::schedules::LONGEST;

/// Changes that any bytes can take.
pub fn damage_bytes(random: &mut Random, bytes: &mut Vec<u8>) {
    let at = random.below(bytes.len() + 1);
    let front = at.min(random.below(12));
    match random.below(8) {
        0 => bytes.truncate(at),
        1 => bytes.truncate(bytes.len().saturating_sub(random.between(1, 3))),
        2 => bytes.insert(at, random.byte()),
        3 if random.one_in(100) => bytes.resize(70_000, 0),
        3 => bytes.extend((0..random.between(1, 13)).map(|_| random.byte())),
        4 if at < bytes.len() => drop(bytes.remove(at)),
        5 if at < bytes.len() => bytes[at] = random.byte(),
        6 if at < bytes.len() => bytes[at] = one_off(random, bytes[at]),
        _ if front < bytes.len() => bytes[front] = one_off(random, bytes[front]),
        _ => {}
    }
}

fn one_off(random: &mut Random, byte: u8) -> u8 {
    random.pick(&[byte.wrapping_add(1), byte.wrapping_sub(1)])
}

pub fn damage_file(random: &mut Random, file: &mut Vec<u8>) {
    match Layout::of(file) {
        Some(layout) => match random.below(4) {
            0 => damage_sizes(random, file, &layout),
            1 => damage_calls(random, file, &layout),
            2 => damage_schedule(random, file, &layout),
            _ => damage_bytes(random, file),
        },
        None => damage_bytes(random, file),
    }
}

fn damage_sizes(random: &mut Random, file: &mut [u8], layout: &Layout) {
    let lengths = layout.lengths.clone();
    let off = one_off(random, file[3]);
    match random.below(5) {
        0 => file[0] = random.pick(&[0, 1, 3]),
        1 => file[1] = random.pick(&[17, 32, 255]),
        2 => file[2] = random.pick(&[0, 65, 255]),
        3 => file[3] = random.pick(&[0, 9, off]),
        _ if lengths.is_empty() => {}
        _ => {
            let at = random.between(lengths.start, lengths.end - 1);
            let off = one_off(random, file[at]);
            file[at] = random.pick(&[33, off, 255]);
        }
    }
}

fn damage_calls(random: &mut Random, file: &mut [u8], layout: &Layout) {
    if layout.call_count() == 0 || random.one_in(8) {
        let count = two_bytes(file, layout.lengths.end).unwrap_or(0);
        let wrong = random.pick(&[count + 1, count.saturating_sub(1), count + 256, 0]);
        return put_two_bytes(file, layout.lengths.end, wrong);
    }
    let call = layout.call_at(random.below(layout.call_count()));
    let other = layout.call_at(random.below(layout.call_count()));
    match (random.below(3), file[call]) {
        (0, _) => file[call] = random.pick(&[0, 1, 2, 3, 4, 255]),
        (1, 1) => put_two_bytes(file, call + 1, 0),
        (2, 1) => file.copy_within(other..other + 3, call),
        (_, 2) => file[call + random.between(1, 2)] = random.pick(&[1, 255]),
        _ => file[call + random.between(1, 2)] = layout.lengths.len() as u8,
    }
}

fn damage_schedule(random: &mut Random, file: &mut Vec<u8>, layout: &Layout) {
    let (count_at, steps) = (layout.calls.end, layout.schedule.clone());
    match random.below(3) {
        0 if !steps.is_empty() => {
            let at = random.between(steps.start, steps.end - 1);
            file[at] = random.pick(&[layout.lengths.len() as u8, 255]);
        }
        1 => {
            let length = LONGEST + random.below(3);
            file.resize(steps.start + length, 0);
            put_two_bytes(file, count_at, length);
        }
        _ => {
            let length = steps.len();
            let wrong = random.pick(&[length + 1, length.saturating_sub(1), 4097, 65535]);
            put_two_bytes(file, count_at, wrong);
        }
    }
}
