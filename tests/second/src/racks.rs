//! Racks: files of the other generators in one, good and refused; cut, lengthened and miscounted ones.

use crate::damage::damage_bytes;
use crate::files::good_file;
use crate::layout::{put_two_bytes, two_bytes};
use crate::make::{any_bytes, damaged_file, room};
use crate::random::Random;
use second::log::{length, MOST};
use second::rack::{files, LONGEST_FILE, REPLY};

pub fn packed(files: &[&[u8]]) -> Vec<u8> {
    let mut rack = (files.len() as u16).to_be_bytes().to_vec();
    for file in files {
        rack.extend((file.len() as u16).to_be_bytes());
        rack.extend(*file);
    }
    rack
}

pub fn good_rack(random: &mut Random) -> Vec<u8> {
    let count = random.pick(&[0, 1, 2, 3, 4, 6, 9, 14, 24, 40]);
    let files: Vec<Vec<u8>> = (0..count).map(|_| any_file(random)).collect();
    let files: Vec<&[u8]> = files.iter().map(Vec::as_slice).collect();
    packed(&files)
}

fn any_file(random: &mut Random) -> Vec<u8> {
    let mut file = match random.below(12) {
        0..=6 => good_file(random).bytes(),
        7..=9 => damaged_file(random),
        10 => any_bytes(random),
        _ => Vec::new(),
    };
    file.truncate(LONGEST_FILE);
    file
}

pub fn damage_rack(random: &mut Random, rack: &mut Vec<u8>) {
    match random.below(4) {
        0 => miscount(random, rack, 0),
        1 => {
            let at = some_length(random, rack);
            miscount(random, rack, at);
        }
        2 => rack.truncate(random.below(rack.len() + 1)),
        _ => damage_bytes(random, rack),
    }
}

/// Where the length of one of the files stands.
fn some_length(random: &mut Random, rack: &[u8]) -> usize {
    let files = files(rack).unwrap_or_default();
    let ahead = random.below(files.len().max(1));
    let lengths = files[..ahead].iter().map(|file| 2 + file.len());
    2 + lengths.sum::<usize>()
}

fn miscount(random: &mut Random, rack: &mut [u8], at: usize) {
    if let Some(number) = two_bytes(rack, at) {
        let fewer = number.saturating_sub(1);
        let wrong = random.pick(&[number + 1, fewer, number + 256, 0, 65535]);
        put_two_bytes(rack, at, wrong);
    }
}

/// Lengths of a log buffer that is long enough for all files, or for some.
pub fn log_room(random: &mut Random) -> usize {
    let calls = random.below(30);
    match random.below(3) {
        0 => length(MOST),
        _ => room(random, calls),
    }
}

/// Lengths of a reply buffer about the least that a rack's count needs.
pub fn reply_room(random: &mut Random, rack: &[u8]) -> usize {
    let least = REPLY * two_bytes(rack, 0).unwrap_or(0);
    match random.below(12) {
        0..=5 => least,
        6..=8 => least + random.between(1, 20),
        9 => least.saturating_sub(1),
        10 => least.saturating_sub(REPLY),
        _ => random.below(least + 1),
    }
}
