//! Edits that make a case smaller in some way.

use crate::cases::Case;
use crate::file_edits::{without_calls, without_calls_and_steps, without_process, without_steps};
use crate::layout::Layout;
use crate::log_edits::{earlier, gaps, whole_entries, without_entries, without_log_process};
use crate::racks::packed;
use second::log::{length, WIDTH};
use second::rack::{files, REPLY};
use std::ops::Range;

/// A rack of more files has too many edits of its files to try them.
const FEW: usize = 4;

pub enum Edit {
    Room(usize),
    Space(usize),
    WithoutFiles(Range<usize>),
    /// An edit of one of a rack's files.
    InFile(usize, Box<Edit>),
    WithoutProcess(u8),
    WithoutCalls(Range<usize>),
    WithoutCallsAndSteps(Range<usize>),
    WithoutSteps(Range<usize>),
    WithoutEntries(Range<usize>),
    /// Makes all from a step on earlier by some steps.
    Earlier(u16, u16),
    WithoutBytes(Range<usize>),
    LowerByte(usize, u8),
}

use Edit::*;

/// The edits of a case, those that leave out much first.
pub fn edits(case: &Case) -> Vec<Edit> {
    let mut edits = Vec::new();
    let bytes = match case {
        Case::Run { room, file } => {
            edits.extend(file_edits(file, *room));
            file
        }
        Case::Judge { log } => {
            edits.extend(log_edits(log));
            log
        }
        Case::Rack { room, space, rack } => {
            edits.extend(rack_edits(rack, *room, *space));
            rack
        }
    };
    edits.extend(parts(bytes.len()).map(WithoutBytes));
    for (at, &byte) in bytes.iter().enumerate() {
        let lower = [0, byte / 2, byte.saturating_sub(1)].into_iter();
        edits.extend(lower.filter(|&to| to < byte).map(|to| LowerByte(at, to)));
    }
    edits
}

/// Parts of `count` things: the whole, halves, quarters, and so on to single ones.
fn parts(count: usize) -> impl Iterator<Item = Range<usize>> {
    let sizes = std::iter::successors(Some(count), |size| Some(size / 2));
    sizes.take_while(|&size| size > 0).flat_map(move |size| {
        (0..count)
            .step_by(size)
            .map(move |at| at..(at + size).min(count))
    })
}

fn file_edits(file: &[u8], room: usize) -> Vec<Edit> {
    let mut edits = Vec::new();
    let mut rooms = vec![0, room / 2, room.saturating_sub(1)];
    if let Some(layout) = Layout::of(file) {
        rooms.push(length(layout.call_count()));
        edits.extend((0..file[3]).map(WithoutProcess));
        edits.extend(parts(layout.call_count()).map(WithoutCallsAndSteps));
        for size in (1..=4).rev() {
            let firsts = 0..(layout.call_count() + 1).saturating_sub(size);
            edits.extend(firsts.map(|first| WithoutCallsAndSteps(first..first + size)));
        }
        edits.extend(parts(layout.call_count()).map(WithoutCalls));
        edits.extend(parts(layout.schedule.len()).map(WithoutSteps));
    }
    edits.extend(rooms.into_iter().filter(|&other| other < room).map(Room));
    edits
}

fn rack_edits(rack: &[u8], room: usize, space: usize) -> Vec<Edit> {
    let files = files(rack).unwrap_or_default();
    let mut edits: Vec<Edit> = parts(files.len()).map(WithoutFiles).collect();
    let lower = |from: usize| [0, from / 2, from.saturating_sub(1)].into_iter();
    edits.extend(lower(room).filter(|&other| other < room).map(Room));
    edits.extend(lower(space).filter(|&other| other < space).map(Space));
    if files.len() <= FEW {
        edits.extend(files.iter().enumerate().flat_map(in_file));
    }
    edits
}

/// No edit of the room is among them: the rack's files share it.
fn in_file((index, file): (usize, &&[u8])) -> Vec<Edit> {
    let (room, file) = (0, file.to_vec());
    let edits = edits(&Case::Run { room, file }).into_iter();
    edits.map(|edit| InFile(index, Box::new(edit))).collect()
}

fn log_edits(log: &[u8]) -> Vec<Edit> {
    let mut edits = Vec::new();
    if let Some(count) = whole_entries(log) {
        edits.extend(parts(count).map(WithoutEntries));
        edits.extend((0..log[1]).map(WithoutProcess));
        edits.extend(
            gaps(log, count)
                .into_iter()
                .map(|(step, by)| Earlier(step, by)),
        );
    }
    edits
}

impl Edit {
    /// None where the edit does not fit the case.
    pub fn apply(&self, case: &Case) -> Option<Case> {
        match case {
            Case::Run { room, file } => {
                let room = match self {
                    Room(other) => *other,
                    WithoutCallsAndSteps(calls) => room.saturating_sub(WIDTH * calls.len()),
                    _ => *room,
                };
                let file = self.apply_to_file(file)?;
                Some(Case::Run { room, file })
            }
            Case::Judge { log } => Some(Case::Judge {
                log: self.apply_to_log(log)?,
            }),
            Case::Rack { room, space, rack } => {
                let (room, space) = match self {
                    Room(other) => (*other, *space),
                    Space(other) => (*room, *other),
                    WithoutFiles(files) => (*room, space.saturating_sub(REPLY * files.len())),
                    _ => (*room, *space),
                };
                let rack = self.apply_to_rack(rack)?;
                Some(Case::Rack { room, space, rack })
            }
        }
    }

    fn apply_to_file(&self, file: &[u8]) -> Option<Vec<u8>> {
        match self {
            Room(_) => Some(file.to_vec()),
            WithoutProcess(process) => without_process(file, *process),
            WithoutCalls(calls) => without_calls(file, calls),
            WithoutCallsAndSteps(calls) => without_calls_and_steps(file, calls),
            WithoutSteps(steps) => without_steps(file, steps),
            _ => self.apply_to_bytes(file),
        }
    }

    fn apply_to_log(&self, log: &[u8]) -> Option<Vec<u8>> {
        match self {
            WithoutProcess(process) => without_log_process(log, *process),
            WithoutEntries(entries) => without_entries(log, entries),
            Earlier(step, by) => earlier(log, *step, *by),
            _ => self.apply_to_bytes(log),
        }
    }

    fn apply_to_rack(&self, rack: &[u8]) -> Option<Vec<u8>> {
        match self {
            Room(_) | Space(_) => Some(rack.to_vec()),
            WithoutFiles(left_out) => {
                let mut files = files(rack)?;
                files.drain(left_out.clone());
                Some(packed(&files))
            }
            InFile(index, edit) => {
                let mut files = files(rack)?;
                let smaller = edit.apply_to_file(files[*index])?;
                files[*index] = &smaller;
                Some(packed(&files))
            }
            _ => self.apply_to_bytes(rack),
        }
    }

    fn apply_to_bytes(&self, bytes: &[u8]) -> Option<Vec<u8>> {
        let mut smaller = bytes.to_vec();
        match self {
            WithoutBytes(range) => drop(smaller.drain(range.clone())),
            LowerByte(at, to) => smaller[*at] = *to,
            _ => return None,
        }
        Some(smaller)
    }
}
