//! What the cases came to on this side, for a person to see that every number occurs.

use crate::cases::Case;
use second::log::{length, Entry, HEAD, LOST, MOST, WIDTH};
use second::rack::{files, REPLY};
use std::fmt;

#[derive(Default)]
pub struct Mix {
    runs: [usize; 10],
    judged: [usize; 20],
    gone_round: usize,
    no_tag: usize,
    lost_race: usize,
    accepted_lost: usize,
    racks: [usize; 23],
    files_of_racks: [usize; 10],
    /// A run without gone-round takes whose log the judge found fault with, or leaves other nodes
    /// than the table: there must be none.
    pub faulted: Option<Case>,
}

impl Mix {
    pub fn add_log(&mut self, log: &[u8]) {
        let number = second::judge(log).0;
        self.judged[number as usize] += 1;
        self.accepted_lost += usize::from(number == 0 && has_lost_race(log));
    }

    /// Gives the log of a run that was accepted.
    pub fn add_run(&mut self, room: usize, file: &[u8]) -> Option<Vec<u8>> {
        let mut log = vec![0; room.min(length(MOST))];
        let (mut report, mut table) = ([0; 4], [0; second::TABLE]);
        let written = second::run(file, &mut log, &mut report, &mut table);
        let [number, _, _, gone_round] = report;
        self.runs[usize::from(number)] += 1;
        if number != 0 {
            return None;
        }
        log.truncate(written);
        self.gone_round += usize::from(gone_round > 0);
        self.no_tag += usize::from(file[1] == 0);
        self.lost_race += usize::from(has_lost_race(&log));
        if gone_round == 0 && (second::judge(&log).0 != 0 || !left_on_table(&log, &table)) {
            let file = file.to_vec();
            self.faulted = Some(Case::Run { room, file });
        }
        Some(log)
    }

    pub fn add_rack(&mut self, room: usize, space: usize, rack: &[u8]) {
        let (mut log, mut replies) = (vec![0; room], vec![0; space]);
        let number = second::rack(rack, &mut log, &mut replies);
        self.racks[number as usize] += 1;
        if number == 0 {
            let count = files(rack).map_or(0, |files| files.len());
            for reply in replies.chunks_exact(REPLY).take(count) {
                self.files_of_racks[usize::from(reply[0])] += 1;
            }
        }
    }
}

/// In each queue the slots from top up to bottom hold what the log leaves there.
fn left_on_table(log: &[u8], table: &[u16; second::TABLE]) -> bool {
    let mut queues = (0..).zip(table.chunks_exact(second::ROW));
    queues.all(|(queue, row)| {
        let (bottom, top) = (usize::from(row[0]), usize::from(row[1]));
        row[3..].get(top..bottom) == Some(&second::left(log, queue).1)
    })
}

impl fmt::Display for Mix {
    fn fmt(&self, out: &mut fmt::Formatter) -> fmt::Result {
        let (gone_round, no_tag, lost) = (self.gone_round, self.no_tag, self.lost_race);
        let note = format!(" (gone round {gone_round}, no tag {no_tag}, a race lost {lost})");
        write_counts("runs", &self.runs, &note, out)?;
        let note = format!(" (accepted with a race lost {})", self.accepted_lost);
        write_counts("logs", &self.judged, &note, out)?;
        write_counts("racks", &self.racks, "", out)?;
        write_counts("files of racks", &self.files_of_racks, "", out)
    }
}

/// Whether a whole log has a result of NIL at T4.
fn has_lost_race(log: &[u8]) -> bool {
    let mut entries = log[HEAD..].chunks_exact(WIDTH).map(Entry::read);
    entries.any(|entry| entry.result == LOST)
}

/// A line, where there is something to count.
fn write_counts(what: &str, counts: &[usize], note: &str, out: &mut fmt::Formatter) -> fmt::Result {
    if counts.iter().all(|&count| count == 0) {
        return Ok(());
    }
    write!(out, "{what} by number:")?;
    for (number, count) in counts.iter().enumerate().filter(|(_, &count)| count > 0) {
        write!(out, " {number}:{count}")?;
    }
    writeln!(out, "{note}")
}
