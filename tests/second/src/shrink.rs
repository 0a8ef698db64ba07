//! Makes a case on which the sides differ smaller, as long as they still differ.

use crate::cases::Case;
use crate::child::Child;
use crate::edits::edits;
use std::io;
use std::time::{Duration, Instant};

/// As many edits as the other side is asked about at once.
const BLOCK: usize = 64;
const MOST_TIME: Duration = Duration::from_secs(30);

/// The smallest case that was found, and the other side's reply to it.
pub fn shrink(child: &Child, mut case: Case, mut found: String) -> io::Result<(Case, String)> {
    let begun = Instant::now();
    let mut at = 0;
    let mut tried = 0;
    let mut left = edits(&case);
    while tried < left.len() && begun.elapsed() < MOST_TIME {
        // An edit that failed is not tried again until all the others have failed too.
        at %= left.len();
        let block = &left[at..left.len().min(at + BLOCK)];
        let applied = block.iter().enumerate();
        let (places, mut cases): (Vec<usize>, Vec<Case>) = applied
            .filter_map(|(place, edit)| Some((place, edit.apply(&case)?)))
            .unzip();
        match child.first_difference(&cases)? {
            Some((index, reply)) => {
                at += places[index];
                tried = 0;
                case = cases.swap_remove(index);
                found = reply;
                left = edits(&case);
            }
            None => {
                at += block.len();
                tried += block.len();
            }
        }
    }
    Ok((case, found))
}
