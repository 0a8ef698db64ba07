//! A set of 16-bit numbers.

pub struct Seen([u64; 1024]);

impl Seen {
    pub fn new() -> Seen {
        Seen([0; 1024])
    }

    /// Adds a number; says whether it was new.
    pub fn add(&mut self, number: u16) -> bool {
        let word = &mut self.0[usize::from(number / 64)];
        let bit = 1 << (number % 64);
        let new = *word & bit == 0;
        *word |= bit;
        new
    }
}
