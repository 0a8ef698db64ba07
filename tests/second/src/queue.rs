//! A queue and the fourteen stages of its calls: a step is one access and the local work after it.

use crate::log::{DONE, FULL, LOST, NIL};
use crate::runfile::Call;

#[derive(Clone, Copy, PartialEq, Eq)]
pub struct Age {
    pub top: u16,
    pub tag: u16,
}

#[derive(Clone, Copy)]
pub struct Queue {
    pub bottom: u16,
    pub age: Age,
    pub slots: [u16; 64],
}

/// The access that a call does next, with the numbers that it has loaded so far.
#[derive(Clone, Copy)]
pub enum Stage {
    P1 { node: u16 },
    P2 { node: u16, b: u16 },
    P3 { node: u16, b: u16 },
    T1,
    T2 { age: Age },
    T3 { age: Age },
    T4 { age: Age, node: u16 },
    B1,
    B2 { b: u16 },
    B3 { b: u16 },
    B4 { b: u16, node: u16 },
    B5 { b: u16, node: u16, age: Age },
    B6 { b: u16, node: u16, age: Age },
    B7 { b: u16, age: Age },
}

pub enum After {
    Next(Stage),
    End { result: u8, node: u16 },
}

/// The two sizes that all queues of a file share.
#[derive(Clone, Copy)]
pub struct Sizes {
    pub tag_bits: u8,
    pub capacity: u8,
}

use After::{End, Next};
use Stage::*;

const NOTHING: After = End {
    result: NIL,
    node: 0,
};

const RACE_LOST: After = End {
    result: LOST,
    node: 0,
};

fn gives(node: u16) -> After {
    End { result: DONE, node }
}

impl Stage {
    pub fn first(call: Call) -> Stage {
        match call {
            Call::Push { node } => P1 { node },
            Call::BottomPop => B1,
            Call::TopPop { .. } => T1,
        }
    }

    /// The b of a bottom pop that is past B2.
    pub fn past_b2(&self) -> Option<u16> {
        match *self {
            B3 { b } | B4 { b, .. } | B5 { b, .. } | B6 { b, .. } | B7 { b, .. } => Some(b),
            _ => None,
        }
    }
}

impl Sizes {
    fn reset(&self, age: Age) -> Age {
        let tags = 1u32 << self.tag_bits;
        Age {
            top: 0,
            tag: ((u32::from(age.tag) + 1) % tags) as u16,
        }
    }
}

impl Queue {
    pub const FRESH: Queue = Queue {
        bottom: 0,
        age: Age { top: 0, tag: 0 },
        slots: [0; 64],
    };

    /// One step.
    pub fn step(&mut self, sizes: Sizes, stage: Stage) -> After {
        match stage {
            P1 { .. } | P2 { .. } | P3 { .. } => self.push_step(sizes, stage),
            T1 | T2 { .. } | T3 { .. } | T4 { .. } => self.top_step(sizes, stage),
            _ => self.bottom_step(sizes, stage),
        }
    }

    /// A run never touches a slot at or above the capacity (C-18): here it would stop.
    fn slot(&mut self, sizes: Sizes, index: u16) -> &mut u16 {
        assert!(
            index < u16::from(sizes.capacity),
            "slot {index} is none of the queue's"
        );
        &mut self.slots[usize::from(index)]
    }

    /// Compares and exchanges the age word; a comparison that fails alters nothing.
    fn exchange(&mut self, old: Age, new: Age) -> bool {
        let same = self.age == old;
        if same {
            self.age = new;
        }
        same
    }

    fn push_step(&mut self, sizes: Sizes, stage: Stage) -> After {
        match stage {
            P1 { node } if self.bottom == u16::from(sizes.capacity) => End { result: FULL, node },
            P1 { node } => Next(P2 {
                node,
                b: self.bottom,
            }),
            P2 { node, b } => {
                *self.slot(sizes, b) = node;
                Next(P3 { node, b })
            }
            P3 { node, b } => {
                self.bottom = b + 1;
                gives(node)
            }
            _ => unreachable!("no stage of a push"),
        }
    }

    fn top_step(&mut self, sizes: Sizes, stage: Stage) -> After {
        match stage {
            T1 => Next(T2 { age: self.age }),
            T2 { age } if self.bottom <= age.top => NOTHING,
            T2 { age } => Next(T3 { age }),
            T3 { age } => Next(T4 {
                age,
                node: *self.slot(sizes, age.top),
            }),
            T4 { age, node } => {
                let taken = Age {
                    top: age.top + 1,
                    tag: age.tag,
                };
                if self.exchange(age, taken) {
                    gives(node)
                } else {
                    RACE_LOST
                }
            }
            _ => unreachable!("no stage of a top pop"),
        }
    }

    fn bottom_step(&mut self, sizes: Sizes, stage: Stage) -> After {
        match stage {
            B1 if self.bottom == 0 => NOTHING,
            B1 => Next(B2 { b: self.bottom }),
            B2 { b } => {
                self.bottom = b - 1;
                Next(B3 { b })
            }
            B3 { b } => Next(B4 {
                b,
                node: *self.slot(sizes, b - 1),
            }),
            B4 { b, node } if b - 1 > self.age.top => gives(node),
            B4 { b, node } => Next(B5 {
                b,
                node,
                age: self.age,
            }),
            B5 { b, node, age } => {
                self.bottom = 0;
                Next(if b - 1 == age.top {
                    B6 { b, node, age }
                } else {
                    B7 { b, age }
                })
            }
            B6 { node, age, .. } if self.exchange(age, sizes.reset(age)) => gives(node),
            B6 { b, age, .. } => Next(B7 { b, age }),
            B7 { age, .. } => {
                self.age = sizes.reset(age);
                NOTHING
            }
            _ => unreachable!("no stage of a bottom pop"),
        }
    }
}
