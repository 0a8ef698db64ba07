//! What is asked of both sides, as bytes: a letter, lengths in four bytes, high byte first.

use std::io::{self, Write};

#[derive(Clone)]
pub enum Case {
    /// A run file, and the length of the buffer for its log.
    Run {
        room: usize,
        file: Vec<u8>,
    },
    Judge {
        log: Vec<u8>,
    },
    /// A rack, and the lengths of the buffers for the logs and for the replies.
    Rack {
        room: usize,
        space: usize,
        rack: Vec<u8>,
    },
}

impl Case {
    pub fn write(&self, out: &mut impl Write) -> io::Result<()> {
        match self {
            Case::Run { room, file } => {
                out.write_all(b"R")?;
                write_number(*room, out)?;
                write_counted(file, out)
            }
            Case::Judge { log } => {
                out.write_all(b"J")?;
                write_counted(log, out)
            }
            Case::Rack { room, space, rack } => {
                out.write_all(b"K")?;
                write_number(*room, out)?;
                write_number(*space, out)?;
                write_counted(rack, out)
            }
        }
    }

    /// Takes the next case off the front, where there is a whole one.
    pub fn take(rest: &mut &[u8]) -> Option<Case> {
        match take_bytes(rest, 1)?[0] {
            b'R' => Some(Case::Run {
                room: take_number(rest)?,
                file: take_counted(rest)?,
            }),
            b'J' => Some(Case::Judge {
                log: take_counted(rest)?,
            }),
            b'K' => Some(Case::Rack {
                room: take_number(rest)?,
                space: take_number(rest)?,
                rack: take_counted(rest)?,
            }),
            _ => None,
        }
    }

    pub fn take_all(mut bytes: &[u8]) -> Option<Vec<Case>> {
        let mut cases = Vec::new();
        while !bytes.is_empty() {
            cases.push(Case::take(&mut bytes)?);
        }
        Some(cases)
    }
}

fn write_number(number: usize, out: &mut impl Write) -> io::Result<()> {
    out.write_all(&(number as u32).to_be_bytes())
}

fn write_counted(bytes: &[u8], out: &mut impl Write) -> io::Result<()> {
    write_number(bytes.len(), out)?;
    out.write_all(bytes)
}

fn take_bytes<'a>(rest: &mut &'a [u8], count: usize) -> Option<&'a [u8]> {
    let front = rest.get(..count)?;
    *rest = &rest[count..];
    Some(front)
}

fn take_number(rest: &mut &[u8]) -> Option<usize> {
    let bytes = take_bytes(rest, 4)?;
    Some(u32::from_be_bytes(bytes.try_into().ok()?) as usize)
}

fn take_counted(rest: &mut &[u8]) -> Option<Vec<u8>> {
    let count = take_number(rest)?;
    Some(take_bytes(rest, count)?.to_vec())
}
