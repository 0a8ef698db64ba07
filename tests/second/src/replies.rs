//! This side's reply to a case, one line.

use crate::cases::Case;
use second::{ROW, TABLE};
use std::fmt::Write;

pub fn reply(case: &Case) -> String {
    match case {
        Case::Run { room, file } => run_reply(*room, file),
        Case::Judge { log } => {
            let (number, entry) = second::judge(log);
            format!("judge {number} {entry} left {}", left_in_all(log))
        }
        Case::Rack { room, space, rack } => rack_reply(*room, *space, rack),
    }
}

/// What a buffer's byte holds before the run: no two neighbours are alike.
fn before(position: usize) -> u8 {
    (position * 37 + 165) as u8
}

fn rack_reply(room: usize, space: usize, rack: &[u8]) -> String {
    let mut log: Vec<u8> = (0..room).map(before).collect();
    let mut replies: Vec<u8> = (0..space).map(before).collect();
    let number = second::rack(rack, &mut log, &mut replies);
    let mut line = format!("rack {number} ");
    write_hex(&replies, &mut line);
    line.push(' ');
    write_hex(&log, &mut line);
    line
}

/// What is left in each queue, the first that no log has among them.
fn left_in_all(log: &[u8]) -> String {
    let mut rows = Vec::new();
    for queue in 0..=8 {
        let nodes: Vec<String> = second::left(log, queue)
            .1
            .iter()
            .map(u16::to_string)
            .collect();
        if !nodes.is_empty() {
            rows.push(format!("{queue}:{}", nodes.join(",")));
        }
    }
    let none = if rows.is_empty() { "-" } else { "" };
    format!("{} {none}{}", second::left(log, 0).0, rows.join(";"))
}

fn run_reply(room: usize, file: &[u8]) -> String {
    let mut buffer: Vec<u8> = (0..room).map(before).collect();
    let (mut report, mut table) = ([0; 4], [0; TABLE]);
    let written = second::run(file, &mut buffer, &mut report, &mut table);
    let [number, entries, steps, gone] = report;
    let mut line = format!("run {number} {entries} {steps} {gone} {written} ");
    write_hex(&buffer[..written], &mut line);
    let kept = (written..room).all(|position| buffer[position] == before(position));
    line.push_str(if kept { " kept " } else { " altered " });
    write_table(&table, &mut line);
    line
}

fn write_hex(bytes: &[u8], line: &mut String) {
    if bytes.is_empty() {
        line.push('-');
    }
    for &byte in bytes {
        for digit in [byte >> 4, byte & 15] {
            line.push(char::from(b"0123456789abcdef"[usize::from(digit)]));
        }
    }
}

fn write_table(table: &[u16; TABLE], line: &mut String) {
    let before_rows = line.len();
    for (queue, row) in table.chunks_exact(ROW).enumerate() {
        let Some(last) = row.iter().rposition(|&number| number != 0) else {
            continue;
        };
        if line.len() > before_rows {
            line.push(';');
        }
        for (column, number) in row[..=last].iter().enumerate() {
            let sign = if column == 0 { ':' } else { ',' };
            if column == 0 {
                line.push_str(&queue.to_string());
            }
            write!(line, "{sign}{number}").expect("a string takes all");
        }
    }
    if line.len() == before_rows {
        line.push('-');
    }
}
