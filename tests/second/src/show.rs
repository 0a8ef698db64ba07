//! A case in readable words.

use crate::cases::Case;
use crate::layout::{two_bytes, Layout};
use second::log::{length, Entry, BOTTOM_POP, DONE, FULL, HEAD, LOST, NIL, PUSH, TOP_POP, WIDTH};
use second::rack::files;

pub fn show(case: &Case) -> String {
    match case {
        Case::Run { room, file } => {
            let words = Layout::of(file).map_or(String::new(), |layout| run_words(file, &layout));
            let count = file.len();
            format!(
                "a run file of {count} bytes, log buffer of {room}\n{words}bytes: {}\n",
                spaced(file)
            )
        }
        Case::Judge { log } => {
            let words = if log.len() >= HEAD {
                log_words(log)
            } else {
                String::new()
            };
            let count = log.len();
            format!("a log of {count} bytes\n{words}bytes: {}\n", spaced(log))
        }
        Case::Rack { room, space, rack } => {
            let count = rack.len();
            let buffers = format!("log buffer of {room}, reply buffer of {space}");
            let words = rack_words(rack);
            format!("a rack of {count} bytes, {buffers}\n{words}")
        }
    }
}

/// The entries of the logs in two replies to a run, where they differ.
pub fn show_logs(own: &str, found: &str) -> String {
    let (own, found) = (log_lines(own), log_lines(found));
    let mut words = String::new();
    for index in 0..own.len().max(found.len()) {
        let none = "none".to_string();
        let here = own.get(index).unwrap_or(&none);
        let there = found.get(index).unwrap_or(&none);
        if here != there {
            words += &format!("entry {index}, this side:  {here}\n");
            words += &format!("entry {index}, other side: {there}\n");
        }
    }
    words
}

fn log_lines(reply: &str) -> Vec<String> {
    let hex = reply.split(' ').nth(6).unwrap_or("").as_bytes();
    let bytes: Vec<u8> = hex.chunks_exact(2).map(byte_of_hex).collect();
    let entries = bytes.get(HEAD..).unwrap_or(&[]).chunks_exact(WIDTH);
    entries
        .map(|bytes| entry_words(&Entry::read(bytes)))
        .collect()
}

fn byte_of_hex(pair: &[u8]) -> u8 {
    let digit = |letter: u8| char::from(letter).to_digit(16).unwrap_or(0) as u8;
    16 * digit(pair[0]) + digit(pair[1])
}

fn spaced(bytes: &[u8]) -> String {
    let words: Vec<String> = bytes.iter().map(u8::to_string).collect();
    words.join(" ")
}

fn rack_words(rack: &[u8]) -> String {
    let Some(files) = files(rack) else {
        return format!("no good rack, bytes: {}\n", spaced(rack));
    };
    let lines = files.iter().enumerate().map(|(index, file)| {
        let count = file.len();
        format!("file {index}, {count} bytes: {}\n", spaced(file))
    });
    lines.collect()
}

fn run_words(file: &[u8], layout: &Layout) -> String {
    let lengths = &file[layout.lengths.clone()];
    let mut words = format!("W {}, C {}, P {}\n", file[1], file[2], file[3]);
    for (process, length) in lengths.iter().enumerate() {
        let own = |&call: &usize| layout.owner(file, call) == Some(process);
        let calls: Vec<String> = (0..layout.call_count())
            .filter(own)
            .map(|call| call_words(&file[layout.call_at(call)..]))
            .collect();
        let calls = calls.join(", ");
        words += &format!("process {process}, script length {length}: {calls}\n");
    }
    let steps = spaced(&file[layout.schedule.clone()]);
    let after = file.len() - layout.schedule.end;
    let count = layout.call_count();
    words + &format!("calls {count}\nschedule: {steps}\nbytes after it: {after}\n")
}

fn call_words(call: &[u8]) -> String {
    let argument = two_bytes(call, 1).unwrap_or(0);
    match (call[0], argument) {
        (1, node) => format!("push {node}"),
        (2, 0) => "pop".to_string(),
        (3, queue) => format!("top pop of queue {queue}"),
        (code, _) => format!("code {code} with {argument}"),
    }
}

fn log_words(log: &[u8]) -> String {
    let count = two_bytes(log, 3).unwrap_or(0);
    let (processes, capacity) = (log[1], log[2]);
    let mut words = format!("P {processes}, C {capacity}, entries {count}\n");
    for (index, bytes) in log[HEAD..].chunks_exact(WIDTH).take(count).enumerate() {
        words += &format!("{index}: {}\n", entry_words(&Entry::read(bytes)));
    }
    if log.len() != length(count) {
        words += &format!("its entries would be {} bytes\n", length(count));
    }
    words
}

fn entry_words(entry: &Entry) -> String {
    let kind = match entry.kind {
        PUSH => "push".to_string(),
        BOTTOM_POP => "pop".to_string(),
        TOP_POP => "top pop".to_string(),
        other => format!("kind {other}"),
    };
    let result = match entry.result {
        NIL => "NIL".to_string(),
        DONE => "done".to_string(),
        FULL => "FULL".to_string(),
        LOST => "NIL at T4".to_string(),
        other => format!("result {other}"),
    };
    let (process, queue, node) = (entry.process, entry.queue, entry.node);
    let (start, end, moment) = (entry.start, entry.end, entry.moment);
    let what = format!("process {process}: {kind} on queue {queue}, {result}, node {node}");
    format!("{what}, step {start} to {end}, moment {moment}")
}
