//! The other side: a program that reads cases and writes replies.

use crate::cases::Case;
use crate::replies::reply;
use std::io::{self, Read, Write};
use std::process::{ChildStdin, Command, Stdio};

pub struct Child {
    pub command: Vec<String>,
}

impl Child {
    /// The replies that it gave before it ended, however it ended.
    pub fn replies(&self, cases: &[Case]) -> io::Result<Vec<String>> {
        let mut child = Command::new(&self.command[0])
            .args(&self.command[1..])
            .stdin(Stdio::piped())
            .stdout(Stdio::piped())
            .stderr(Stdio::null())
            .spawn()?;
        let (stdin, stdout) = (child.stdin.take(), child.stdout.take());
        let mut text = Vec::new();
        std::thread::scope(|scope| {
            scope.spawn(|| stdin.map(|stdin| send(cases, stdin)));
            stdout.map(|mut stdout| stdout.read_to_end(&mut text))
        });
        child.wait()?;
        let text = String::from_utf8_lossy(&text);
        let whole_lines = text.rsplit_once('\n').map_or("", |(lines, _)| lines);
        Ok(whole_lines.lines().map(str::to_string).collect())
    }

    /// The first case with another reply than this side's, or with none, and that reply.
    pub fn first_difference(&self, cases: &[Case]) -> io::Result<Option<(usize, String)>> {
        let replies = self.replies(cases)?;
        let no_reply = "no reply: it ended at this case".to_string();
        let found = replies.into_iter().chain(std::iter::repeat(no_reply));
        Ok(cases
            .iter()
            .zip(found)
            .enumerate()
            .find(|(_, (case, found))| reply(case) != *found)
            .map(|(index, (_, found))| (index, found)))
    }
}

/// A child that ends early takes no more cases, and its missing replies tell that.
fn send(cases: &[Case], stdin: ChildStdin) -> io::Result<()> {
    let mut stdin = io::BufWriter::new(stdin);
    for case in cases {
        case.write(&mut stdin)?;
    }
    stdin.flush()
}
