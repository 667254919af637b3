//! The two sides as running programs, asked in batches: all the lines go to both, then their answers are read.
use std::ffi::OsStr;
use std::io::{BufRead, BufReader, Error, Result, Write};
use std::process::{Child, ChildStdin, ChildStdout, Command, Stdio};

/// What stands in the place of an answer that a side did not give, since it had ended.
pub const ENDED: &str = "(ended)";

pub struct Side {
    child: Child,
    input: Option<ChildStdin>,
    output: BufReader<ChildStdout>,
}

fn send(input: &mut ChildStdin, text: &str) {
    // A side that ended shows by its answers.
    let _ = input.write_all(text.as_bytes()).and_then(|()| input.flush());
}

fn answers(output: &mut impl BufRead, count: usize) -> Vec<String> {
    let mut answers = Vec::new();
    for _ in 0..count {
        let mut line = String::new();
        // The missing answer of a side that ended is what differs.
        if !matches!(output.read_line(&mut line), Ok(length) if length > 0) {
            line = ENDED.into();
        }
        answers.push(line.trim_end().to_string());
    }
    answers
}

impl Side {
    /// A side by the words that start it.
    pub fn start(words: &[impl AsRef<OsStr>]) -> Result<Side> {
        let (program, rest) = words.split_first().ok_or_else(|| Error::other("no words to start a side by"))?;
        let mut child = Command::new(program).args(rest).stdin(Stdio::piped()).stdout(Stdio::piped()).spawn()?;
        let input = child.stdin.take();
        let output = child.stdout.take().ok_or_else(|| Error::other("a side has no output"))?;
        Ok(Side { child, input, output: BufReader::with_capacity(1 << 16, output) })
    }

    /// The answers to these lines. They are written by a thread of its own, since a side may answer before it has read all.
    pub fn ask(&mut self, lines: &[String]) -> Vec<String> {
        let mut text = lines.join("\n");
        text.push_str("\n\n");
        let Side { input, output, .. } = self;
        std::thread::scope(|scope| {
            if let Some(input) = input {
                scope.spawn(|| send(input, &text));
            }
            answers(output, lines.len())
        })
    }
}

impl Drop for Side {
    fn drop(&mut self) {
        drop(self.input.take());
        let _ = self.child.wait();
    }
}

pub struct Both {
    pub krate: Side,
    pub port: Side,
}

impl Both {
    pub fn start(krate: &[impl AsRef<OsStr>], port: &[impl AsRef<OsStr>]) -> Result<Both> {
        Ok(Both { krate: Side::start(krate)?, port: Side::start(port)? })
    }

    /// The answers of the crate and of the port to the same lines.
    pub fn ask(&mut self, lines: &[String]) -> (Vec<String>, Vec<String>) {
        let Both { krate, port } = self;
        std::thread::scope(|scope| {
            let krate = scope.spawn(|| krate.ask(lines));
            let port = port.ask(lines);
            (krate.join().unwrap_or_else(|_| vec![ENDED.to_string(); lines.len()]), port)
        })
    }
}
