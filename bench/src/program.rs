//! A program as a child: a line to its standard input, a line from its standard output.

use std::fmt::Write as _;
use std::fs;
use std::io::{self, BufRead, BufReader, Write};
use std::path::Path;
use std::process::{Child, ChildStdin, ChildStdout, Command, Stdio};

pub struct Program {
    child: Child,
    input: ChildStdin,
    output: BufReader<ChildStdout>,
}

impl Program {
    pub fn start(program: &Path, argument: &Path) -> io::Result<Program> {
        let mut child = Command::new(program)
            .arg(argument)
            .stdin(Stdio::piped())
            .stdout(Stdio::piped())
            .spawn()?;
        let (Some(input), Some(output)) = (child.stdin.take(), child.stdout.take()) else {
            return Err(io::Error::other("no pipe"));
        };
        Ok(Program {
            child,
            input,
            output: BufReader::new(output),
        })
    }

    pub fn send(&mut self, line: &[u8]) -> io::Result<()> {
        self.input.write_all(in_hex(line).as_bytes())
    }

    /// What it answers, without the end of the line.
    pub fn receive(&mut self) -> io::Result<String> {
        let mut text = String::new();
        self.output.read_line(&mut text)?;
        text.truncate(text.trim_end().len());
        Ok(text)
    }

    /// Nanoseconds of processor time so far.
    pub fn spent(&self) -> io::Result<u64> {
        let text = fs::read_to_string(format!("/proc/{}/schedstat", self.child.id()))?;
        let first = text.split_whitespace().next();
        first
            .and_then(|word| word.parse().ok())
            .ok_or_else(|| io::Error::other("no schedstat"))
    }

    /// The end of its input, and its own.
    pub fn end(self) -> io::Result<()> {
        let Program {
            mut child, input, ..
        } = self;
        drop(input);
        match child.wait()? {
            status if status.success() => Ok(()),
            status => Err(io::Error::other(format!("a program ended: {status}"))),
        }
    }
}

pub fn in_hex(line: &[u8]) -> String {
    format!("in {}\n", hex(line))
}

pub fn hex(bytes: &[u8]) -> String {
    let mut text = String::new();
    for byte in bytes {
        let _ = write!(text, "{byte:02x}");
    }
    text
}

pub fn bytes(hex: &str) -> Option<Vec<u8>> {
    let pairs = (0..hex.len()).step_by(2);
    pairs
        .map(|i| u8::from_str_radix(hex.get(i..i + 2)?, 16).ok())
        .collect()
}
