//! The herd and the second program's herd side by side: each call goes to both, both must answer the same, and what it cost each is kept.

use std::io;
use std::path::Path;
use std::thread::sleep;
use std::time::Duration;

use crate::program::{Program, bytes, in_hex};
use second::bytes::{call_bytes, framed, read_answer, unframed};
use second::calls::{Answer, Call};

/// What the calls of one part of a scene cost.
#[derive(Clone)]
pub struct Part {
    pub name: String,
    pub calls: u64,
    pub stores: u64,
    pub most_stores: u64,
    /// Nanoseconds of processor time.
    pub herd: u64,
    pub second: u64,
}

pub struct Both {
    herd: Program,
    second: Program,
    part: Part,
    pub parts: Vec<Part>,
    /// All that was sent, where it is asked for.
    pub sent: Option<Vec<String>>,
}

impl Both {
    pub fn start(herd: &Path, folder: &Path) -> io::Result<Both> {
        let mine = std::env::current_exe()?;
        Ok(Both {
            herd: Program::start(herd, folder)?,
            second: Program::start(&mine, Path::new("second"))?,
            part: empty(""),
            parts: Vec::new(),
            sent: None,
        })
    }

    /// What comes now is counted by itself.
    pub fn begin(&mut self, name: &str) -> io::Result<()> {
        // Both wait for a line by then, so that all their time is counted.
        sleep(Duration::from_millis(20));
        let (herd, second) = (self.herd.spent()?, self.second.spent()?);
        let mut done = std::mem::replace(&mut self.part, empty(name));
        (done.herd, done.second) = (herd - done.herd, second - done.second);
        (self.part.herd, self.part.second) = (herd, second);
        if done.calls > 0 {
            self.parts.push(done);
        }
        Ok(())
    }

    pub fn call(&mut self, call: &Call) -> io::Result<Answer> {
        self.part.calls += 1;
        let line = framed(self.part.calls as u32, &call_bytes(call));
        self.herd.send(&line)?;
        self.second.send(&line)?;
        if let Some(sent) = &mut self.sent {
            sent.push(in_hex(&line));
        }
        let ours = self.herd.receive()?;
        let theirs = self.second.receive()?;
        let (theirs, stores) = theirs.rsplit_once(' ').unwrap_or_default();
        if ours != theirs {
            let told = format!("{call:?}: herd says {ours}, second {theirs}");
            return Err(io::Error::other(told));
        }
        let stores = stores.parse().map_err(io::Error::other)?;
        self.part.stores += stores;
        self.part.most_stores = self.part.most_stores.max(stores);
        answer(&ours).ok_or_else(|| io::Error::other("no answer"))
    }

    pub fn end(self) -> io::Result<()> {
        self.herd.end()?;
        self.second.end()
    }
}

fn answer(text: &str) -> Option<Answer> {
    let line = bytes(text.strip_prefix("out ")?)?;
    read_answer(unframed(&line).1)
}

fn empty(name: &str) -> Part {
    Part {
        name: name.to_owned(),
        calls: 0,
        stores: 0,
        most_stores: 0,
        herd: 0,
        second: 0,
    }
}
