//! Calls and answers as bytes, numbers with their high byte first. What has bytes missing or left over is read as none.

use crate::calls::{Added, Answer, Call, Line, Order, Report, Run, Seen, Wanted};
use crate::rules::{Likeness, Phase};

/// Puts a call or an answer on a line: length of the rest, tag, body.
pub fn framed(tag: u32, body: &[u8]) -> Vec<u8> {
    let mut line = Vec::new();
    line.extend((body.len() as u32 + 4).to_be_bytes());
    line.extend(tag.to_be_bytes());
    line.extend(body);
    line
}

/// The tag of a line and its body. Where the frame is broken the body is empty.
pub fn unframed(line: &[u8]) -> (u32, &[u8]) {
    let mut bytes = Bytes(line);
    let (Some(length), Some(tag)) = (bytes.number(4), bytes.number(4)) else {
        return (0, &[]);
    };
    let whole = length + 4 == line.len() as u64;
    (tag as u32, if whole { bytes.0 } else { &[] })
}

/// Bytes that are still to be read.
struct Bytes<'a>(&'a [u8]);

impl<'a> Bytes<'a> {
    fn take(&mut self, n: usize) -> Option<&'a [u8]> {
        let (front, rest) = self.0.split_at_checked(n)?;
        self.0 = rest;
        Some(front)
    }

    fn number(&mut self, width: usize) -> Option<u64> {
        let bytes = self.take(width)?;
        Some(bytes.iter().fold(0, |n, byte| n << 8 | u64::from(*byte)))
    }

    fn flag(&mut self) -> Option<bool> {
        match self.number(1)? {
            0 => Some(false),
            1 => Some(true),
            _ => None,
        }
    }

    fn name(&mut self) -> Option<Vec<u8>> {
        let length = self.number(1)?;
        Some(self.take(length as usize)?.to_vec())
    }

    fn tags(&mut self) -> Option<Vec<u32>> {
        let count = self.number(1)?;
        self.many(count, |bytes| Some(bytes.number(4)? as u32))
    }

    fn many<T>(&mut self, n: u64, read: impl Fn(&mut Self) -> Option<T>) -> Option<Vec<T>> {
        (0..n).map(|_| read(self)).collect()
    }

    fn likeness(&mut self) -> Option<Likeness> {
        Some(Likeness {
            image: self.number(4)? as u32,
            cpu: self.number(4)? as u32,
            memory: self.number(4)? as u32,
            tags: self.tags()?,
            apart: self.flag()?,
        })
    }

    fn wanted(&mut self) -> Option<Wanted> {
        Some(Wanted {
            name: self.name()?,
            likeness: self.likeness()?,
            count: self.number(2)? as u16,
            least: self.number(2)? as u16,
            most: self.number(2)? as u16,
        })
    }

    fn added(&mut self) -> Option<Added> {
        Some(Added {
            machine: self.machine()?,
            cpu: self.number(4)? as u32,
            memory: self.number(4)? as u32,
            tags: self.tags()?,
        })
    }

    fn machine(&mut self) -> Option<u16> {
        Some(self.number(2)? as u16)
    }

    fn report(&mut self) -> Option<Report> {
        let machine = self.machine()?;
        let (life, number, count) = (self.number(8)?, self.number(8)?, self.number(2)?);
        let tasks = self.many(count, |bytes| {
            Some(Seen {
                task: bytes.number(8)?,
                ready: bytes.flag()?,
            })
        })?;
        Some(Report {
            machine,
            life,
            number,
            tasks,
        })
    }

    fn run(&mut self) -> Option<Run> {
        let machine = self.machine()?;
        let (life, number, count) = (self.number(8)?, self.number(8)?, self.number(2)?);
        let orders = self.many(count, Bytes::order)?;
        Some(Run {
            machine,
            life,
            number,
            orders,
        })
    }

    /// No herd sends an order with more than 8 tags, so such a one is none.
    fn order(&mut self) -> Option<Order> {
        let task = self.number(8)?;
        let likeness = self.likeness()?;
        (likeness.tags.len() <= 8).then_some(Order { task, likeness })
    }

    fn line(&mut self) -> Option<Line> {
        Some(Line {
            task: self.number(8)?,
            version: self.number(4)? as u32,
            phase: phase(self.number(1)?)?,
            machine: self.machine()?,
        })
    }

    fn end<T>(&self, read: T) -> Option<T> {
        self.0.is_empty().then_some(read)
    }
}

fn phase(number: u64) -> Option<Phase> {
    match number {
        0 => Some(Phase::Waiting),
        1 => Some(Phase::Told),
        2 => Some(Phase::Ready),
        3 => Some(Phase::Ending),
        _ => None,
    }
}

pub fn read_call(body: &[u8]) -> Option<Call> {
    let mut bytes = Bytes(body);
    let call = match bytes.number(1)? {
        1 => Call::Set(bytes.wanted()?),
        2 => Call::End(bytes.name()?),
        3 => Call::Add(bytes.added()?),
        4 => Call::Close(bytes.machine()?),
        5 => Call::Reopen(bytes.machine()?),
        6 => Call::Forget(bytes.machine()?),
        7 => Call::Report(bytes.report()?),
        8 => Call::Time(bytes.number(8)?),
        9 => Call::Show(bytes.name()?),
        _ => return None,
    };
    bytes.end(call)
}

pub fn read_answer(body: &[u8]) -> Option<Answer> {
    let mut bytes = Bytes(body);
    let answer = match bytes.number(1)? {
        0 => Answer::No(bytes.number(1)? as u8),
        1 => Answer::Yes,
        2 => Answer::Run(bytes.run()?),
        3 => {
            let count = bytes.number(2)?;
            Answer::Lines(bytes.many(count, Bytes::line)?)
        }
        _ => return None,
    };
    bytes.end(answer)
}

/// Bytes that are being written.
struct Written(Vec<u8>);

impl Written {
    fn number(&mut self, width: usize, n: impl Into<u64>) {
        let bytes = n.into().to_be_bytes();
        self.0.extend(&bytes[8 - width..]);
    }

    fn name(&mut self, name: &[u8]) {
        self.0.push(name.len() as u8);
        self.0.extend(name);
    }

    fn tags(&mut self, tags: &[u32]) {
        self.0.push(tags.len() as u8);
        for tag in tags {
            self.number(4, *tag);
        }
    }

    fn likeness(&mut self, likeness: &Likeness) {
        self.number(4, likeness.image);
        self.number(4, likeness.cpu);
        self.number(4, likeness.memory);
        self.tags(&likeness.tags);
        self.number(1, likeness.apart);
    }

    fn wanted(&mut self, w: &Wanted) {
        self.name(&w.name);
        self.likeness(&w.likeness);
        for n in [w.count, w.least, w.most] {
            self.number(2, n);
        }
    }

    fn added(&mut self, a: &Added) {
        self.number(2, a.machine);
        self.number(4, a.cpu);
        self.number(4, a.memory);
        self.tags(&a.tags);
    }

    /// What a report and the answer to it have in front of their tasks.
    fn head(&mut self, machine: u16, life: u64, number: u64, count: usize) {
        self.number(2, machine);
        self.number(8, life);
        self.number(8, number);
        self.number(2, count as u64);
    }
}

pub fn call_bytes(call: &Call) -> Vec<u8> {
    let mut out = Written(vec![kind_of(call)]);
    match call {
        Call::Set(wanted) => out.wanted(wanted),
        Call::Add(added) => out.added(added),
        Call::End(name) | Call::Show(name) => out.name(name),
        Call::Close(machine) | Call::Reopen(machine) | Call::Forget(machine) => {
            out.number(2, *machine);
        }
        Call::Report(r) => {
            out.head(r.machine, r.life, r.number, r.tasks.len());
            for seen in &r.tasks {
                out.number(8, seen.task);
                out.number(1, seen.ready);
            }
        }
        Call::Time(time) => out.number(8, *time),
    }
    out.0
}

fn kind_of(call: &Call) -> u8 {
    match call {
        Call::Set(_) => 1,
        Call::End(_) => 2,
        Call::Add(_) => 3,
        Call::Close(_) => 4,
        Call::Reopen(_) => 5,
        Call::Forget(_) => 6,
        Call::Report(_) => 7,
        Call::Time(_) => 8,
        Call::Show(_) => 9,
    }
}

pub fn answer_bytes(answer: &Answer) -> Vec<u8> {
    let mut out = Written(Vec::new());
    match answer {
        Answer::No(why) => out.0.extend([0, *why]),
        Answer::Yes => out.0.push(1),
        Answer::Run(r) => {
            out.0.push(2);
            out.head(r.machine, r.life, r.number, r.orders.len());
            for order in &r.orders {
                out.number(8, order.task);
                out.likeness(&order.likeness);
            }
        }
        Answer::Lines(lines) => {
            out.0.push(3);
            out.number(2, lines.len() as u64);
            for line in lines {
                out.number(8, line.task);
                out.number(4, line.version);
                out.number(1, line.phase as u64);
                out.number(2, line.machine);
            }
        }
    }
    out.0
}

#[cfg(test)]
mod tests;
