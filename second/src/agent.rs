//! An agent on its machine: what is ordered there, and what runs.

use crate::bytes::{call_bytes, framed};
use crate::calls::{Call, Order, Report, Run, Seen};

#[derive(Clone)]
pub struct Agent {
    pub machine: u16,
    pub life: u64,
    pub number: u64,
    pub ordered: Vec<Order>,
    /// What was started last stands first.
    pub runs: Vec<Seen>,
}

#[derive(Clone, Copy, Debug, PartialEq, Eq)]
pub enum Deed {
    Stop(u64),
    Start(u64),
}

impl Agent {
    pub fn new(machine: u16) -> Agent {
        Agent {
            machine,
            life: 1,
            number: 0,
            ordered: Vec::new(),
            runs: Vec::new(),
        }
    }

    pub fn fall(&mut self) {
        let life = self.life + 1;
        *self = Agent {
            life,
            ..Agent::new(self.machine)
        };
    }

    pub fn run(&self, task: u64) -> Option<&Seen> {
        self.runs.iter().find(|seen| seen.task == task)
    }

    pub fn order(&self, task: u64) -> Option<&Order> {
        self.ordered.iter().find(|order| order.task == task)
    }

    /// The next report, of all that is ordered.
    pub fn report(&mut self) -> Report {
        self.number += 1;
        let is_ready = |task| self.run(task).is_some_and(|seen| seen.ready);
        let tasks = self.ordered.iter().map(|order| Seen {
            task: order.task,
            ready: is_ready(order.task),
        });
        Report {
            machine: self.machine,
            life: self.life,
            number: self.number,
            tasks: tasks.collect(),
        }
    }

    /// Only what answers the last report is obeyed.
    pub fn obey(&mut self, run: Run) -> Option<Vec<Deed>> {
        if (run.machine, run.life, run.number) != (self.machine, self.life, self.number) {
            return None;
        }
        self.ordered = run.orders;
        let (stay, go): (Vec<Seen>, Vec<Seen>) = self
            .runs
            .iter()
            .partition(|seen| self.order(seen.task).is_some());
        self.runs = stay;
        let mut deeds: Vec<Deed> = go.iter().map(|seen| Deed::Stop(seen.task)).collect();
        deeds.extend(self.start());
        Some(deeds)
    }

    /// Starts what is ordered and doesn't run, in front of what runs.
    fn start(&mut self) -> Vec<Deed> {
        let missing = self.ordered.iter().filter(|o| self.run(o.task).is_none());
        let new: Vec<u64> = missing.map(|order| order.task).collect();
        let started = new.iter().map(|task| Seen {
            task: *task,
            ready: false,
        });
        self.runs.splice(0..0, started);
        new.into_iter().map(Deed::Start).collect()
    }

    pub fn becomes_ready(&mut self, task: u64) -> bool {
        let mut there = self.runs.iter_mut();
        let found = there.find(|seen| seen.task == task);
        found.map(|seen| seen.ready = true).is_some()
    }

    pub fn dies(&mut self, task: u64) -> Option<Vec<Deed>> {
        self.run(task)?;
        self.runs.retain(|seen| seen.task != task);
        Some(self.start())
    }
}

/// A report on a line. The tag counts with the reports.
pub fn report_line(report: Report) -> Vec<u8> {
    let tag = report.number as u32;
    framed(tag, &call_bytes(&Call::Report(report)))
}
