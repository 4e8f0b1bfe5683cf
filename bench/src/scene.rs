//! The herd's clients: machines with their agents, and who sets jobs. What they do, part by part.

use std::io;

use crate::both::Both;
use crate::size::{Size, machine};
use second::agent::Agent;
use second::calls::{Answer, Call};

/// What a small task needs, and one that no machine has room for.
pub const SMALL: u32 = 10;
pub const HUGE: u32 = 1_000_000;

pub struct Scene {
    pub both: Both,
    pub size: Size,
    pub agents: Vec<Agent>,
    pub now: u64,
}

impl Scene {
    pub fn new(both: Both, size: Size) -> Scene {
        Scene {
            both,
            size,
            agents: (0..size.machines).map(Agent::new).collect(),
            now: 1000,
        }
    }

    pub fn yes(&mut self, call: &Call) -> io::Result<()> {
        match self.both.call(call)? {
            Answer::Yes => Ok(()),
            other => Err(io::Error::other(format!("{call:?}: {other:?}"))),
        }
    }

    pub fn tell(&mut self, by: u64) -> io::Result<()> {
        self.now += by;
        self.yes(&Call::Time(self.now))
    }

    pub fn add_all(&mut self) -> io::Result<()> {
        (0..self.size.machines).try_for_each(|m| self.yes(&Call::Add(machine(m))))
    }

    pub fn set_all(&mut self, image: u32) -> io::Result<()> {
        (0..self.size.jobs).try_for_each(|job| self.set(job, image, SMALL))
    }

    pub fn set(&mut self, job: u16, image: u32, cpu: u32) -> io::Result<()> {
        let wanted = self.size.wanted(job, image, cpu);
        self.yes(&Call::Set(wanted))
    }

    /// A machine reports and obeys, and what it starts is ready by its next report. Was there anything new for it?
    pub fn report(&mut self, at: usize) -> io::Result<bool> {
        let report = self.agents[at].report();
        let idle = report.tasks.iter().any(|seen| !seen.ready);
        let Answer::Run(run) = self.both.call(&Call::Report(report))? else {
            return Err(io::Error::other("a report was turned away"));
        };
        let agent = &mut self.agents[at];
        let same = agent.ordered == run.orders;
        agent.obey(run);
        agent.runs.iter_mut().for_each(|seen| seen.ready = true);
        Ok(idle || !same)
    }

    /// All machines from that one on report once.
    pub fn round(&mut self, from: usize) -> io::Result<bool> {
        let mut new = false;
        for at in from..self.agents.len() {
            new |= self.report(at)?;
        }
        Ok(new)
    }

    /// Rounds until nothing is new and all is ordered, of that image.
    pub fn until_done(&mut self, image: u32) -> io::Result<u64> {
        for rounds in 1..1000 {
            let new = self.round(0)?;
            if !new && self.is_done(image) {
                return Ok(rounds);
            }
        }
        Err(io::Error::other("it is never done"))
    }

    fn is_done(&self, image: u32) -> bool {
        let orders = self.agents.iter().flat_map(|agent| &agent.ordered);
        let there = orders.filter(|order| order.likeness.image == image);
        there.count() as u64 == self.size.tasks()
    }

    pub fn set_up(&mut self) -> io::Result<()> {
        self.both.begin("set up: time")?;
        self.tell(0)?;
        self.both.begin("set up: add a machine")?;
        self.add_all()?;
        self.both.begin("set up: its first report")?;
        self.round(0)?;
        self.both.begin("set up: set a job")?;
        self.set_all(1)?;
        self.both.begin("set up: reports until all is ready")?;
        self.until_done(1)?;
        Ok(())
    }
}
