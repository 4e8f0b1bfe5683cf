//! Playing a script: a herd, up to eight machines, and the lines between.

mod post;
mod settle;

use crate::agent::{Agent, report_line};
use crate::bytes::{call_bytes, framed, read_answer, unframed};
use crate::calls::{Answer, Call};
use crate::check;
use crate::herd::Herd;
use crate::kept::Dark;
use crate::lines::{Letter, Lines};
use crate::script::{Command, is_plain, parse};
use crate::show;

#[derive(Clone)]
pub struct Play {
    pub herd: Herd,
    /// In the order in which they were first named.
    pub agents: Vec<Agent>,
    pub lines: Lines,
    /// Of the last call that was said.
    tag: u32,
    /// Last told and answered by yes.
    pub time: u64,
    /// The largest most of each job, as first set.
    mosts: Vec<(Vec<u8>, u16)>,
    hex: bool,
    line: usize,
    /// The first line that went badly.
    bad: Option<String>,
    pub out: Vec<String>,
}

/// Plays a whole script; what it prints, and whether it ended well.
pub fn play(script: &[u8]) -> (Vec<String>, bool) {
    let mut play = Play::new();
    for line in script.split(|byte| *byte == b'\n') {
        play.line(line);
    }
    play.end()
}

impl Play {
    pub(crate) fn new() -> Play {
        Play {
            herd: Herd::new(),
            agents: Vec::new(),
            lines: Lines::new(),
            tag: 0,
            time: 0,
            mosts: Vec::new(),
            hex: false,
            line: 0,
            bad: None,
            out: Vec::new(),
        }
    }

    pub fn line(&mut self, line: &[u8]) {
        self.line += 1;
        let done = parse(line).and_then(|command| match command {
            Some(command) => self.command(command),
            None => Ok(true),
        });
        if let Err(why) = &done {
            self.print(format!("bad line {}: {why}", self.line));
        }
        if done != Ok(true) && self.bad.is_none() {
            self.bad = Some(format!("end: badly, line {}: {}", self.line, plain(line)));
        }
    }

    fn end(mut self) -> (Vec<String>, bool) {
        let well = self.bad.is_none();
        self.out.push(self.bad.unwrap_or("end: well".into()));
        (self.out, well)
    }

    fn print(&mut self, line: impl Into<String>) {
        self.out.push(line.into());
    }

    /// False where a check failed; or why the line is bad.
    fn command(&mut self, command: Command) -> Result<bool, String> {
        match command {
            Command::Say(call) => self.say(call)?,
            Command::Report(machine) => self.report(machine)?,
            Command::Fall(machine) => self.fall(machine)?,
            Command::Ready(task) => self.ready(task),
            Command::Dies(task) => self.dies(task),
            Command::Bad(bad) => self.set_lines(bad),
            Command::Seed(seed) => self.seed(seed),
            Command::Deliver => self.deliver_and_print(),
            Command::Letters => self.letters(),
            Command::Hand(k) => self.hand(k)?,
            Command::Lose(k) => self.lose(k)?,
            Command::Double(k) => self.double(k)?,
            Command::Dark(stores) => self.dark(stores),
            Command::Stores => self.stores(),
            Command::Rounds(n, ms) => self.rounds(n, ms),
            Command::Settle(ms) => return Ok(self.settle(ms)),
            Command::Hex(on) => self.set_hex(on),
            Command::Show => self.show(),
            Command::Check => return Ok(self.check()),
        }
        Ok(true)
    }

    // WHAT PEOPLE SAY

    fn say(&mut self, call: Call) -> Result<(), String> {
        if let Call::Add(added) = &call {
            self.played(added.machine)?;
        }
        if let Call::Forget(machine) = call {
            let mut all = self.agents.iter_mut();
            if let Some(agent) = all.find(|agent| agent.machine == machine) {
                agent.fall();
            }
        }
        let answer = self.call(&call);
        let answered = show::answered(&answer);
        self.print(format!("{}: {answered}", show::said(&call)));
        if let Ok(Answer::Lines(lines)) = answer {
            self.out.extend(lines.iter().map(show::task_line));
        }
        Ok(())
    }

    fn call(&mut self, call: &Call) -> Result<Answer, Dark> {
        self.tag = self.tag.wrapping_add(1);
        let line = framed(self.tag, &call_bytes(call));
        let answer = self.carry(&line).map(|line| read(&line));
        if let (Call::Time(time), Ok(Answer::Yes)) = (call, &answer) {
            self.time = *time;
        }
        if let Call::Set(wanted) = call
            && !matches!(answer, Ok(Answer::No(_)))
        {
            self.note_most(&wanted.name, wanted.most);
        }
        answer
    }

    /// Brings a line to the herd, and the answer back.
    fn carry(&mut self, line: &[u8]) -> Result<Vec<u8>, Dark> {
        if self.hex {
            self.print(format!("  in {}", show::hex(line)));
        }
        let answer = self.herd.answer(line)?;
        if self.hex {
            self.print(format!("  out {}", show::hex(&answer)));
        }
        Ok(answer)
    }

    fn note_most(&mut self, name: &[u8], most: u16) {
        match self.mosts.iter_mut().find(|(other, _)| other == name) {
            Some((_, largest)) => *largest = most.max(*largest),
            None => self.mosts.push((name.to_vec(), most)),
        }
    }

    // MACHINES

    /// The agent of a machine, which comes up if it is named for the first time.
    fn played(&mut self, machine: u16) -> Result<&mut Agent, String> {
        let found = self.agents.iter().position(|a| a.machine == machine);
        if found.is_none() && self.agents.len() == 8 {
            return Err(format!(
                "eight machines are played, and {machine} would be the ninth"
            ));
        }
        let i = found.unwrap_or(self.agents.len());
        if found.is_none() {
            self.agents.push(Agent::new(machine));
        }
        Ok(&mut self.agents[i])
    }

    fn report(&mut self, machine: u16) -> Result<(), String> {
        let report = self.played(machine)?.report();
        let (life, number) = (report.life, report.number);
        let tasks = show::seen(&report.tasks);
        self.print(format!(
            "report {machine}: life {life}, number {number}: {tasks}"
        ));
        self.send(machine, report_line(report), true);
        Ok(())
    }

    fn send(&mut self, machine: u16, line: Vec<u8>, to_herd: bool) {
        self.lines.letters.push(Letter {
            machine,
            line,
            to_herd,
        });
    }

    fn ready(&mut self, task: u64) {
        let mut there = Vec::new();
        for agent in &mut self.agents {
            if agent.becomes_ready(task) {
                there.push(format!("ready {task}: machine {}", agent.machine));
            }
        }
        if there.is_empty() {
            there.push(format!("ready {task}: runs nowhere"));
        }
        self.out.extend(there);
    }

    fn dies(&mut self, task: u64) {
        let mut there = Vec::new();
        for agent in &mut self.agents {
            if let Some(deeds) = agent.dies(task) {
                let deeds = show::deeds(&deeds);
                there.push(format!("dies {task}: machine {}: {deeds}", agent.machine));
            }
        }
        if there.is_empty() {
            there.push(format!("dies {task}: runs nowhere"));
        }
        self.out.extend(there);
    }

    fn fall(&mut self, machine: u16) -> Result<(), String> {
        let agent = self.played(machine)?;
        agent.fall();
        let life = agent.life;
        self.print(format!("fall {machine}: life {life}"));
        Ok(())
    }

    // THE DARK, ROUNDS

    fn dark(&mut self, stores: u64) {
        self.herd.kept.dark_after(stores);
        self.print(format!("dark after {stores} stores"));
    }

    fn stores(&mut self) {
        let stores = self.herd.kept.take_stores();
        self.print(format!("stores: {stores}"));
    }

    fn rounds(&mut self, n: u16, ms: u64) {
        for k in 1..=n {
            self.round(k, ms);
        }
    }

    fn round(&mut self, k: u16, ms: u64) {
        for i in 0..self.agents.len() {
            let report = self.agents[i].report();
            self.send(self.agents[i].machine, report_line(report), true);
        }
        self.deliver(&mut |play, delivered| {
            if delivered.dark {
                play.print(format!("round {k}: {}", show::FAILED));
            }
        });
        for agent in &mut self.agents {
            agent.runs.iter_mut().for_each(|seen| seen.ready = true);
        }
        let time = self.time.saturating_add(ms);
        let answer = self.call(&Call::Time(time));
        let answered = show::answered(&answer);
        let counts = show::counts(&self.herd.state, &self.agents);
        self.print(format!("round {k}, time {time}: {answered}: {counts}"));
    }

    fn set_hex(&mut self, on: bool) {
        self.hex = on;
        self.print(if on { "hex on" } else { "hex off" });
    }

    // LOOKING

    fn show(&mut self) {
        let letters = self.lines.letters.len();
        let all = show::all(&self.herd.state, &self.agents, letters);
        self.out.extend(all);
    }

    fn check(&mut self) -> bool {
        let found = [
            ("within", check::within(&self.herd.state, &self.agents)),
            ("twice", check::twice(&self.agents)),
            ("most", check::most(&self.herd.state, &self.mosts)),
        ];
        let well = found.iter().all(|(_, wrong)| wrong.is_none());
        for (what, wrong) in found {
            let words = wrong.unwrap_or("ok".into());
            self.print(format!("check {what}: {words}"));
        }
        well
    }
}

fn read(line: &[u8]) -> Answer {
    read_answer(unframed(line).1).expect("what the herd answers is an answer")
}

/// A line of the script as it is printed again.
fn plain(line: &[u8]) -> String {
    let shown = line
        .iter()
        .map(|byte| if is_plain(*byte) { *byte } else { b'?' });
    shown.map(char::from).collect()
}
