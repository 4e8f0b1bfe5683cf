//! What is said to the herd, what it answers, and what is there afterwards.

use crate::rules::{Job, LAST, Likeness, Machine, Phase, State, Task, Watch};

#[derive(Clone, Copy, Debug, PartialEq, Eq)]
pub struct Seen {
    pub task: u64,
    pub ready: bool,
}

#[derive(Clone, Debug, PartialEq, Eq)]
pub struct Report {
    pub machine: u16,
    pub life: u64,
    pub number: u64,
    pub tasks: Vec<Seen>,
}

#[derive(Clone, Debug, PartialEq, Eq)]
pub struct Wanted {
    pub name: Vec<u8>,
    pub likeness: Likeness,
    pub count: u16,
    pub least: u16,
    pub most: u16,
}

#[derive(Clone, Debug, PartialEq, Eq)]
pub struct Added {
    pub machine: u16,
    pub cpu: u32,
    pub memory: u32,
    pub tags: Vec<u32>,
}

#[derive(Clone, Debug, PartialEq, Eq)]
pub enum Call {
    Set(Wanted),
    End(Vec<u8>),
    Add(Added),
    Close(u16),
    Reopen(u16),
    Forget(u16),
    Report(Report),
    Time(u64),
    Show(Vec<u8>),
}

#[derive(Clone, Debug, PartialEq, Eq)]
pub struct Order {
    pub task: u64,
    pub likeness: Likeness,
}

#[derive(Clone, Copy, Debug, PartialEq, Eq)]
pub struct Line {
    pub task: u64,
    pub version: u32,
    pub phase: Phase,
    pub machine: u16,
}

#[derive(Clone, Debug, PartialEq, Eq)]
pub struct Run {
    pub machine: u16,
    pub life: u64,
    pub number: u64,
    pub orders: Vec<Order>,
}

#[derive(Clone, Debug, PartialEq, Eq)]
pub enum Answer {
    No(u8),
    Yes,
    Run(Run),
    Lines(Vec<Line>),
}

// The numbers by which calls are turned away.
pub const RANGE: u8 = 1;
const UNKNOWN: u8 = 2;
const THERE: u8 = 3;
const STALE: u8 = 5;
const FULL: u8 = 8;
pub const NO_TIME: u8 = 10;
pub const NOT_BUILT: u8 = 12;

const MOST_OF_ALL: u32 = 2048;

/// Does a call. What is turned away changes nothing.
pub fn does(call: &Call, s: &mut State, watch: &mut Watch) -> Answer {
    if s.now == 0 && !matches!(call, Call::Time(_)) {
        return Answer::No(NO_TIME);
    }
    if let Call::Show(name) = call {
        return show(s, name);
    }
    if let Err(why) = change(call, s) {
        return Answer::No(why);
    }
    s.settle(watch);
    match call {
        Call::Report(report) => run(s, report),
        _ => Answer::Yes,
    }
}

/// All of a call but the pass.
fn change(call: &Call, s: &mut State) -> Result<(), u8> {
    match call {
        Call::Set(wanted) => set(s, wanted),
        Call::End(name) => end(s, name),
        Call::Add(added) => add(s, added),
        Call::Close(machine) => open(s, *machine, false),
        Call::Reopen(machine) => open(s, *machine, true),
        Call::Forget(machine) => forget(s, *machine),
        Call::Report(report) => hear(s, report),
        Call::Time(time) => tell(s, *time),
        Call::Show(_) => Ok(()),
    }
}

fn is_in_range(w: &Wanted) -> bool {
    let alike = w.least == w.count && w.count == w.most;
    (1..=64).contains(&w.name.len())
        && w.likeness.cpu <= 1_000_000
        && w.likeness.memory <= 1_000_000
        && w.likeness.tags.len() <= 8
        && w.least <= w.count
        && w.count <= w.most
        && w.most <= 256
        && (!alike || w.count == 0)
}

fn set(s: &mut State, w: &Wanted) -> Result<(), u8> {
    if !is_in_range(w) {
        return Err(RANGE);
    }
    let others = s.jobs.iter().filter(|job| job.name != w.name);
    let mosts: u32 = others.map(|job| u32::from(job.most)).sum();
    if mosts + u32::from(w.most) > MOST_OF_ALL {
        return Err(FULL);
    }
    let jobs = s.jobs.len();
    match s.job(&w.name) {
        Some(job) => {
            let version = next_version(job, &w.likeness)?;
            *job = job_of(w, version);
        }
        None if jobs >= 256 => return Err(FULL),
        None => s.jobs.push(job_of(w, 1)),
    }
    Ok(())
}

fn next_version(job: &Job, likeness: &Likeness) -> Result<u32, u8> {
    if job.likeness == *likeness {
        return Ok(job.version);
    }
    job.version.checked_add(1).ok_or(FULL)
}

fn job_of(w: &Wanted, version: u32) -> Job {
    Job {
        name: w.name.clone(),
        version,
        likeness: w.likeness.clone(),
        count: w.count,
        least: w.least,
        most: w.most,
    }
}

fn end(s: &mut State, name: &[u8]) -> Result<(), u8> {
    s.job(name).ok_or(UNKNOWN)?;
    s.jobs.retain(|job| job.name != name);
    Ok(())
}

fn add(s: &mut State, a: &Added) -> Result<(), u8> {
    if s.machine(a.machine).is_some() {
        return Err(THERE);
    }
    if a.cpu > 1_000_000_000 || a.memory > 1_000_000_000 || a.tags.len() > 16 {
        return Err(RANGE);
    }
    if s.machines.len() >= 256 {
        return Err(FULL);
    }
    s.machines.push(Machine {
        number: a.machine,
        cpu: a.cpu,
        memory: a.memory,
        tags: a.tags.clone(),
        open: true,
        life: 0,
        report: 0,
        heard: 0,
    });
    Ok(())
}

fn open(s: &mut State, machine: u16, open: bool) -> Result<(), u8> {
    s.machine(machine).ok_or(UNKNOWN)?.open = open;
    Ok(())
}

fn forget(s: &mut State, machine: u16) -> Result<(), u8> {
    s.machine(machine).ok_or(UNKNOWN)?;
    s.machines.retain(|m| m.number != machine);
    s.tasks.retain(|task| !task.is_on(machine));
    Ok(())
}

fn hear(s: &mut State, r: &Report) -> Result<(), u8> {
    if r.life > LAST || r.number > LAST || r.tasks.len() > 2048 {
        return Err(RANGE);
    }
    let now = s.now;
    let machine = s.machine(r.machine).ok_or(UNKNOWN)?;
    if (r.life, r.number) <= (machine.life, machine.report) {
        return Err(STALE);
    }
    (machine.life, machine.report, machine.heard) = (r.life, r.number, now);
    s.tasks
        .retain_mut(|task| !task.is_on(r.machine) || hear_task(task, r));
    Ok(())
}

/// What a report makes of a task on its machine; false if it is gone.
fn hear_task(task: &mut Task, r: &Report) -> bool {
    if task.life != r.life {
        return false;
    }
    let seen = r.tasks.iter().find(|seen| seen.task == task.number);
    if task.phase == Phase::Ending {
        return seen.is_some();
    }
    let ready = seen.is_some_and(|seen| seen.ready);
    task.phase = if ready { Phase::Ready } else { Phase::Told };
    true
}

fn tell(s: &mut State, time: u64) -> Result<(), u8> {
    if time == 0 || time > LAST {
        return Err(RANGE);
    }
    s.now = s.now.max(time);
    for i in 0..s.tasks.len() {
        if s.tasks[i].phase == Phase::Ready && !s.hears(s.tasks[i].machine) {
            s.tasks[i].phase = Phase::Told;
        }
    }
    Ok(())
}

fn run(s: &State, r: &Report) -> Answer {
    let stays = s.tasks_on(r.machine).filter(|t| t.phase != Phase::Ending);
    let orders = stays.map(|task| Order {
        task: task.number,
        likeness: task.likeness.clone(),
    });
    Answer::Run(Run {
        machine: r.machine,
        life: r.life,
        number: r.number,
        orders: orders.collect(),
    })
}

fn show(s: &State, name: &[u8]) -> Answer {
    let tasks = s.tasks.iter().filter(|task| task.job == name);
    let lines = tasks.map(|task| Line {
        task: task.number,
        version: task.version,
        phase: task.phase,
        machine: task.machine,
    });
    Answer::Lines(lines.collect())
}
