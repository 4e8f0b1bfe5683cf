//! What is printed, in words.

use crate::agent::{Agent, Deed};
use crate::bytes::{read_answer, read_call, unframed};
use crate::calls::{Answer, Call, Line, Order, Seen};
use crate::kept::Dark;
use crate::lines::Letter;
use crate::rules::{Machine, Phase, State, Task};

pub const FAILED: &str = "the power failed, and the herd woke";

/// Parted by a comma and a space, or what is said of none.
fn listed(words: impl Iterator<Item = String>, none: &str) -> String {
    let all: Vec<String> = words.collect();
    if all.is_empty() {
        none.into()
    } else {
        all.join(", ")
    }
}

pub fn text(bytes: &[u8]) -> String {
    String::from_utf8_lossy(bytes).into_owned()
}

pub fn hex(bytes: &[u8]) -> String {
    bytes.iter().map(|byte| format!("{byte:02x}")).collect()
}

pub fn answered(answer: &Result<Answer, Dark>) -> String {
    match answer {
        Err(Dark) => FAILED.into(),
        Ok(Answer::Yes) => "yes".into(),
        Ok(Answer::No(why)) => format!("turned away by {why}, {}", reason(*why)),
        Ok(Answer::Lines(lines)) => format!("{} tasks", lines.len()),
        Ok(Answer::Run(run)) => format!("run {}", orders(&run.orders)),
    }
}

fn reason(why: u8) -> &'static str {
    match why {
        1 => "out of range, or no call",
        2 => "no such job or machine",
        3 => "that machine is there",
        5 => "an older life, or no higher number",
        8 => "no more room",
        10 => "no time was told",
        _ => "not built yet",
    }
}

fn orders(orders: &[Order]) -> String {
    listed(orders.iter().map(|o| o.task.to_string()), "nothing")
}

fn phase(phase: Phase) -> &'static str {
    match phase {
        Phase::Waiting => "waiting",
        Phase::Told => "told",
        Phase::Ready => "ready",
        Phase::Ending => "ending",
    }
}

/// The call's own words, without its answer.
pub fn said(call: &Call) -> String {
    match call {
        Call::Set(wanted) => format!("set {}", text(&wanted.name)),
        Call::End(name) => format!("end {}", text(name)),
        Call::Add(added) => format!("add {}", added.machine),
        Call::Close(machine) => format!("close {machine}"),
        Call::Reopen(machine) => format!("reopen {machine}"),
        Call::Forget(machine) => format!("forget {machine}"),
        Call::Report(report) => format!("report {}", report.machine),
        Call::Time(time) => format!("time {time}"),
        Call::Show(name) => format!("show {}", text(name)),
    }
}

pub fn task_line(line: &Line) -> String {
    let words = format!("  task {}, version {}: ", line.task, line.version);
    match line.phase {
        Phase::Waiting => format!("{words}waiting"),
        other => format!("{words}{} on machine {}", phase(other), line.machine),
    }
}

pub fn seen(tasks: &[Seen]) -> String {
    let words = tasks.iter().map(|seen| {
        let ready = if seen.ready { "ready" } else { "not ready" };
        format!("{} {ready}", seen.task)
    });
    listed(words, "nothing")
}

pub fn deeds(deeds: &[Deed]) -> String {
    let words = deeds.iter().map(|deed| match deed {
        Deed::Stop(task) => format!("stop {task}"),
        Deed::Start(task) => format!("start {task}"),
    });
    listed(words, "nothing to do")
}

pub fn letter(letter: &Letter) -> String {
    let (_, body) = unframed(&letter.line);
    if let Some(Call::Report(r)) = read_call(body).filter(|_| letter.to_herd) {
        return format!(
            "report of {}, life {}, number {}",
            r.machine, r.life, r.number
        );
    }
    match read_answer(body) {
        Some(Answer::Run(r)) => format!(
            "answer to {}, life {}, number {}",
            letter.machine, r.life, r.number
        ),
        Some(Answer::No(why)) => format!("answer to {}, turned away by {why}", letter.machine),
        _ => unreachable!("a report is answered by a run, or turned away"),
    }
}

/// The counts of a round.
pub fn counts(s: &State, agents: &[Agent]) -> String {
    let phased = |phase| s.tasks.iter().filter(|t| t.phase == phase).count();
    let runs = || agents.iter().flat_map(|agent| &agent.runs);
    format!(
        "{} waiting, {} told, {} ready, {} ending; {} run, {} ready",
        phased(Phase::Waiting),
        phased(Phase::Told),
        phased(Phase::Ready),
        phased(Phase::Ending),
        runs().count(),
        runs().filter(|seen| seen.ready).count()
    )
}

fn real(run: Option<&Seen>) -> &'static str {
    match run {
        Some(Seen { ready: true, .. }) => "runs, ready",
        Some(_) => "runs, not ready",
        None => "doesn't run",
    }
}

/// What runs where: what the herd counts, and what there is.
pub fn all(s: &State, agents: &[Agent], letters: usize) -> Vec<String> {
    let mut out = vec![format!("time {}", s.now), format!("letters {letters}")];
    for machine in &s.machines {
        let agent = agents.iter().find(|a| a.machine == machine.number);
        out.push(machine_line(s, machine));
        out.extend(s.tasks_on(machine.number).map(|t| counted(t, agent)));
        out.extend(agent.into_iter().flat_map(|a| uncounted(s, a)));
    }
    let has = |agent: &&Agent| s.machines.iter().any(|m| m.number == agent.machine);
    for agent in agents.iter().filter(|agent| !has(agent)) {
        out.push(format!("machine {}: not added", agent.machine));
        out.extend(uncounted(s, agent));
    }
    let mut waiting: Vec<String> = s.tasks.iter().filter_map(waiting_line).collect();
    if waiting.is_empty() {
        waiting.push("waiting: none".into());
    }
    out.extend(waiting);
    out
}

fn machine_line(s: &State, m: &Machine) -> String {
    let open = if m.open { "open" } else { "closed" };
    let present = if s.is_present(m) { "present" } else { "absent" };
    let (cpu, memory) = s.load(m.number);
    format!(
        "machine {}: {open}, {present}, life {}, number {}, cpu {cpu} of {}, memory {memory} of {}",
        m.number, m.life, m.report, m.cpu, m.memory
    )
}

fn counted(task: &Task, agent: Option<&Agent>) -> String {
    format!(
        "  task {} of {}, version {}: {}; {}",
        task.number,
        text(&task.job),
        task.version,
        phase(task.phase),
        real(agent.and_then(|agent| agent.run(task.number)))
    )
}

fn uncounted(s: &State, agent: &Agent) -> Vec<String> {
    let counts = |seen: &Seen| {
        s.tasks_on(agent.machine)
            .any(|task| task.number == seen.task)
    };
    let others = agent.runs.iter().filter(|seen| !counts(seen));
    others
        .map(|seen| format!("  task {}: not counted; {}", seen.task, real(Some(seen))))
        .collect()
}

fn waiting_line(task: &Task) -> Option<String> {
    (task.phase == Phase::Waiting).then(|| {
        format!(
            "waiting: task {} of {}, version {}",
            task.number,
            text(&task.job),
            task.version
        )
    })
}
