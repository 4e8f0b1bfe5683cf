//! Rounds until the herd is at rest, and how many are promised.

use super::Play;
use crate::agent::report_line;
use crate::calls::{Answer, Call};
use crate::rules::{Job, Phase, State, Task};
use crate::show::text;

const LATELY: u64 = 30_000;

impl Play {
    /// False where the promise is broken.
    pub(super) fn settle(&mut self, ms: u64) -> bool {
        self.lines.bad = false;
        self.herd.kept.stay_up();
        let told = self.tell_next(ms);
        self.calm();
        let promised = enough(&self.herd.state);
        let mut why = self.not_asked(ms, told);
        let mut rounds = 0;
        while rounds < promised {
            let before = snapshot(&self.herd.state);
            let hopeless = why.is_some();
            why = self.calm_round(ms, why);
            rounds += 1;
            let s = &self.herd.state;
            if is_at_rest(s) || hopeless && snapshot(s) == before {
                break;
            }
        }
        let rest = is_at_rest(&self.herd.state);
        let broken = !rest && why.is_none();
        let word = match (rest, broken) {
            (true, _) => "at rest",
            (false, true) => "NOT AT REST",
            (false, false) => "not at rest",
        };
        let promise = match why {
            None => format!("{promised} promised"),
            Some(why) => format!("nothing promised: {why}"),
        };
        self.print(format!(
            "settle {ms}: {word} after {rounds} rounds, {promise}"
        ));
        !broken
    }

    fn tell_next(&mut self, ms: u64) -> bool {
        let time = self.time.saturating_add(ms);
        matches!(self.call(&Call::Time(time)), Ok(Answer::Yes))
    }

    /// All that is on the lines arrives, and all that runs is ready.
    fn calm(&mut self) {
        self.deliver(&mut |_, _| {});
        for agent in &mut self.agents {
            agent.runs.iter_mut().for_each(|seen| seen.ready = true);
        }
    }

    /// One round; why nothing is promised any more, if that is so.
    fn calm_round(&mut self, ms: u64, why: Option<String>) -> Option<String> {
        for i in 0..self.agents.len() {
            let report = self.agents[i].report();
            self.send(self.agents[i].machine, report_line(report), true);
        }
        self.calm();
        let told = self.tell_next(ms);
        let s = &self.herd.state;
        if why.is_some() || is_at_rest(s) {
            return why;
        }
        if !told {
            return Some("the time was not told".into());
        }
        let lacking = s.jobs.iter().find(|job| !has_room(s, job))?;
        let name = text(&lacking.name);
        Some(format!("no machine takes one more task of {name}"))
    }

    /// What is asked of machines and times, before any round.
    fn not_asked(&self, ms: u64, told: bool) -> Option<String> {
        let machines = &self.herd.state.machines;
        if machines.is_empty() {
            return Some("the herd has no machine".into());
        }
        let is_played = |number: u16| self.agents.iter().any(|a| a.machine == number);
        if let Some(machine) = machines.iter().find(|m| !is_played(m.number)) {
            return Some(format!("machine {} is not played", machine.number));
        }
        if ms > LATELY {
            return Some(format!("the time goes on by more than {LATELY} ms"));
        }
        (!told).then(|| "the time was not told".into())
    }
}

fn has_room(s: &State, job: &Job) -> bool {
    let fresh = Task {
        number: 0,
        job: job.name.clone(),
        version: job.version,
        likeness: job.likeness.clone(),
        phase: Phase::Waiting,
        machine: 0,
        life: 0,
    };
    s.machines.iter().any(|machine| s.takes(machine, &fresh))
}

/// Of each task its number, phase and machine.
fn snapshot(s: &State) -> Vec<(u64, Phase, u16)> {
    let tasks = s.tasks.iter();
    tasks.map(|t| (t.number, t.phase, t.machine)).collect()
}

/// Each job has exactly as many tasks as are wanted, of its present version, all ready; nothing else is there.
fn is_at_rest(s: &State) -> bool {
    let wanted: usize = s.jobs.iter().map(|job| usize::from(job.count)).sum();
    let is_right = |job: &Job, task: &Task| {
        task.job == job.name && task.version == job.version && task.phase == Phase::Ready
    };
    let exact = |job: &Job| {
        let right = s.tasks.iter().filter(|task| is_right(job, task)).count();
        right == usize::from(job.count)
    };
    s.tasks.len() == wanted && s.jobs.iter().all(exact)
}

/// So many rounds are enough: by the largest job, where the limit of 2,048 tasks cannot bind, and else by all jobs together.
fn enough(s: &State) -> usize {
    let of = |job: &Job| s.tasks.iter().filter(|task| task.job == job.name).count();
    let is_alive = |task: &&Task| task.phase != Phase::Ending;
    let alive = |job: &Job| {
        let mine = s.tasks.iter().filter(|task| task.job == job.name);
        mine.filter(is_alive).count()
    };
    let tasks: usize = s.jobs.iter().map(of).sum();
    let widest: usize = s.jobs.iter().map(|j| of(j).max(usize::from(j.most))).sum();
    let work = if widest + (s.tasks.len() - tasks) <= 2048 {
        let sizes = s.jobs.iter().map(|job| alive(job) + usize::from(job.count));
        sizes.max().unwrap_or(0)
    } else {
        let wanted: usize = s.jobs.iter().map(|job| usize::from(job.count)).sum();
        s.tasks.iter().filter(is_alive).count() + wanted
    };
    3 + 2 * work
}
