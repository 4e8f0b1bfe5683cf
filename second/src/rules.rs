//! What there is, and the pass that brings it one step nearer to what is wanted.

/// The highest life, report number and time; task numbers stay below it.
pub const LAST: u64 = 1 << 62;
const MOST_TASKS: usize = 2048;
const PRESENT_FOR: u64 = 30_000;

#[derive(Clone, Debug, PartialEq, Eq)]
pub struct Machine {
    pub number: u16,
    pub cpu: u32,
    pub memory: u32,
    pub tags: Vec<u32>,
    pub open: bool,
    pub life: u64,
    pub report: u64,
    /// The time at which it was last heard, 0 if it wasn't since the herd came up.
    pub heard: u64,
}

#[derive(Clone, Debug, PartialEq, Eq)]
pub struct Likeness {
    pub image: u32,
    pub cpu: u32,
    pub memory: u32,
    pub tags: Vec<u32>,
    pub apart: bool,
}

#[derive(Clone, Debug, PartialEq, Eq)]
pub struct Job {
    pub name: Vec<u8>,
    pub version: u32,
    pub likeness: Likeness,
    pub count: u16,
    pub least: u16,
    pub most: u16,
}

#[derive(Clone, Copy, Debug, PartialEq, Eq)]
pub enum Phase {
    Waiting,
    Told,
    Ready,
    Ending,
}

/// Machine and life are 0 while it waits.
#[derive(Clone, Debug, PartialEq, Eq)]
pub struct Task {
    pub number: u64,
    pub job: Vec<u8>,
    pub version: u32,
    pub likeness: Likeness,
    pub phase: Phase,
    pub machine: u16,
    pub life: u64,
}

/// Jobs as first set, machines as added, tasks by number.
#[derive(Clone, Debug, PartialEq, Eq)]
pub struct State {
    pub now: u64,
    pub next: u64,
    pub jobs: Vec<Job>,
    pub machines: Vec<Machine>,
    pub tasks: Vec<Task>,
}

/// Looks on whenever a task came: how rows are kept depends on what there was just then.
pub type Watch<'a> = dyn FnMut(&State) + 'a;

impl Task {
    pub fn is_on(&self, machine: u16) -> bool {
        self.phase != Phase::Waiting && self.machine == machine
    }
}

impl State {
    pub fn blank() -> State {
        State {
            now: 0,
            next: 1,
            jobs: Vec::new(),
            machines: Vec::new(),
            tasks: Vec::new(),
        }
    }

    pub fn job(&mut self, name: &[u8]) -> Option<&mut Job> {
        self.jobs.iter_mut().find(|job| job.name == name)
    }

    pub fn machine(&mut self, number: u16) -> Option<&mut Machine> {
        self.machines.iter_mut().find(|m| m.number == number)
    }

    pub fn tasks_on(&self, machine: u16) -> impl Iterator<Item = &Task> {
        self.tasks.iter().filter(move |task| task.is_on(machine))
    }

    /// Cpu and memory of all that is on it, also of what ends there.
    pub fn load(&self, machine: u16) -> (u64, u64) {
        let mut sum = (0, 0);
        for task in self.tasks_on(machine) {
            sum.0 += u64::from(task.likeness.cpu);
            sum.1 += u64::from(task.likeness.memory);
        }
        sum
    }

    pub fn is_present(&self, machine: &Machine) -> bool {
        machine.heard != 0 && self.now <= machine.heard + PRESENT_FOR
    }

    pub fn hears(&self, number: u16) -> bool {
        let mut all = self.machines.iter();
        all.any(|m| m.number == number && self.is_present(m))
    }

    pub fn settle(&mut self, watch: &mut Watch) {
        self.end_orphans();
        for job in self.jobs.clone() {
            self.step(&job, watch);
        }
        for i in 0..self.tasks.len() {
            if self.tasks[i].phase == Phase::Waiting {
                self.place(i);
            }
        }
    }

    fn end_orphans(&mut self) {
        let jobs = &self.jobs;
        let is_orphan = |task: &Task| !jobs.iter().any(|job| job.name == task.job);
        self.tasks
            .retain(|task| !(is_orphan(task) && task.phase == Phase::Waiting));
        for task in self.tasks.iter_mut().filter(|task| is_orphan(task)) {
            task.phase = Phase::Ending;
        }
    }

    fn step(&mut self, job: &Job, watch: &mut Watch) {
        if let Some(number) = self.to_end(job, true) {
            self.end(number);
            self.grow(job, watch);
        } else if self.alive(job, false).count() > usize::from(job.count) {
            if let Some(number) = self.to_end(job, false) {
                self.end(number);
            }
        } else {
            self.grow(job, watch);
        }
    }

    fn of_job<'a>(&'a self, job: &'a Job) -> impl DoubleEndedIterator<Item = &'a Task> {
        self.tasks.iter().filter(|task| task.job == job.name)
    }

    /// Its tasks that aren't ending, of older versions or of the present one.
    fn alive<'a>(&'a self, job: &'a Job, old: bool) -> impl DoubleEndedIterator<Item = &'a Task> {
        self.of_job(job)
            .filter(move |task| (task.version != job.version) == old)
            .filter(|task| task.phase != Phase::Ending)
    }

    /// The last that surely isn't ready; else the last ready one, if more are ready than are to stay.
    fn to_end(&self, job: &Job, old: bool) -> Option<u64> {
        let is_sure = |task: &Task| task.phase == Phase::Waiting || self.hears(task.machine);
        let idle = |task: &&Task| task.phase != Phase::Ready && is_sure(task);
        if let Some(task) = self.alive(job, old).rfind(idle) {
            return Some(task.number);
        }
        let is_ready = |task: &&Task| task.phase == Phase::Ready;
        if self.of_job(job).filter(is_ready).count() <= usize::from(job.least) {
            return None;
        }
        self.alive(job, old).rfind(is_ready).map(|task| task.number)
    }

    fn end(&mut self, number: u64) {
        self.tasks
            .retain(|task| task.number != number || task.phase != Phase::Waiting);
        for task in &mut self.tasks {
            if task.number == number {
                task.phase = Phase::Ending;
            }
        }
    }

    fn grow(&mut self, job: &Job, watch: &mut Watch) {
        let missing = self.alive(job, false).count() < usize::from(job.count);
        let below_most = self.of_job(job).count() < usize::from(job.most);
        if !missing || !below_most || self.tasks.len() >= MOST_TASKS || self.next >= LAST {
            return;
        }
        self.tasks.push(Task {
            number: self.next,
            job: job.name.clone(),
            version: job.version,
            likeness: job.likeness.clone(),
            phase: Phase::Waiting,
            machine: 0,
            life: 0,
        });
        self.next += 1;
        watch(self);
    }

    pub fn takes(&self, machine: &Machine, task: &Task) -> bool {
        if !machine.open || !self.is_present(machine) {
            return false;
        }
        let wanted = &task.likeness;
        if !wanted.tags.iter().all(|tag| machine.tags.contains(tag)) {
            return false;
        }
        let mut there = self.tasks_on(machine.number);
        if wanted.apart && there.any(|other| other.job == task.job) {
            return false;
        }
        let (cpu, memory) = self.load(machine.number);
        cpu + u64::from(wanted.cpu) <= u64::from(machine.cpu)
            && memory + u64::from(wanted.memory) <= u64::from(machine.memory)
    }

    /// To the machine with most cpu left; of those alike to the first.
    fn place(&mut self, i: usize) {
        let mut best: Option<(u64, u16, u64)> = None;
        for machine in &self.machines {
            if !self.takes(machine, &self.tasks[i]) {
                continue;
            }
            let left = u64::from(machine.cpu) - self.load(machine.number).0;
            if best.is_none_or(|(most, ..)| left > most) {
                best = Some((left, machine.number, machine.life));
            }
        }
        if let Some((_, machine, life)) = best {
            let task = &mut self.tasks[i];
            (task.phase, task.machine, task.life) = (Phase::Told, machine, life);
        }
    }

    /// What the herd still has when its power failed: no time, nobody heard, nothing ready.
    #[cfg(test)]
    pub fn down(mut self) -> State {
        self.now = 0;
        for machine in &mut self.machines {
            machine.heard = 0;
        }
        for task in &mut self.tasks {
            if task.phase == Phase::Ready {
                task.phase = Phase::Told;
            }
        }
        self
    }
}
