//! The home words: jobs, machines and tasks in rows, with holes where some are gone.

use crate::rules::{Job, Likeness, Machine, Phase, State, Task};

pub const HOME_WORDS: usize = 68_104;

struct Table {
    base: usize,
    width: usize,
    most: usize,
    /// The home word that says how many rows are in use.
    counted: usize,
    /// The words by which a row is known again.
    key: std::ops::Range<usize>,
}

const JOBS: Table = Table {
    base: 8,
    width: 26,
    most: 256,
    counted: 1,
    key: 14..23,
};
const MACHINES: Table = Table {
    base: 6_664,
    width: 24,
    most: 256,
    counted: 2,
    key: 1..2,
};
const TASKS: Table = Table {
    base: 12_808,
    width: 27,
    most: 2048,
    counted: 3,
    key: 0..1,
};

/// Brings the home words from what was there before to what is there now.
pub fn follow(home: &mut [u64], s: &State) {
    home[0] = s.next - 1;
    JOBS.follow(home, &s.jobs.iter().map(job_row).collect::<Vec<_>>());
    MACHINES.follow(
        home,
        &s.machines.iter().map(machine_row).collect::<Vec<_>>(),
    );
    TASKS.follow(home, &s.tasks.iter().map(task_row).collect::<Vec<_>>());
}

/// What home words stand for when the herd wakes with them.
pub fn read(home: &[u64]) -> State {
    State {
        now: 0,
        next: home[0] + 1,
        jobs: JOBS.rows(home).map(read_job).collect(),
        machines: MACHINES.rows(home).map(read_machine).collect(),
        tasks: TASKS.rows(home).map(read_task).collect(),
    }
}

impl Table {
    fn rows<'a>(&self, home: &'a [u64]) -> impl Iterator<Item = &'a [u64]> {
        let words = &home[self.base..][..self.width * home[self.counted] as usize];
        words.chunks(self.width).filter(|row| row[0] != 0)
    }

    fn row<'a>(&self, home: &'a mut [u64], i: usize) -> &'a mut [u64] {
        &mut home[self.base + i * self.width..][..self.width]
    }

    /// Both the rows and the list keep their order, so one walk finds what stayed; the rest of the list is new.
    fn follow<const W: usize>(&self, home: &mut [u64], list: &[[u64; W]]) {
        let mut left = list;
        for i in 0..home[self.counted] as usize {
            let row = self.row(home, i);
            if row[0] == 0 {
                continue;
            }
            match left.split_first() {
                Some((now, rest)) if now[self.key.clone()] == row[self.key.clone()] => {
                    row.copy_from_slice(now);
                    left = rest;
                }
                _ => row[0] = 0,
            }
        }
        for new in left {
            self.push(home, new);
        }
    }

    fn push(&self, home: &mut [u64], new: &[u64]) {
        if home[self.counted] as usize == self.most {
            self.close(home);
        }
        let n = home[self.counted] as usize;
        self.row(home, n).copy_from_slice(new);
        home[self.counted] += 1;
    }

    /// Moves the rows that are no holes together. What stood behind them stays there.
    fn close(&self, home: &mut [u64]) {
        let mut to = 0;
        for i in 0..home[self.counted] as usize {
            let from = self.base + i * self.width;
            if home[from] != 0 {
                home.copy_within(from..from + self.width, self.base + to * self.width);
                to += 1;
            }
        }
        home[self.counted] = to as u64;
    }
}

/// What jobs and tasks have alike: version, likeness, name.
fn kind_row(version: u32, likeness: &Likeness, name: &[u8]) -> [u64; 23] {
    let mut row = [0; 23];
    row[0] = u64::from(version);
    row[1] = u64::from(likeness.image);
    row[2] = u64::from(likeness.cpu);
    row[3] = u64::from(likeness.memory);
    row[4] = u64::from(likeness.apart);
    row[5] = likeness.tags.len() as u64;
    write_tags(&mut row[6..14], &likeness.tags);
    row[14] = name.len() as u64;
    for (i, byte) in name.iter().enumerate() {
        row[15 + i / 8] |= u64::from(*byte) << (56 - 8 * (i % 8));
    }
    row
}

fn job_row(job: &Job) -> [u64; 26] {
    let mut row = [0; 26];
    row[..23].copy_from_slice(&kind_row(job.version, &job.likeness, &job.name));
    row[23..].copy_from_slice(&[job.count, job.least, job.most].map(u64::from));
    row
}

fn machine_row(m: &Machine) -> [u64; 24] {
    let mut row = [0; 24];
    row[0] = 1;
    row[1] = u64::from(m.number);
    row[2] = u64::from(m.cpu);
    row[3] = u64::from(m.memory);
    row[4] = u64::from(m.open);
    row[5] = m.life;
    row[6] = m.report;
    row[7] = m.tags.len() as u64;
    write_tags(&mut row[8..], &m.tags);
    row
}

fn task_row(task: &Task) -> [u64; 27] {
    let mut row = [0; 27];
    row[0] = task.number;
    row[1] = match task.phase {
        Phase::Waiting => 0,
        Phase::Told | Phase::Ready => 1,
        Phase::Ending => 2,
    };
    row[2] = u64::from(task.machine);
    row[3] = task.life;
    row[4..].copy_from_slice(&kind_row(task.version, &task.likeness, &task.job));
    row
}

fn write_tags(words: &mut [u64], tags: &[u32]) {
    for (word, tag) in words.iter_mut().zip(tags) {
        *word = u64::from(*tag);
    }
}

fn read_tags(words: &[u64], count: u64) -> Vec<u32> {
    let tags = words[..count as usize].iter();
    tags.map(|tag| *tag as u32).collect()
}

fn read_likeness(row: &[u64]) -> Likeness {
    Likeness {
        image: row[1] as u32,
        cpu: row[2] as u32,
        memory: row[3] as u32,
        tags: read_tags(&row[6..14], row[5]),
        apart: row[4] != 0,
    }
}

fn read_name(row: &[u64]) -> Vec<u8> {
    let bytes = row[15..23].iter().flat_map(|word| word.to_be_bytes());
    bytes.take(row[14] as usize).collect()
}

fn read_job(row: &[u64]) -> Job {
    Job {
        name: read_name(row),
        version: row[0] as u32,
        likeness: read_likeness(row),
        count: row[23] as u16,
        least: row[24] as u16,
        most: row[25] as u16,
    }
}

fn read_machine(row: &[u64]) -> Machine {
    Machine {
        number: row[1] as u16,
        cpu: row[2] as u32,
        memory: row[3] as u32,
        tags: read_tags(&row[8..], row[7]),
        open: row[4] != 0,
        life: row[5],
        report: row[6],
        heard: 0,
    }
}

fn read_task(row: &[u64]) -> Task {
    Task {
        number: row[0],
        job: read_name(&row[4..]),
        version: row[4] as u32,
        likeness: read_likeness(&row[4..]),
        phase: match row[1] {
            0 => Phase::Waiting,
            1 => Phase::Told,
            _ => Phase::Ending,
        },
        machine: row[2] as u16,
        life: row[3],
    }
}

#[cfg(test)]
mod tests;
